//! What can be wrong with an input, and random inputs of each kind.

use crate::numbers::Numbers;
use crate::short;
use crate::two_bytes::process::Input;
use crate::two_bytes::Request;
use Corner::*;

const MILLION: usize = 1_000_000;

/// What is wrong with an input. Where n is, the length is right, and the other way round, but in `Both`.
#[derive(Clone, Copy, Debug, PartialEq, Eq, Hash)]
pub enum Corner {
    NoBytes,
    OneByte,
    ThreeBytes,
    FurtherByte,
    MoreBytes,
    /// It has more than three bytes too.
    MillionBytes,
    ZeroN,
    FourN,
    HigherN,
    NextLength,
    HigherLength,
    /// It is the next length too, or a higher one.
    LengthOfShortLists,
    Both,
}

const CORNERS: [Corner; 13] = [
    NoBytes,
    OneByte,
    ThreeBytes,
    FurtherByte,
    MoreBytes,
    MillionBytes,
    ZeroN,
    FourN,
    HigherN,
    NextLength,
    HigherLength,
    LengthOfShortLists,
    Both,
];

/// The corners of a request. T-01's own lengths are not too long for it.
pub fn corners(request: &Request) -> Vec<Corner> {
    let too_long = request.max_length < short::MAX_LENGTH;
    let possible = |corner: &Corner| *corner != LengthOfShortLists || too_long;
    CORNERS.into_iter().filter(possible).collect()
}

/// The corners for which an input is made, one after another, so that each is met so many times.
pub fn rounds(corners: &[Corner], times: usize) -> Vec<Corner> {
    let round = |k: usize| corners.iter().copied().filter(move |corner| corner.due(k));
    (0..times).flat_map(round).collect()
}

impl Corner {
    pub fn words(self, request: &Request) -> String {
        let next = request.max_length + 1;
        let words = match self {
            NoBytes => "no bytes",
            OneByte => "one byte",
            ThreeBytes => "three bytes that begin with no right input",
            FurtherByte => "a right input and a further byte",
            MoreBytes => "more than three bytes",
            MillionBytes => "a million bytes",
            ZeroN => "n = 0",
            FourN => "n = 4",
            HigherN => "n above 4",
            NextLength => return format!("length {next}"),
            HigherLength => return format!("length above {next}"),
            LengthOfShortLists => {
                return format!("length {next} to {}, which T-01 takes", short::MAX_LENGTH)
            }
            Both => "n and length outside their ranges",
        };
        words.to_string()
    }

    /// Whether an input is made for it in round k. What is made for others meets these two in each round.
    fn due(self, k: usize) -> bool {
        !matches!(self, MoreBytes | LengthOfShortLists) || k.is_multiple_of(4)
    }

    /// Whether an input meets it.
    pub fn met(self, request: &Request, input: &[u8]) -> bool {
        let right_n = |n| (1..=short::MAX_N).contains(&n);
        let right_length = |length| length <= request.max_length;
        let right = |n, length| right_n(n) && right_length(length);
        let next = request.max_length + 1;
        match (self, input) {
            (NoBytes, []) | (OneByte, [_]) | (MoreBytes, [_, _, _, _, ..]) => true,
            (ThreeBytes, &[n, length, _]) => !right(n, length),
            (FurtherByte, &[n, length, _]) => right(n, length),
            (MillionBytes, _) => input.len() == MILLION,
            (ZeroN, &[0, length]) | (FourN, &[4, length]) | (HigherN, &[5..=255, length]) => {
                right_length(length)
            }
            (NextLength, &[n, length]) => right_n(n) && length == next,
            (HigherLength, &[n, length]) => right_n(n) && length > next,
            (LengthOfShortLists, &[n, length]) => {
                right_n(n) && !right_length(length) && length <= short::MAX_LENGTH
            }
            (Both, &[n, length]) => !right_n(n) && !right_length(length),
            _ => false,
        }
    }

    /// A random input that meets it.
    pub fn random(self, request: &Request, numbers: &mut Numbers) -> Input {
        let max_length = u32::from(request.max_length);
        let n = numbers.between(1, u32::from(short::MAX_N)) as u8;
        let length = numbers.between(0, max_length) as u8;
        let higher_n = numbers.between(5, 255) as u8;
        let wrong_n = numbers.of(&[0, 4, higher_n]);
        let next_length = request.max_length + 1;
        let higher_length = numbers.between(max_length + 2, 255) as u8;
        let wrong_length = numbers.of(&[next_length, higher_length]);
        let byte = numbers.byte();
        let bytes = match self {
            NoBytes => vec![],
            OneByte => vec![numbers.of(&[n, length, byte])],
            ThreeBytes if numbers.one_in(2) => vec![wrong_n, length, byte],
            ThreeBytes => vec![n, wrong_length, byte],
            FurtherByte => vec![n, length, byte],
            MoreBytes => {
                let mut bytes = vec![0; numbers.between(4, 40) as usize];
                numbers.fill(&mut bytes);
                if numbers.one_in(2) {
                    bytes[..2].copy_from_slice(&[n, length]);
                }
                bytes
            }
            // One byte again and again, a right input first or again and again, and random bytes.
            MillionBytes => match numbers.below(4) {
                0 => vec![byte; MILLION],
                1 => [vec![n, length], vec![byte; MILLION - 2]].concat(),
                2 => [n, length].repeat(MILLION / 2),
                _ => {
                    let mut bytes = vec![0; MILLION];
                    numbers.fill(&mut bytes);
                    bytes
                }
            },
            ZeroN => vec![0, length],
            FourN => vec![4, length],
            HigherN => vec![higher_n, length],
            NextLength => vec![n, next_length],
            HigherLength => vec![n, higher_length],
            LengthOfShortLists => {
                vec![n, numbers.between(max_length + 1, u32::from(short::MAX_LENGTH)) as u8]
            }
            Both => vec![wrong_n, wrong_length],
        };
        // A further byte that often is not there yet when the first two are.
        let pause = (self == FurtherByte && numbers.one_in(2)).then_some(2);
        Input { bytes, pause }
    }
}
