//! The wrong inputs with which the programs of T-01 and T-12 are compared, and work that is done side by side.

use peer::numbers::Numbers;
use peer::two_bytes::corners::{corners, rounds, Corner};
use peer::two_bytes::process::side_by_side;
use peer::two_bytes::{ALDEBARAN, SHORT_LISTS};

#[test]
fn random_inputs_meet_their_corners() {
    let numbers = &mut Numbers::new(1);
    for request in [&SHORT_LISTS, &ALDEBARAN] {
        for corner in corners(request) {
            for _ in 0..20 {
                let input = corner.random(request, numbers).bytes;
                assert!(corner.met(request, &input), "{}", corner.words(request));
                assert_eq!(request.text(&input), request.refusal);
            }
        }
    }
}

/// Each wrong input of up to three bytes meets a corner, and no right one does.
#[test]
fn corners_are_all_that_is_wrong() {
    for request in [&SHORT_LISTS, &ALDEBARAN] {
        let met = |input: &[u8]| -> Vec<Corner> {
            corners(request).into_iter().filter(|corner| corner.met(request, input)).collect()
        };
        assert_eq!(met(&[]), [Corner::NoBytes]);
        for a in 0..=255 {
            assert_eq!(met(&[a]), [Corner::OneByte]);
            for b in 0..=255 {
                let right = request.inputs().any(|input| input == (a, b));
                assert_eq!(met(&[a, b]).is_empty(), right, "{a} {b}");
                let three = if right { Corner::FurtherByte } else { Corner::ThreeBytes };
                assert_eq!(met(&[a, b, 0]), [three]);
            }
        }
        assert_eq!(met(&[1, 1, 1, 1]), [Corner::MoreBytes]);
        assert_eq!(met(&[1; 1_000_000]), [Corner::MoreBytes, Corner::MillionBytes]);
    }
    let met = |corner: Corner, input: [u8; 2]| corner.met(&ALDEBARAN, &input);
    for length in 0..=255 {
        assert_eq!(met(Corner::NextLength, [2, length]), length == 5);
        assert_eq!(met(Corner::HigherLength, [2, length]), length > 5);
        assert_eq!(met(Corner::LengthOfShortLists, [2, length]), (5..=7).contains(&length));
    }
    assert!(!corners(&SHORT_LISTS).contains(&Corner::LengthOfShortLists));
    assert_eq!((corners(&SHORT_LISTS).len(), corners(&ALDEBARAN).len()), (12, 13));
}

/// What is made for a corner is always met, so the others are met so often too.
#[test]
fn rounds_meet_each_corner_so_often() {
    for request in [&SHORT_LISTS, &ALDEBARAN] {
        let made: Vec<Vec<u8>> = rounds(&corners(request), 8)
            .into_iter()
            .map(|corner| corner.random(request, &mut Numbers::new(1)).bytes)
            .collect();
        for corner in corners(request) {
            let count = made.iter().filter(|input| corner.met(request, input)).count();
            assert!(count >= 8, "{}: {count}", corner.words(request));
        }
    }
}

#[test]
fn results_in_order() {
    assert_eq!(side_by_side(0, Ok), (vec![], Ok(())));
    assert_eq!(side_by_side(1000, Ok), ((0..1000).collect(), Ok(())));
}

/// The first error is that of the lowest number, also where a later one comes sooner, and it ends the work.
#[test]
fn the_first_error() {
    for first in [0, 1, 7, 500] {
        let worked = std::sync::atomic::AtomicUsize::new(0);
        let (results, found) = side_by_side(100_000, |k| {
            worked.fetch_add(1, std::sync::atomic::Ordering::Relaxed);
            if k == first {
                std::thread::sleep(std::time::Duration::from_millis(5));
            }
            if k >= first {
                Err(k.to_string())
            } else {
                Ok(k)
            }
        });
        assert_eq!(results, (0..first).collect::<Vec<_>>());
        assert_eq!(found, Err(first.to_string()));
        assert!(worked.into_inner() < first + 100);
    }
}
