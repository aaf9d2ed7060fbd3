//! Messages of T-11 in bytes: each kind's bytes, there and back, and every byte changed.

use peer::controller::damage::{damaged, damages_of, Damage};
use peer::controller::message::{decode, encode, MOST_BYTES};
use peer::controller::reading::read_message;
use peer::controller::records::{with_message, Reaches};
use peer::machine::*;
use peer::numbers::Numbers;

fn message(sender: u8, receiver: u8, call: u32, body: Body) -> Message {
    Message { sender, receiver, call, body }
}

/// One of each kind, with its bytes.
fn each_kind() -> [(Message, &'static [u8]); 6] {
    let group = 0x00ff_fffe;
    [
        (
            message(1, 2, 0x010203, Body::AreYouCoordinator),
            &[0x20, 0, 3, 1, 2, 1, 0x21, 0, 4, 0, 1, 2, 3],
        ),
        (
            message(16, 15, 1, Body::AreYouThere { group }),
            &[0x20, 0, 3, 16, 15, 2, 0x21, 0, 4, 0, 0, 0, 1, 0x22, 0, 4, 0, 255, 255, 254],
        ),
        (
            message(3, 4, 0xff_ffff, Body::Invitation { group: 0x1234 }),
            &[0x20, 0, 3, 3, 4, 3, 0x21, 0, 4, 0, 255, 255, 255, 0x22, 0, 4, 0, 0, 0x12, 0x34],
        ),
        (
            message(4, 3, 256, Body::Accept { group: 16 }),
            &[0x20, 0, 3, 4, 3, 4, 0x21, 0, 4, 0, 0, 1, 0, 0x22, 0, 4, 0, 0, 0, 16],
        ),
        (
            message(2, 1, 9, Body::Ready { group: 33, task: 0x6465 }),
            &[
                0x20, 0, 3, 2, 1, 5, 0x21, 0, 4, 0, 0, 0, 9, 0x22, 0, 4, 0, 0, 0, 33, 0x23, 0, 2,
                0x64, 0x65,
            ],
        ),
        (
            message(1, 2, 7, Body::Reply { yes: true }),
            &[0x20, 0, 3, 1, 2, 6, 0x21, 0, 4, 0, 0, 0, 7, 0x24, 0, 1, 1],
        ),
    ]
}

#[test]
fn bytes_of_each_kind() {
    for (m, bytes) in each_kind() {
        assert_eq!(encode(&m), bytes);
        assert_eq!(decode(bytes), Some(m));
        assert_eq!(read_message(16, bytes), Some(m));
        assert!(bytes.len() <= MOST_BYTES);
    }
    let no = message(1, 2, 7, Body::Reply { yes: false });
    assert_eq!(encode(&no).last(), Some(&0));
    assert_eq!(decode(&encode(&no)), Some(no));
}

/// What is encoded decodes to it, at the ends of all ranges too, and what is out of range is still of the form.
#[test]
fn there_and_back() {
    let calls = [0, 1, 255, 256, 65_536, MAX_CALL, MAX_CALL + 1, u32::MAX];
    let groups = [0, 1, 15, 16, 255, 256, 16 * MAX_COUNTER + 15, 16 * MAX_COUNTER + 16, u32::MAX];
    let tasks = [0, 99, 100, 255, 256, u16::MAX];
    let mut bodies = vec![Body::AreYouCoordinator];
    bodies.extend([true, false].map(|yes| Body::Reply { yes }));
    for group in groups {
        bodies.extend([
            Body::AreYouThere { group },
            Body::Invitation { group },
            Body::Accept { group },
        ]);
        bodies.extend(tasks.map(|task| Body::Ready { group, task }));
    }
    for ends in [(1, 2), (16, 1), (0, 0), (255, 17)] {
        for call in calls {
            for &body in &bodies {
                let m = message(ends.0, ends.1, call, body);
                assert_eq!(decode(&encode(&m)), Some(m));
                let read = read_message(16, &encode(&m));
                assert_eq!(read, Some(m).filter(|m| m.in_range(16)), "{m:?}");
            }
        }
    }
    for kind in [0, 7, 8, 255] {
        assert_eq!(decode(&encode(&message(1, 2, 3, Body::Unknown { kind }))), None);
    }
}

/// Each byte of a message of each kind, changed to each other value, is refused or another message with these
/// bytes. How many are still of the form is known: any sender, receiver, call, group and task, the kinds that carry
/// the same, and the other answer.
#[test]
fn every_byte_changed() {
    let right = [1530, 2552, 2552, 2552, 3060, 1531];
    for ((m, bytes), right) in each_kind().into_iter().zip(right) {
        let mut decoded = 0;
        for place in 0..bytes.len() {
            for byte in (0..=255).filter(|&byte| byte != bytes[place]) {
                let mut changed = bytes.to_vec();
                changed[place] = byte;
                if let Some(other) = decode(&changed) {
                    decoded += 1;
                    assert_ne!(other, m);
                    assert_eq!(encode(&other), changed);
                }
            }
        }
        assert_eq!(decoded, right, "{m:?}");
    }
}

/// Cut anywhere, and with any byte behind.
#[test]
fn cut_and_longer() {
    for (_, bytes) in each_kind() {
        for length in 0..bytes.len() {
            assert_eq!(decode(&bytes[..length]), None);
        }
        for byte in 0..=255 {
            assert_eq!(decode(&[bytes, &[byte]].concat()), None);
        }
    }
}

/// Bytes that decode are the encoding of what they decode to, and the two readings of the form agree. What each damage
/// must come to is said where it is made.
#[test]
fn damaged_messages() {
    let mut numbers = Numbers::new(11);
    let (mut read, mut refused) = (0, 0);
    for kind in 1..=6 {
        for damage in damages_of(kind) {
            for _ in 0..60 {
                let scene = with_message(Some(kind), &mut numbers);
                let Reaches::Message(m) = scene.reaches else {
                    panic!("{scene:?}");
                };
                assert!(m.in_range(scene.n) && m.body.kind() == kind && m.receiver == scene.own);
                let Some(bytes) = damaged(&m, scene.n, damage, &mut numbers) else {
                    continue;
                };
                let decoded = decode(&bytes);
                if let Some(other) = decoded {
                    assert_eq!(encode(&other), bytes);
                }
                match damage {
                    Damage::Cut(_) | Damage::Form(_) => assert_eq!(decoded, None, "{damage:?}"),
                    Damage::Changed(_) => assert_ne!(decoded, Some(m)),
                    Damage::Number(_) => {}
                }
                let in_range = decoded.filter(|m| m.in_range(scene.n));
                assert_eq!(read_message(scene.n, &bytes), in_range, "{bytes:02x?}");
                match in_range {
                    Some(_) => read += 1,
                    None => refused += 1,
                }
            }
        }
    }
    assert!(read > 3000 && refused > 15_000, "{read} {refused}");
}
