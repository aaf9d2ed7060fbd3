//! The order in which stretches of work are begun.

use peer::two_bytes::process::mixed;

/// Each number once, and of each count one comes soon.
#[test]
fn numbers_are_mixed() {
    assert_eq!(mixed(&[]), []);
    assert_eq!(mixed(&[3, 0]), [0, 1, 2]);
    assert_eq!(mixed(&[4, 2]), [0, 4, 1, 2, 5, 3]);
    let order = mixed(&[70, 260, 3, 14]);
    assert!(order.iter().position(|&k| k >= 333).unwrap() < 20);
    let mut sorted = order;
    sorted.sort();
    assert_eq!(sorted, (0..347).collect::<Vec<_>>());
}
