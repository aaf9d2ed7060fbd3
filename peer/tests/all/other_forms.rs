//! A table in bytes in another form that is read as the same, for the tests of the boundary.

use peer::numbers::Numbers;
use peer::proved::{TableBytes, TABLE_BYTES};

/// The k-th form: cut short or with bytes behind it, and some with other remainders of status and activity.
/// What is cut off is cleared in the bytes themselves too, as it is read as zeros. Half of the time nothing is
/// cut off but zeros at the end; a table in range has none there, since its limits stand last.
pub fn in_another_form(k: u32, bytes: &mut TableBytes, numbers: &mut Numbers) -> Vec<u8> {
    let mut given = bytes.to_vec();
    if k.is_multiple_of(2) {
        let end = bytes.iter().rposition(|&byte| byte != 0).map_or(0, |place| place + 1);
        let least = if numbers.one_in(2) { end } else { 0 };
        given.truncate(least + numbers.place(TABLE_BYTES - least + 1));
        bytes[given.len()..].fill(0);
    } else {
        given.resize(TABLE_BYTES + numbers.place(50), numbers.byte());
    }
    if k.is_multiple_of(3) {
        for status in (1..465.min(given.len())).step_by(29) {
            given[status] += 4;
            given.get_mut(status + 18).into_iter().for_each(|activity| *activity += 9);
        }
    }
    given
}
