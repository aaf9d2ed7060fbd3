//! The driver behind the library's boundary: what a turn leaves in the lent buffer.

use crate::machine::Table;
use crate::proved::{
    table_from_bytes, table_to_bytes, unused, whole, TableBytes, TABLE_BYTES, TOO_SHORT,
};
use crate::round::driver::{Done, Place};
use std::ops::Range;

/// The table after a turn, the sender and the receiver of the next place, and what was done.
pub const TURN_BYTES: usize = TABLE_BYTES + 3;

/// The library's turn by any driver, which is to answer 1 on a table that is not in range.
pub fn turn_by(
    driver: impl Fn(&mut Table, Place) -> Result<(Place, Done), u8>,
    table: &[u8],
    place: Place,
    out: &mut [u8],
) -> u8 {
    let Some(out) = out.first_chunk_mut::<TURN_BYTES>() else {
        return TOO_SHORT;
    };
    let mut table = table_from_bytes(&whole(table));
    match driver(&mut table, place) {
        Ok(((a, b), done)) => {
            let (after, behind) = out.split_first_chunk_mut().expect("a turn begins with a table");
            table_to_bytes(&table, after);
            behind.copy_from_slice(&[a, b, done as u8]);
            0
        }
        Err(number) => number,
    }
}

/// What an accepted turn wrote: the table, the next place, and the number of what was done.
pub fn written(out: &[u8]) -> Option<(&TableBytes, Place, u8)> {
    let (table, behind) = out.split_first_chunk()?;
    match *behind {
        [a, b, done, ..] => Some((table, (a, b), done)),
        _ => None,
    }
}

/// Of the bytes that out begins with after a turn, those that are no part of the table.
pub fn free(written: &[u8]) -> Vec<Range<usize>> {
    written.first_chunk().map(unused).unwrap_or_default()
}
