//! What T-07 claims of the tables "after any events from all Down", checked on one table, which may come
//! from any implementation.

use crate::bully::machine::{Node, Table};
use crate::machine::Status;

/// What does not hold of a table of a run, in words: "two cabinets in Reorganization or Normal have the same
/// coordinator, and two Normal ones the same task"; and every table is in range.
pub fn broken_claim(table: &Table) -> Option<String> {
    if !table.in_range() {
        return Some("the table is not in range".to_string());
    }
    let reorganized = |node: &Node| matches!(node.status, Status::Reorganization | Status::Normal);
    let normal = |node: &Node| node.status == Status::Normal;
    two_with_different(table, reorganized, |node| u16::from(node.coordinator))
        .map(|(i, j)| {
            format!("{i} and {j} are in Reorganization or Normal, with different coordinators")
        })
        .or_else(|| {
            let (i, j) = two_with_different(table, normal, |node| node.task)?;
            Some(format!("{i} and {j} are Normal, with different tasks"))
        })
}

/// Two of some nodes that differ in something. Then the first of them differs from one of the others.
fn two_with_different(
    table: &Table,
    some: impl Fn(&Node) -> bool,
    of: impl Fn(&Node) -> u16,
) -> Option<(u8, u8)> {
    let mut nodes = (1..=table.n).filter(|&i| some(table.node(i)));
    let first = nodes.next()?;
    let other = nodes.find(|&i| of(table.node(i)) != of(table.node(first)))?;
    Some((first, other))
}
