//! The corners that were met, read from the lines of their counts.

use peer::corners::Corners;
use peer::tally::Book;

/// With their counts in runs and in tables.
pub fn met_corners(corners: &Corners) -> Vec<(String, u64, u64)> {
    let line = |line: &str| {
        let mut parts = line.trim_start().splitn(2, ' ');
        let runs = parts.next()?.parse().ok()?;
        let (tables, name) = parts.next()?.trim_start().split_once("  ")?;
        Some((name.to_string(), runs, tables.parse().ok()?))
    };
    let counts = corners.text();
    counts.lines().filter_map(line).filter(|(_, runs, tables)| runs + tables > 0).collect()
}
