//! The middle and the ends of what was measured.

/// The middle value; there must be one.
pub fn median(values: &[f64]) -> f64 {
    let mut sorted = values.to_vec();
    sorted.sort_by(f64::total_cmp);
    sorted[sorted.len() / 2]
}

/// `median (least to most)`, with so many decimals.
pub fn spread(values: &[f64], decimals: usize) -> String {
    let least = values.iter().copied().fold(f64::INFINITY, f64::min);
    let most = values.iter().copied().fold(0.0, f64::max);
    format!("{:.decimals$} ({least:.decimals$} to {most:.decimals$})", median(values))
}

/// How many times the first side's value each value of another is, one by one.
pub fn ratios(other: &[f64], first: &[f64]) -> Vec<f64> {
    other.iter().zip(first).map(|(b, a)| b / a).collect()
}
