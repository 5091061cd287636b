//! What the Rattle program skip_sums has to print: the skip sum of each pattern of nine noskip bits, by a second reading of the rule.

/// What the neighbours add, from the upper left one on, row by row.
const SHARES: [u32; 9] = [1, 4, 1, 4, 16, 4, 1, 4, 1];

pub(crate) const PATTERNS: u16 = 1 << SHARES.len();

fn sum(pattern: u16) -> u32 {
    let of = |(k, share)| if pattern >> k & 1 == 0 { share } else { 0 };
    SHARES.into_iter().enumerate().map(of).sum()
}

pub(crate) fn lines() -> String {
    (0..PATTERNS).map(|p| format!("{}\n", sum(p))).collect()
}
