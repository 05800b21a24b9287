//! The thresholds, counted again from their meaning, so that an error in them is seen.

/// The least number of stations of which any two such sets share one.
pub fn meeting_number(n: u32) -> usize {
    (1..).find(|q| 2 * q > n as usize).expect("there is one")
}

/// The least number of INITs with v that makes v the proposal of some q INITs, by "If at least half
/// of the q INITs are 1 the proposal is 1, else 0."
pub fn least_backing(n: u32, v: u32) -> usize {
    let q = meeting_number(n);
    let becomes = |ones: usize| if 2 * ones >= q { 1 } else { 0 };
    let ones_for_v = |with_v: usize| if v == 1 { with_v } else { q - with_v };
    let mut counts = 0..=q;
    counts
        .find(|with_v| becomes(ones_for_v(*with_v)) == v)
        .expect("all q of one value make it the proposal")
}
