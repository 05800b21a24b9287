//! The group, its thresholds, and every limit of document 01 in one place.

/// "A group has n stations, 2 to 31, numbered 1 to n."
pub const LEAST_SITES: u32 = 2;
pub const MOST_SITES: u32 = 31;

/// "A statement has 10 words."
pub const STATEMENT_WORDS: usize = 10;

/// "the count of certificate statements, 0 to 32"
pub const MOST_CERTIFICATE: usize = 32;

/// "It has 1 + 10 × (1 + count) words, at most 331."
pub const BUNDLE_WORDS: usize = 1 + STATEMENT_WORDS * (1 + MOST_CERTIFICATE);

/// "P has round 1 to 65,535"
pub const LAST_ROUND: u32 = 65_535;

/// The largest quorum: that of the largest group.
pub const GROUP_SLOTS: usize = MOST_SITES as usize / 2 + 1;

/// The key has 32 bytes.
pub const KEY_WORDS: usize = 8;

/// "n, station number, proposal or coin out of range": whether n is in range.
pub fn size_in_range(n: u32) -> bool {
    (LEAST_SITES..=MOST_SITES).contains(&n)
}

/// Whether a station number names a station of a group of n.
pub fn number_in_range(n: u32, number: u32) -> bool {
    1 <= number && number <= n
}

/// "At most (n − 1)/2 rounded down are faulty."
pub fn most_faulty(n: u32) -> usize {
    ((n - 1) / 2) as usize
}

/// "The quorum q is n/2 rounded down, plus 1."
pub fn quorum(n: u32) -> usize {
    (n / 2 + 1) as usize
}

/// "The backing is the number of INITs that a first proposal needs: for value 0 it is n/4 rounded
/// down, plus 1; for value 1 it is (n + 2)/4 rounded down, plus 1." Job 1 of 02: "The two backings
/// trade places between 0 and 1."
pub fn backing(n: u32, value: u32) -> usize {
    if value == 0 {
        ((n + 2) / 4 + 1) as usize
    } else {
        (n / 4 + 1) as usize
    }
}
