//! Valid bundles of every kind, for scripts and tests.

use crate::cases::samples::{both_values, bundle, inits, none_votes, p, proposals, v, D, R};
use crate::words::{Bundle, Flag, NONE};

pub fn vote_bundle(n: u32, from: u32, round: u32, value: u32) -> Bundle {
    let groups = match (value, round) {
        (NONE, 1) => vec![both_values(n, 1, &[D], true)],
        (NONE, _) => vec![
            both_values(n, round, &[R], true),
            none_votes(n, round - 1, false),
        ],
        // Job 2 of 02: "In round 1 rule 5 now always has a second group"
        (_, 1) => vec![proposals(n, 1, value, &[R], false), inits(n, value, true)],
        _ => vec![proposals(n, round, value, &[R], false)],
    };
    bundle(v(from, round, value), &groups)
}

pub fn first_proposal(n: u32, from: u32, value: u32) -> Bundle {
    bundle(p(from, 1, value, D), &[inits(n, value, true)])
}

pub fn later_proposal(n: u32, from: u32, round: u32, value: u32, flag: Flag) -> Bundle {
    let group = match flag {
        Flag::DGet => proposals(n, round - 1, value, &[D, R], true),
        Flag::RGet => none_votes(n, round - 1, true),
    };
    bundle(p(from, round, value, flag), &[group])
}

/// Whose bundle is given to station 2: the last station's, or at n 2 the first's.
pub fn giver(n: u32) -> u32 {
    if n == 2 {
        1
    } else {
        n
    }
}
