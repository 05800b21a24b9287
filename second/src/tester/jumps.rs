//! Which jump settings a list has, and the kinds of statements that a station can jump onto.

use crate::words::{Flag, Kind, Statement, NONE};

/// Which jump settings the openings of a list have.
#[derive(Clone, Copy, Debug, PartialEq, Eq)]
pub enum Jumps {
    Off,
    On,
    Mixed,
}

pub const JUMPS: [Jumps; 3] = [Jumps::Off, Jumps::On, Jumps::Mixed];

/// The kinds of statements that a station can jump onto.
pub const JUMP_KINDS: [&str; 5] = [
    "a D-GET proposal of round 1",
    "a D-GET proposal of a later round",
    "an R-GET proposal",
    "a vote for 0 or 1",
    "a vote for none",
];

/// Of which of these kinds a statement is. An INIT is of no later step than any.
pub fn jump_kind(main: &Statement) -> usize {
    match (main.kind, main.flag, main.round, main.value) {
        (Kind::Init, ..) => unreachable!("an INIT is of the first step"),
        (Kind::P, Flag::DGet, 1, _) => 0,
        (Kind::P, Flag::DGet, ..) => 1,
        (Kind::P, Flag::RGet, ..) => 2,
        (Kind::V, _, _, NONE) => 4,
        (Kind::V, ..) => 3,
    }
}
