//! Statements and bundles coded under one key on one question, for scripts and tests.

use crate::group::{backing, quorum, BUNDLE_WORDS};
use crate::hmac::Key;
use crate::sealed::Module;
use crate::station::{Stage, Station, StationWords};
use crate::station::{FIRST_START, JUMP_ON, JUMP_WORD, SECOND_START};
use crate::tester::setup::Setup;
use crate::words::{Bundle, Flag, Kind, Statement, Step, NONE};

pub const KEY: Key = [
    0x0f1e2d3c, 0x4b5a6978, 0x8796a5b4, 0xc3d2e1f0, 1, 0x80000000, 0x7fffffff, 0xffffffff,
];
pub const QUESTION: u32 = 0xfeed0042;
pub const D: Flag = Flag::DGet;
pub const R: Flag = Flag::RGet;

pub fn init(station: u32, value: u32) -> Statement {
    Statement::uncoded(Kind::Init, 0, value, D, (station, QUESTION)).coded(&KEY)
}

pub fn p(station: u32, round: u32, value: u32, flag: Flag) -> Statement {
    Statement::uncoded(Kind::P, round, value, flag, (station, QUESTION)).coded(&KEY)
}

pub fn v(station: u32, round: u32, value: u32) -> Statement {
    Statement::uncoded(Kind::V, round, value, D, (station, QUESTION)).coded(&KEY)
}

/// So many stations of a group, from the front or up to the end.
pub fn some(n: u32, size: usize, from_front: bool) -> Vec<u32> {
    let all: Vec<u32> = (1..=n).collect();
    match from_front {
        true => all[..size].to_vec(),
        false => all[all.len() - size..].to_vec(),
    }
}

/// The backing of a value in INITs with it.
pub fn inits(n: u32, value: u32, from_front: bool) -> Vec<Statement> {
    let stations = some(n, backing(n, value), from_front);
    stations.iter().map(|s| init(*s, value)).collect()
}

/// q proposals of a round with a value, the flags in turn.
pub fn proposals(
    n: u32,
    round: u32,
    value: u32,
    flags: &[Flag],
    from_front: bool,
) -> Vec<Statement> {
    let stations = some(n, quorum(n), from_front);
    let flags = flags.iter().cycle();
    let each = stations.iter().zip(flags);
    each.map(|(s, flag)| p(*s, round, value, *flag)).collect()
}

pub fn none_votes(n: u32, round: u32, from_front: bool) -> Vec<Statement> {
    let stations = some(n, quorum(n), from_front);
    stations.iter().map(|s| v(*s, round, NONE)).collect()
}

/// q proposals of a round with both values present: the last differs.
pub fn both_values(n: u32, round: u32, flags: &[Flag], from_front: bool) -> Vec<Statement> {
    let mut group = proposals(n, round, 0, flags, from_front);
    let last = group.last_mut().expect("q is over 0");
    *last = p(last.station, round, 1, last.flag);
    group
}

pub fn bundle(main: Statement, groups: &[Vec<Statement>]) -> Bundle {
    Bundle {
        main,
        certificate: groups.concat(),
    }
}

/// A module of the group, with the last pair that it coded.
pub fn module(n: u32, number: u32, last: Option<(u32, u64)>) -> Module {
    Module {
        key: KEY,
        n,
        number,
        last: last.map(|(question, step)| (question, Step(step))),
    }
}

/// A station in the step of its own statement, with others held and the kept groups given. Its jump
/// setting is off.
pub fn station(
    n: u32,
    own: Statement,
    others: &[Statement],
    groups: [&[Statement]; 2],
) -> StationWords {
    let mut held = others.to_vec();
    held.push(own);
    held.sort_by_key(|s| s.station);
    Station {
        n,
        number: own.station,
        question: own.question,
        stage: Stage::of(&own),
        decision: NONE,
        held,
        first: groups[0].to_vec(),
        second: groups[1].to_vec(),
        jump: false,
    }
    .words()
}

/// The same station with its jump setting on.
pub fn jumping(mut words: StationWords) -> StationWords {
    words[JUMP_WORD] = JUMP_ON;
    words
}

/// The words of a kept group: its statements, and zeros behind them.
pub fn kept_words(group: &[Statement]) -> Vec<u32> {
    let mut words: Vec<u32> = group.iter().flat_map(Statement::words).collect();
    words.resize(SECOND_START - FIRST_START, 0);
    words
}

impl Setup {
    /// A station's own statement with what it holds, given a bundle.
    pub fn new(n: u32, station: StationWords, given: Bundle) -> Setup {
        Setup {
            module: module(n, station[1], None),
            station,
            given: given.words(),
            coin: 1,
            output: BUNDLE_WORDS,
        }
    }
}
