//! What the tests share: a group with a key, and statements coded under it.
#![allow(dead_code, unused_imports)]

use second::sealed::{make, Module};
use second::station::{give, open, Answer, StationWords, JUMP_OFF};
use second::words::{Bundle, Flag, Statement, NONE};

pub use second::cases::samples::{init, jumping, p, station, v, D, KEY, QUESTION, R};

pub fn module(n: u32, number: u32) -> Module {
    let (returned, module) = make(&KEY, n, number);
    assert_eq!(returned, 0);
    module
}

pub fn ps(stations: &[u32], round: u32, value: u32, flag: Flag) -> Vec<Statement> {
    stations.iter().map(|s| p(*s, round, value, flag)).collect()
}

pub fn inits(stations: &[u32], value: u32) -> Vec<Statement> {
    stations.iter().map(|s| init(*s, value)).collect()
}

pub fn nones(stations: &[u32], round: u32) -> Vec<Statement> {
    stations.iter().map(|s| v(*s, round, NONE)).collect()
}

pub fn bundle(main: Statement, groups: &[&[Statement]]) -> Vec<u32> {
    Bundle {
        main,
        certificate: groups.concat(),
    }
    .words()
}

pub fn opened(n: u32, number: u32, value: u32) -> (Module, StationWords) {
    opened_with(n, number, value, JUMP_OFF)
}

pub fn opened_with(n: u32, number: u32, value: u32, jump: u32) -> (Module, StationWords) {
    let mut module = module(n, number);
    let mut lent = [0; 331];
    let (answer, station) = open(&mut module, QUESTION, value, jump, &mut lent);
    assert_eq!((answer.number, answer.count), (20, 11));
    (module, station)
}

/// Gives a bundle with a lent output of 331 words; answers what was written too.
pub fn give_words(
    module: &mut Module,
    station: &mut StationWords,
    given: &[u32],
    coin: u32,
) -> (Answer, Vec<u32>) {
    let mut lent = [0; 331];
    let answer = give(module, station, given, coin, &mut lent);
    (answer, lent[..answer.count].to_vec())
}
