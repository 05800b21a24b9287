//! Reading a station: what is told, and what is not.

use second::group::BUNDLE_WORDS;
use second::returns::{KEPT, OUT_OF_RANGE, SENT};
use second::sealed::{make, Module};
use second::station::{open, refused_station, StationWords, JUMP_OFF, JUMP_ON, STATION_WORDS};
use second::status::{status, Status};
use second::words::NONE;

const NOTHING: Status = Status {
    number: OUT_OF_RANGE,
    decision: NONE,
    stage: [0; 3],
    closed: true,
};

fn opened(n: u32, number: u32, question: u32) -> (Module, StationWords) {
    opened_with(n, number, question, JUMP_OFF)
}

fn opened_with(n: u32, number: u32, question: u32, jump: u32) -> (Module, StationWords) {
    let (made, mut own) = make(&[7; 8], n, number);
    assert_eq!(made, KEPT);
    let (answer, station) = open(&mut own, question, 1, jump, &mut [0; BUNDLE_WORDS]);
    assert_eq!(answer.number, SENT);
    (own, station)
}

/// A closed station of this module, with a decision: a closed station needs nothing more to fit.
fn closed(question: u32, decision: u32) -> StationWords {
    let mut words = refused_station();
    words[..3].copy_from_slice(&[3, 1, question]);
    words[3..6].copy_from_slice(&[2, 65_535, 0]);
    words[7] = decision;
    words
}

#[test]
fn an_opened_station_is_undecided() {
    let (own, station) = opened(3, 2, 9);
    let told = status(&own, &station, 9);
    assert_eq!((told.number, told.decision), (KEPT, NONE));
    assert_eq!((told.stage, told.closed), ([0; 3], false));
}

/// What is told does not depend on the jump setting.
#[test]
fn a_station_with_jump_on_is_read_like_any() {
    let (own, off) = opened(3, 2, 9);
    let (_, on) = opened_with(3, 2, 9, JUMP_ON);
    assert!(on != off);
    for question in [8, 9] {
        assert_eq!(status(&own, &on, question), status(&own, &off, question));
    }
}

#[test]
fn a_decision_is_told_of_its_own_question_only() {
    let (own, _) = opened(3, 1, 9);
    for decision in [0, 1, NONE] {
        let station = closed(9, decision);
        let told = status(&own, &station, 9);
        assert_eq!((told.number, told.decision), (KEPT, decision));
        assert_eq!((told.stage, told.closed), ([2, 65_535, 0], true));
        for other in [0, 8, 10, u32::MAX] {
            let told = status(&own, &station, other);
            assert_eq!((told.number, told.decision), (KEPT, NONE));
        }
    }
}

#[test]
fn nothing_is_told_of_a_station_that_does_not_fit() {
    let (own, station) = opened(3, 1, 9);
    let (other, _) = opened(3, 2, 9);
    let (larger, _) = opened(4, 1, 9);
    assert_eq!(status(&other, &station, 9), NOTHING);
    assert_eq!(status(&larger, &station, 9), NOTHING);
    let mut unfit = station;
    unfit[8] = 0;
    assert_eq!(status(&own, &unfit, 9), NOTHING);
    // what a refused opening and a refused making return
    let (refused, none) = make(&[7; 8], 1, 1);
    assert_eq!(refused, OUT_OF_RANGE);
    for question in [0, 1, 9] {
        assert_eq!(status(&own, &refused_station(), question), NOTHING);
        assert_eq!(status(&none, &refused_station(), question), NOTHING);
        assert_eq!(status(&none, &[0; STATION_WORDS], question), NOTHING);
    }
}
