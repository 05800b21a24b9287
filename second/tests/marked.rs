//! The marked examples of the count, in the order of 01's table. Job 1 of 02: "The marked case of
//! INITs 0 and 1 at n 3 becomes P 1, the backings at n 2, 6 and 31 change sides".

mod common;
use common::*;
use second::check::check;
use second::group::{backing, quorum};
use second::words::{Bundle, Flag, Kind, Statement, NONE};

#[test]
fn thresholds() {
    let row = |n| (quorum(n), backing(n, 0), backing(n, 1));
    assert_eq!(row(2), (2, 2, 1));
    assert_eq!(row(6), (4, 3, 2));
    assert_eq!(row(31), (16, 9, 8));
}

/// Opens station 1 with the first value and gives it INITs with the others; the proposal made.
fn after_inits(n: u32, values: &[u32]) -> (Statement, Vec<Statement>) {
    let (mut module, mut station) = opened(n, 1, values[0]);
    let mut written = Vec::new();
    for (value, number) in values[1..].iter().zip(2..) {
        let given = bundle(init(number, *value), &[]);
        written = give_words(&mut module, &mut station, &given, 0).1;
    }
    assert_eq!(check(&KEY, n, &written), 0);
    let bundle = Bundle::read(&written, n).unwrap();
    (bundle.main, bundle.certificate)
}

#[test]
fn inits() {
    // "n 3, INITs 0, 1", with Job 1: P 1
    let (main, certificate) = after_inits(3, &[0, 1]);
    assert_eq!(
        (main.kind, main.round, main.value, main.flag),
        (Kind::P, 1, 1, D)
    );
    assert_eq!(certificate, [init(2, 1)]);
    // "n 4, INITs 0, 1, 1 | P 1"
    let (main, certificate) = after_inits(4, &[0, 1, 1]);
    assert_eq!(
        (main.kind, main.round, main.value, main.flag),
        (Kind::P, 1, 1, D)
    );
    assert_eq!(certificate, [init(2, 1), init(3, 1)]);
}

/// Station 1 of 4 holds its own vote and that of station 2, and is given that of station 3.
fn after_votes(values: [u32; 3], coin: u32) -> (u32, u32, Statement, Vec<Statement>) {
    let mut module = module(4, 1);
    let group = |value| match value {
        NONE => vec![p(1, 1, 0, D), p(2, 1, 1, D), p(3, 1, 1, D)],
        value => ps(&[1, 2, 3], 1, value, D),
    };
    // Job 2 of 02: "where the vote is for v, the backing of v in INITs with v follows the P group"
    let behind = match values[2] {
        NONE => Vec::new(),
        value => common::inits(&[1, 4], value),
    };
    let supplier = values[..2].iter().find(|value| **value != NONE);
    let first = supplier.map_or(Vec::new(), |value| group(*value));
    let own = v(1, 1, values[0]);
    let mut words = station(4, own, &[v(2, 1, values[1])], [&first, &[]]);
    let given = bundle(v(3, 1, values[2]), &[&group(values[2]), &behind]);
    let (answer, written) = give_words(&mut module, &mut words, &given, coin);
    assert_eq!(check(&KEY, 4, &written), 0);
    let bundle = Bundle::read(&written, 4).unwrap();
    (answer.number, words[7], bundle.main, bundle.certificate)
}

#[test]
fn votes() {
    // "n 4, V 0, 0, 0 | decides 0"
    let (number, decision, main, _) = after_votes([0, 0, 0], 1);
    assert_eq!((number, decision), (21, 0));
    assert_eq!(
        (main.kind, main.round, main.value, main.flag),
        (Kind::P, 2, 0, D)
    );
    // "n 4, V none, 1, none | no decision, P 1 D-GET"
    let (number, decision, main, _) = after_votes([NONE, 1, NONE], 0);
    assert_eq!((number, decision), (20, NONE));
    assert_eq!(
        (main.kind, main.round, main.value, main.flag),
        (Kind::P, 2, 1, D)
    );
    // "n 4, V all none, coin 1 | P 1 R-GET"
    let (number, decision, main, certificate) = after_votes([NONE; 3], 1);
    assert_eq!((number, decision), (20, NONE));
    assert_eq!(
        (main.kind, main.round, main.value, main.flag),
        (Kind::P, 2, 1, R)
    );
    assert_eq!(certificate, nones(&[1, 2, 3], 1));
}

/// Station 1 of 4 in round 1 holds two proposals and is given that of station 3. Job 2 of 02: "In round
/// 1 rule 5 now always has a second group", "taken from the lowest-numbered proposer's certificate".
#[test]
fn proposals_of_round_1() {
    for (values, vote) in [
        ([0, 0, 0], 0),
        ([1, 1, 1], 1),
        ([0, 1, 1], NONE),
        ([1, 1, 0], NONE),
    ] {
        let mut module = module(4, 1);
        let own_group = common::inits(&[2, 3], values[0]);
        let own = p(1, 1, values[0], D);
        let held = [p(2, 1, values[1], D)];
        let mut words = station(4, own, &held, [&own_group, &[]]);
        let other_group = common::inits(&[1, 4], values[2]);
        let given = bundle(p(3, 1, values[2], D), &[&other_group]);
        let (answer, written) = give_words(&mut module, &mut words, &given, 0);
        assert_eq!((answer.number, check(&KEY, 4, &written)), (20, 0));
        let made = Bundle::read(&written, 4).unwrap();
        assert_eq!(
            (made.main.kind, made.main.round, made.main.value),
            (Kind::V, 1, vote)
        );
        let inits = if vote == NONE { Vec::new() } else { own_group };
        assert_eq!(made.certificate[3..], inits);
    }
}

/// Station 1 of 4 in round 2 holds two proposals and is given that of station 3.
fn after_proposals(row: [(u32, Flag); 3]) -> (u32, Vec<u32>) {
    let mut module = module(4, 1);
    let group = |(value, flag): (u32, Flag)| match flag {
        Flag::DGet => ps(&[1, 2, 3], 1, value, D),
        Flag::RGet => nones(&[1, 2, 4], 1),
    };
    let find = |flag| row[..2].iter().find(|one| one.1 == flag);
    let first = find(D).map_or(Vec::new(), |one| group(*one));
    let second = find(R).map_or(Vec::new(), |one| group(*one));
    let own = p(1, 2, row[0].0, row[0].1);
    let other = p(2, 2, row[1].0, row[1].1);
    let mut words = station(4, own, &[other], [&first, &second]);
    let given = bundle(p(3, 2, row[2].0, row[2].1), &[&group(row[2])]);
    let (answer, written) = give_words(&mut module, &mut words, &given, 0);
    (answer.number, written)
}

#[test]
fn proposals_of_round_2() {
    // "n 4, round 2, P 0 R, 0 D, 0 R | V 0 with a second group"
    let (number, written) = after_proposals([(0, R), (0, D), (0, R)]);
    assert_eq!((number, check(&KEY, 4, &written)), (20, 0));
    let made = Bundle::read(&written, 4).unwrap();
    assert_eq!(
        (made.main.kind, made.main.round, made.main.value),
        (Kind::V, 2, 0)
    );
    assert_eq!(made.certificate[3..], ps(&[1, 2, 3], 1, 0, D));
    // "n 4, round 2, P 0 D, 1 R, 0 R | V none with round 1 none votes"
    let (number, written) = after_proposals([(0, D), (1, R), (0, R)]);
    assert_eq!((number, check(&KEY, 4, &written)), (20, 0));
    let made = Bundle::read(&written, 4).unwrap();
    assert_eq!(
        (made.main.kind, made.main.round, made.main.value),
        (Kind::V, 2, NONE)
    );
    assert_eq!(made.certificate[3..], nones(&[1, 2, 4], 1));
    // "n 4, round 2, holding P 0 D, then 1 D | 10"
    let (number, _) = after_proposals([(0, D), (0, R), (1, D)]);
    assert_eq!(number, 10);
}

/// "module at step 4, step 4 / step 5 | 12 / coded"
#[test]
fn module_at_step_4() {
    let mut module = module(4, 1);
    let mut lent = p(1, 2, 0, D).words();
    assert_eq!(second::sealed::code_plain(&mut module, &mut lent), 0);
    let mut lent = p(1, 2, 1, D).words();
    assert_eq!(second::sealed::code_plain(&mut module, &mut lent), 12);
    let mut lent = v(1, 2, 1).words();
    lent[2..].fill(0);
    assert_eq!(second::sealed::code_plain(&mut module, &mut lent), 0);
    assert_eq!(lent, v(1, 2, 1).words());
}
