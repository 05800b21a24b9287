//! Givings to station 2 in every stage, and what is around them.

use crate::cases::sample_bundles::{first_proposal, giver, later_proposal, vote_bundle};
use crate::cases::samples::{
    bundle, init, inits, module, none_votes, p, proposals, station, v, D, QUESTION, R,
};
use crate::group::{quorum, LAST_ROUND};
use crate::station::StationWords;
use crate::tester::script::LAST_STEP;
use crate::tester::setup::Setup;
use crate::words::{Bundle, Statement, NONE};

/// As many others as station 2 can hold beside its own, the giver not among them.
fn others(n: u32) -> Vec<u32> {
    (1..n).filter(|s| *s != 2).take(quorum(n) - 2).collect()
}

/// At this n, station 2 with its own statement and as many others as it can hold, the giver still
/// to be heard; in each stage. With the number that the giving returns.
pub fn setups(n: u32) -> Vec<(String, Setup, u32)> {
    let others = others(n);
    let mut all = Vec::new();
    let opened: Vec<Statement> = others.iter().map(|s| init(*s, s % 2)).collect();
    let gathering = station(n, init(2, 0), &opened, [&[], &[]]);
    all.push((
        "gathering".into(),
        gathering,
        bundle(init(giver(n), 1), &[]),
        20,
    ));
    let firsts: Vec<Statement> = others.iter().map(|s| p(*s, 1, 0, D)).collect();
    let kept = inits(n, 0, false);
    let proposing = station(n, p(2, 1, 0, D), &firsts, [&kept, &[]]);
    for value in [0, 1] {
        let given = first_proposal(n, giver(n), value);
        all.push((
            format!("proposing in round 1, given {value}"),
            proposing,
            given,
            20,
        ));
    }
    for round in [2, LAST_ROUND] {
        all.extend(proposing_setups(n, round, &others));
    }
    for round in [1, 2, LAST_ROUND] {
        all.extend(voting_setups(n, round, &others));
    }
    all.into_iter()
        .map(|(name, words, given, number)| {
            (
                format!("n {n}: {name}"),
                Setup::new(n, words, given),
                number,
            )
        })
        .collect()
}

/// A giving to station 2 proposing in round 1, and the INITs that it writes behind its proposals.
pub struct FirstRound {
    pub name: String,
    pub setup: Setup,
    pub written: Vec<Statement>,
}

/// Station 2 proposing in round 1: each value and each flag of its own and of the others' proposals,
/// since a forged station may hold an R-GET of round 1; and the lowest-numbered with another value
/// than the rest. It keeps the INITs of the lowest-numbered.
pub fn first_rounds(n: u32) -> Vec<FirstRound> {
    let others = others(n);
    let flags = [(D, D), (D, R), (R, D), (R, R)];
    let alone = others.is_empty();
    let mut all = Vec::new();
    for (own, rest) in flags
        .into_iter()
        .filter(|(own, rest)| !alone || own == rest)
    {
        for value in [0, 1] {
            let held: Vec<Statement> = others.iter().map(|s| p(*s, 1, value, rest)).collect();
            all.extend(given_each(n, p(2, 1, value, own), &held));
        }
    }
    for value in [0, 1] {
        let value_of = |s: u32| if s == 1 { 1 - value } else { value };
        let held: Vec<Statement> = others.iter().map(|s| p(*s, 1, value_of(*s), D)).collect();
        if !alone {
            all.extend(given_each(n, p(2, 1, value, D), &held));
        }
    }
    all
}

/// Such a station, given a proposal of each value.
fn given_each(n: u32, own: Statement, others: &[Statement]) -> Vec<FirstRound> {
    let lowest = *others.first().filter(|s| s.station == 1).unwrap_or(&own);
    let kept = inits(n, lowest.value, false);
    let words = station(n, own, others, [&kept, &[]]);
    let each = [0, 1].into_iter().map(|value| {
        let given = first_proposal(n, giver(n), value);
        let mut held = others.iter().chain([&own]);
        // at n 2 the giver is the lowest-numbered
        let written = match (held.all(|s| s.value == value), giver(n)) {
            (false, _) => Vec::new(),
            (true, 1) => given.certificate.clone(),
            (true, _) => kept.clone(),
        };
        let shown = |s: Statement| format!("{} {:?}", s.value, s.flag);
        let (own, lowest) = (shown(own), shown(lowest));
        FirstRound {
            name: format!("n {n}: proposing in round 1, {own}, lowest {lowest}, given {value}"),
            setup: Setup::new(n, words, given),
            written,
        }
    });
    each.collect()
}

type Named = (String, StationWords, Bundle, u32);

fn proposing_setups(n: u32, round: u32, others: &[u32]) -> Vec<Named> {
    let before = round - 1;
    let first = proposals(n, before, 0, &[D, R], false);
    let second = none_votes(n, before, false);
    let mut all = Vec::new();
    for (own, rest) in [(D, D), (D, R), (R, D), (R, R)] {
        let held: Vec<Statement> = others.iter().map(|s| p(*s, round, 0, rest)).collect();
        let has = |flag| own == flag || rest == flag && !held.is_empty();
        let first = if has(D) { &first[..] } else { &[] };
        let second = if has(R) { &second[..] } else { &[] };
        let words = station(n, p(2, round, 0, own), &held, [first, second]);
        for (value, flag) in [(0, D), (0, R), (1, D), (1, R)] {
            let name = format!("proposing in round {round}, {own:?} {rest:?}, {value} {flag:?}");
            let conflict = value == 1 && flag == D && has(D);
            let number = if conflict { 10 } else { 20 };
            all.push((
                name,
                words,
                later_proposal(n, giver(n), round, value, flag),
                number,
            ));
        }
    }
    all
}

fn voting_setups(n: u32, round: u32, others: &[u32]) -> Vec<Named> {
    let mut all = Vec::new();
    for (own, rest) in [(0, 0), (0, NONE), (NONE, 0), (NONE, NONE)] {
        let held: Vec<Statement> = others.iter().map(|s| v(*s, round, rest)).collect();
        let valued = own == 0 || rest == 0 && !held.is_empty();
        let group = proposals(n, round, 0, &[R, D], true);
        let first = if valued { &group[..] } else { &[] };
        let words = station(n, v(2, round, own), &held, [first, &[]]);
        for value in [0, 1, NONE] {
            let decides = own == value && (held.is_empty() || rest == value) && value != NONE;
            let number = match (valued && value == 1, round == LAST_ROUND, decides) {
                (true, _, _) => 10,
                (_, true, _) => 22,
                (_, _, true) => 21,
                _ => 20,
            };
            let name = format!("voting in round {round}, {own} {rest}, {value}");
            all.push((name, words, vote_bundle(n, giver(n), round, value), number));
        }
    }
    all
}

/// A setup with the module's last pair at an earlier step of its question, below, at and above a step,
/// and on other questions; and whether a statement of that step is above the pair.
pub fn modules_around(setup: &Setup, earlier: u64, step: u64) -> Vec<(Setup, bool)> {
    let pairs = [
        (QUESTION, earlier),
        (QUESTION, step - 1),
        (QUESTION, step),
        (QUESTION, step + 1),
        (QUESTION - 1, LAST_STEP),
        (QUESTION + 1, 0),
    ];
    let each = pairs.into_iter().map(|(question, last)| {
        // behind the votes of the last round there is no step
        let pair = (question, last.min(LAST_STEP));
        let mut at = setup.clone();
        at.module = module(setup.module.n, 2, Some(pair));
        (at, (QUESTION, step) > pair)
    });
    each.collect()
}
