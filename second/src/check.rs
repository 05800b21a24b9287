//! Validity: the seven certificate rules, and the check.

use crate::group::{backing, quorum, size_in_range};
use crate::hmac::Key;
use crate::returns::{BAD_CODE, ILL_FORMED, KEPT, NOT_BACKED, OTHER_QUESTION, OUT_OF_RANGE};
use crate::words::{Bundle, Flag, Kind, Statement, NONE};

/// "Certificate groups have exactly the size named, stations rising, none twice": and each
/// statement in it is as the rule wants it.
pub fn is_group(group: &[Statement], size: usize, wanted: impl Fn(&Statement) -> bool) -> bool {
    group.len() == size
        && group.windows(2).all(|two| two[0].station < two[1].station)
        && group.iter().all(wanted)
}

/// An INIT with this value.
pub fn is_init(statement: &Statement, value: u32) -> bool {
    statement.kind == Kind::Init && statement.value == value
}

/// A proposal of this round with this value, whatever its flag.
pub fn is_p(statement: &Statement, round: u32, value: u32) -> bool {
    statement.kind == Kind::P && statement.round == round && statement.value == value
}

/// A vote none of this round.
pub fn is_none_vote(statement: &Statement, round: u32) -> bool {
    statement.kind == Kind::V && statement.round == round && statement.value == NONE
}

/// "both values present"
fn both_values(group: &[Statement]) -> bool {
    [0, 1].iter().all(|v| group.iter().any(|s| s.value == *v))
}

/// The certificate cut behind the first q statements; none where it has fewer.
fn first_group(n: u32, certificate: &[Statement]) -> Option<(&[Statement], &[Statement])> {
    let q = quorum(n);
    (certificate.len() >= q).then(|| certificate.split_at(q))
}

/// Whether a rule backs the main statement by this certificate. That all is of one question and
/// that all codes verify is tested before.
pub fn is_backed(n: u32, main: &Statement, certificate: &[Statement]) -> bool {
    match (main.kind, main.value) {
        // "1. INIT: empty."
        (Kind::Init, _) => certificate.is_empty(),
        (Kind::P, v) => proposal_is_backed(n, main, v, certificate),
        (Kind::V, NONE) => none_vote_is_backed(n, main.round, certificate),
        (Kind::V, v) => vote_is_backed(n, main.round, v, certificate),
    }
}

fn proposal_is_backed(n: u32, main: &Statement, v: u32, certificate: &[Statement]) -> bool {
    let before = main.round - 1;
    match (main.flag, main.round) {
        // "2. P, round 1, D-GET, value v: the backing of v in INITs with v."
        (Flag::DGet, 1) => is_group(certificate, backing(n, v), |s| is_init(s, v)),
        // "3. P, round r over 1, D-GET, v: q P of round r − 1 with v."
        (Flag::DGet, _) => is_group(certificate, quorum(n), |s| is_p(s, before, v)),
        // "In round 1 an R-GET is invalid."
        (Flag::RGet, 1) => false,
        // "4. P, round over 1, R-GET: q V of the round before, each none."
        (Flag::RGet, _) => is_group(certificate, quorum(n), |s| is_none_vote(s, before)),
    }
}

fn vote_is_backed(n: u32, round: u32, v: u32, certificate: &[Statement]) -> bool {
    let Some((first, second)) = first_group(n, certificate) else {
        return false;
    };
    // "5. V with v: q P of that round with v."
    if !is_group(first, quorum(n), |s| is_p(s, round, v)) {
        return false;
    }
    // Job 2 of 02: "In round 1 rule 5 now always has a second group: where the vote is for v, the
    // backing of v in INITs with v follows the P group"
    if round == 1 {
        return is_group(second, backing(n, v), |s| is_init(s, v));
    }
    // "If one of them is D-GET and the round is over 1, then also q P of the round before with v,
    // as a second group."
    if first.iter().any(|s| s.flag == Flag::DGet) {
        is_group(second, quorum(n), |s| is_p(s, round - 1, v))
    } else {
        second.is_empty()
    }
}

fn none_vote_is_backed(n: u32, round: u32, certificate: &[Statement]) -> bool {
    let Some((first, second)) = first_group(n, certificate) else {
        return false;
    };
    let of_round = |s: &Statement| s.kind == Kind::P && s.round == round;
    if round == 1 {
        // "6. V none, round 1: q P of round 1, all D-GET, both values present."
        is_group(first, quorum(n), |s| of_round(s) && s.flag == Flag::DGet)
            && both_values(first)
            && second.is_empty()
    } else {
        // "7. V none, later: q P of that round, both values present, then q V none of the round
        // before."
        is_group(first, quorum(n), of_round)
            && both_values(first)
            && is_group(second, quorum(n), |s| is_none_vote(s, round - 1))
    }
}

/// Tests 3, 4, 5 and 6 on the words of a bundle, each over the whole bundle before the next. The
/// question is that of the station it is given to, if there is one.
pub fn judge(key: &Key, n: u32, question: Option<u32>, words: &[u32]) -> Result<Bundle, u32> {
    let bundle = Bundle::read(words, n).ok_or(ILL_FORMED)?;
    let main = &bundle.main;
    let certificate = &bundle.certificate;
    // "a question differs from the main statement's, or that from the station's"
    let one_question = certificate.iter().all(|s| s.question == main.question)
        && question.is_none_or(|question| question == main.question);
    if !one_question {
        return Err(OTHER_QUESTION);
    }
    // "all codes verified"
    if !main.verifies(key) || !certificate.iter().all(|s| s.verifies(key)) {
        return Err(BAD_CODE);
    }
    if !is_backed(n, main, certificate) {
        return Err(NOT_BACKED);
    }
    Ok(bundle)
}

/// "The validity check alone tests 2 (n), 3, 4, 5, 6 and answers 0."
pub fn check(key: &Key, n: u32, words: &[u32]) -> u32 {
    if !size_in_range(n) {
        return OUT_OF_RANGE;
    }
    match judge(key, n, None, words) {
        Ok(_) => KEPT,
        Err(number) => number,
    }
}
