//! A valid bundle for each rule, from which faulty ones are made.

use crate::cases::samples::{both_values, bundle, init, inits, none_votes, p, proposals, v};
use crate::cases::samples::{D, R};
use crate::group::LAST_ROUND;
use crate::words::{Bundle, Flag, NONE};

/// A valid bundle for each rule and sub-case at this n.
pub fn valid_bundles(n: u32) -> Vec<(&'static str, Bundle)> {
    let mut all = vec![
        ("rule 1, 0", bundle(init(1, 0), &[])),
        ("rule 1, 1", bundle(init(n, 1), &[])),
        ("rule 2, 0", bundle(p(n, 1, 0, D), &[inits(n, 0, true)])),
        ("rule 2, 1", bundle(p(1, 1, 1, D), &[inits(n, 1, false)])),
    ];
    for (round, front) in [(2, true), (LAST_ROUND, false)] {
        all.extend(proposal_bundles(n, round, front));
    }
    all.extend(vote_bundles(n));
    all
}

fn proposal_bundles(n: u32, round: u32, front: bool) -> Vec<(&'static str, Bundle)> {
    let before = round - 1;
    vec![
        (
            "rule 3",
            bundle(
                p(1, round, 1, D),
                &[proposals(n, before, 1, &[D, R], front)],
            ),
        ),
        (
            "rule 4",
            bundle(p(n, round, 0, R), &[none_votes(n, before, front)]),
        ),
    ]
}

/// Job 2 of 02: "In round 1 rule 5 now always has a second group". It names other stations than the
/// first; "stations rising" holds in each group, not from one to the other.
fn first_vote_bundles(n: u32) -> Vec<(&'static str, Bundle)> {
    let vote = |from: u32, value: u32, flags: &[Flag], front: bool| {
        let groups = [
            proposals(n, 1, value, flags, front),
            inits(n, value, !front),
        ];
        bundle(v(from, 1, value), &groups)
    };
    vec![
        ("rule 5, round 1, 1", vote(1, 1, &[D], true)),
        ("rule 5, round 1, 0", vote(1, 0, &[D], false)),
        (
            "rule 5, round 1 with an R-GET, 1",
            vote(2, 1, &[R, D], false),
        ),
        ("rule 5, round 1, R-GET only, 0", vote(2, 0, &[R], true)),
    ]
}

fn vote_bundles(n: u32) -> Vec<(&'static str, Bundle)> {
    let group = |round, flags: &[Flag], front| proposals(n, round, 1, flags, front);
    let mut all = first_vote_bundles(n);
    all.push((
        "rule 6",
        bundle(v(1, 1, NONE), &[both_values(n, 1, &[D], true)]),
    ));
    for (round, front) in [(2, true), (LAST_ROUND, false)] {
        let before = round - 1;
        all.push((
            "rule 5, R-GET only",
            bundle(v(n, round, 1), &[group(round, &[R], front)]),
        ));
        all.push((
            "rule 5 with a second group",
            bundle(
                v(1, round, 1),
                &[group(round, &[R, D], front), group(before, &[D, R], !front)],
            ),
        ));
        all.push((
            "rule 7",
            bundle(
                v(2, round, NONE),
                &[
                    both_values(n, round, &[D, R], front),
                    none_votes(n, before, !front),
                ],
            ),
        ));
    }
    all
}
