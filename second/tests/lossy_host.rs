//! What the second example shows: with jump on, sites that lose packets and send nothing but their last
//! bundles all decide; with jump off they do not.

use second::hosts::lossy_host::{run, vote, TURNS};
use second::station::{JUMP_OFF, JUMP_ON};
use second::tester::jumps::jump_kind;
use second::words::Kind;

/// The lines of the turns.
fn given(text: &str) -> Vec<&str> {
    text.lines().filter(|l| l.starts_with("given")).collect()
}

#[test]
fn all_decide_over_a_radio_that_loses_packets() {
    let text = run();
    assert_eq!(text.lines().count(), 3 + TURNS.len() + 3);
    assert_eq!(given(&text).len(), TURNS.len());
    for site in 1..=3 {
        assert!(text.contains(&format!("site {site}: made 0, opened 20\n")));
        assert!(text.contains(&format!("site {site}: read 0, decision 1\n")));
    }
    assert!((8..=16).contains(&TURNS.len()));
    let packets = 6 * TURNS.len();
    let lost = TURNS.iter().flat_map(|turn| turn.iter());
    let lost = lost.filter(|packet| **packet == b'x').count();
    assert!(100 * lost >= 12 * packets && 100 * lost <= 50 * packets);
    let dashes = given(&text).join(" ");
    let dashes = dashes.split(' ').filter(|word| *word == "-").count();
    assert_eq!(dashes, lost);
}

/// The stations jump onto proposals of the first and of a later round, and onto votes.
#[test]
fn they_jump_onto_several_kinds() {
    let vote = vote(JUMP_ON, &TURNS);
    let printed = given(&vote.text).join(" ");
    let jumped = printed.split(' ').filter(|word| *word == "23").count();
    assert_eq!(jumped, vote.jumps.len());
    let mut kinds: Vec<(usize, bool)> = vote
        .jumps
        .iter()
        .map(|main| (jump_kind(main), main.round == 1))
        .collect();
    kinds.sort();
    kinds.dedup();
    assert!(kinds.len() >= 3, "{kinds:?}");
    for kind in [Kind::P, Kind::V] {
        assert!(vote.jumps.iter().any(|main| main.kind == kind));
    }
}

/// Over the same radio with jump off some site is left behind: 8 is answered, and it does not decide.
#[test]
fn with_jump_off_not_all_decide() {
    let vote = vote(JUMP_OFF, &TURNS);
    assert!(vote.jumps.is_empty() && !vote.text.contains(" 23"));
    assert!(given(&vote.text).iter().any(|line| line.contains(" 8")));
    assert!(vote.text.contains("decision 2\n"));
}
