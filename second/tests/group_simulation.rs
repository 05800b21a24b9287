//! Whole votes over a radio that loses packets: what the sites do decides all questions, and without
//! it some question is never decided by all.

use second::hosts::group_simulation::{run, votes, Counts, Habits, BEST, TABLE};

const QUESTIONS: &[u8] = b"01mmm0m1m";

const LOSSY: Habits = Habits {
    lost: Some(TABLE),
    ..BEST
};

/// The decisions of all sites on each question, from the lines that a group prints.
fn decisions(lines: &str) -> Vec<&str> {
    let third = |line| str::split(line, ' ').nth(2).expect("the decisions");
    lines.lines().map(third).collect()
}

/// All sites decided the same on each question, and what all proposed where all proposed the same.
fn assert_decided(n: u32, questions: &[u8], lines: &str) {
    let decided = decisions(lines);
    assert_eq!(decided.len(), questions.len(), "n {n}");
    for (question, decided) in questions.iter().zip(decided) {
        let [zeros, ones] = ["0", "1"].map(|digit| digit.repeat(n as usize));
        match question {
            b'0' => assert_eq!(decided, zeros),
            b'1' => assert_eq!(decided, ones),
            _ => assert!(decided == zeros || decided == ones, "n {n}: {decided}"),
        }
    }
}

#[test]
fn all_decide_over_a_radio_that_loses_a_third() {
    for n in [4, 7, 31] {
        let mut counts = Counts::default();
        assert_decided(n, QUESTIONS, &votes(n, QUESTIONS, LOSSY, &mut counts));
        assert!(3 * counts.lost >= counts.packets, "n {n}: too few are lost");
        assert!(counts.again > 0, "n {n}: no bundle was sent on request");
        assert_eq!(counts.past, 0, "n {n}: the ring is too small");
    }
}

#[test]
fn all_decide_where_nothing_is_lost() {
    for n in [4, 7, 31] {
        let mut counts = Counts::default();
        assert_decided(n, QUESTIONS, &votes(n, QUESTIONS, BEST, &mut counts));
        assert_eq!((counts.lost, counts.past), (0, 0));
    }
}

/// Without answers to bundles of old steps not even the first question is decided by all.
#[test]
fn without_answers_a_site_stays_behind() {
    for n in [4, 7, 31] {
        let silent = Habits {
            answering: false,
            most: 100_000,
            ..LOSSY
        };
        let mut counts = Counts::default();
        assert_eq!(votes(n, QUESTIONS, silent, &mut counts), "");
        assert!(counts.packets > 70_000 && counts.again == 0);
    }
}

/// A site that waits for its vote of the round behind for ever can be left alone in a question by
/// those who decided in an earlier round, wrote theirs and went on: it needs a quorum of proposals of
/// a round that they never reach. So it waits only so long.
#[test]
fn a_site_that_waits_for_ever_stays_behind() {
    let questions = [b'm'; 60];
    let waiting = Habits {
        patience: u32::MAX,
        most: 300_000,
        ..LOSSY
    };
    let stopped = votes(4, &questions, waiting, &mut Counts::default());
    assert!(stopped.lines().count() < questions.len());
    let mut counts = Counts::default();
    assert_decided(4, &questions, &votes(4, &questions, LOSSY, &mut counts));
    assert_eq!(counts.past, 0);
}

/// The bytes of the input choose groups and radio.
#[test]
fn the_input_chooses() {
    let both = run(b"aa0m");
    assert_eq!(both.lines().count(), 12);
    assert_eq!(run(b"a.0m") + &run(b"ax0m"), both);
    assert_eq!(run(b"4.0m") + &run(b"7.0m") + &run(b"3.0m"), run(b"a.0m"));
    assert_eq!(run(b"4 0m") + &run(b"8x0m") + &run(b"4"), "");
}
