//! A script of calls in which the coins are against a group: three sound sites, every coin 1, and
//! nobody decides, round after round, until one round goes well.
//!
//! The first site (A) and the third (C) propose 0 in each round and the second (B) proposes 1. A takes
//! C's proposal and votes 0; B takes A's and C takes B's, both see both values and vote none. Then A
//! takes B's vote and C takes A's: both hold the vote for 0 and propose 0 again, D-GET. B takes C's,
//! holds two votes for none and tosses: 1 again, R-GET. In the last of these rounds B too takes A's
//! vote: all propose 0, and in the round behind it, where all are alike, all decide 0, the value that
//! no coin ever had.

use crate::group::BUNDLE_WORDS;
use crate::station::JUMP_OFF;
use crate::tester::author::Author;
use crate::tester::script::Command;

const SITES: usize = 3;
const KEY: [u32; 8] = [0x0c01_0c01; 8];
const QUESTION: u32 = 1;
/// A and C open with 0 and take each other's INIT, so that they can propose 0 in the first round: two
/// INITs with 0 back it. B has one INIT for each value and proposes 1.
const OPENED: [u32; SITES] = [0, 1, 0];
pub const COIN: u32 = 1;

/// Whose bundle A, B and C take: of the INITs, of the proposals and of the votes of a round against
/// them, of the votes of the last such round, and where all are alike.
const INITS: [usize; SITES] = [2, 0, 0];
const PROPOSALS: [usize; SITES] = [2, 0, 1];
const VOTES: [usize; SITES] = [1, 2, 0];
const LAST_VOTES: [usize; SITES] = [1, 0, 0];
const ALIKE: [usize; SITES] = [1, 2, 0];

/// The calls, and what they answered. Site s has module and station s; its bundles of even steps are
/// in buffer 2s and those of odd steps in buffer 2s + 1.
pub struct Against {
    pub author: Author,
    step: usize,
    /// What the givings answered, site by site, in each step from the INITs on.
    pub answered: Vec<[u32; SITES]>,
}

impl Against {
    /// Makes the modules and opens the stations.
    fn begin() -> Against {
        let mut author = Author::recording();
        for (site, value) in OPENED.into_iter().enumerate() {
            let output = 2 * site;
            author.call(Command::Make(site, KEY, SITES as u32, site as u32 + 1));
            author.set(Command::Fill(output, BUNDLE_WORDS, 0));
            author.set(Command::Fill(output + 1, BUNDLE_WORDS, 0));
            let open = Command::Open(site, site, QUESTION, value, JUMP_OFF, output);
            let opened = author.call(open);
            author.set(Command::Length(output, opened.count));
        }
        Against {
            author,
            step: 0,
            answered: Vec::new(),
        }
    }

    /// Each site is given one other's bundle of the step, which ends its step.
    fn step(&mut self, from: [usize; SITES]) {
        let (now, next) = (self.step % 2, (self.step + 1) % 2);
        let mut answered = [0; SITES];
        for (site, from) in from.into_iter().enumerate() {
            let (given, output) = (2 * from + now, 2 * site + next);
            self.author.set(Command::Length(output, BUNDLE_WORDS));
            let give = Command::Give(site, site, given, COIN, output);
            let report = self.author.call(give);
            self.author.set(Command::Length(output, report.count));
            answered[site] = report.number;
        }
        self.answered.push(answered);
        self.step += 1;
    }

    /// The sites' decisions.
    pub fn decisions(&self) -> [u32; SITES] {
        let words = &self.author.machine.stations;
        [words[0][7], words[1][7], words[2][7]]
    }

    /// So many rounds in which nobody decides.
    pub fn rounds(rounds: u32) -> Against {
        let mut calls = Against::begin();
        calls.step(INITS);
        for round in 1..=rounds {
            calls.step(PROPOSALS);
            calls.step(if round < rounds { VOTES } else { LAST_VOTES });
        }
        calls
    }

    /// The round behind them, in which all decide.
    pub fn good_round(&mut self) {
        self.step(ALIKE);
        self.step(ALIKE);
    }
}

/// The whole script, and what it prints.
pub fn script(rounds: u32) -> (String, String) {
    let mut calls = Against::rounds(rounds);
    calls.good_round();
    calls.author.record.expect("it was recorded")
}
