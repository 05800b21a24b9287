//! Givings in every stage: the marked cases, the first proposal and the first vote at every n, and
//! coins, outputs, modules and earlier decisions around each stage.

use crate::cases::calls::{Calls, OUTPUT, USED};
use crate::cases::sample_bundles::{first_proposal, later_proposal, vote_bundle};
use crate::cases::sample_setups::{first_rounds, modules_around, setups};
use crate::cases::samples::{bundle, init, inits, none_votes, p, proposals, station, v, D, R};
use crate::group::{backing, quorum};
use crate::station::step_and_decision;
use crate::tester::script::Command;
use crate::tester::setup::Setup;
use crate::words::{Bundle, Kind, Statement, NONE};

/// Records the calls after what was recorded.
pub fn stage_cases(calls: &mut Calls) {
    calls.marked();
    calls.first_proposals();
    calls.first_votes();
    calls.stages();
    calls.first_round_stages();
}

impl Calls {
    /// Every stage at several n; coins, outputs, modules and earlier decisions around it.
    fn stages(&mut self) {
        for n in [2, 3, 4, 5, 6, 7, 31] {
            let all = setups(n).into_iter().enumerate();
            // at n 31 every third, since each is long
            for (_, (name, setup, number)) in all.filter(|(i, _)| n < 31 || i % 3 == 0) {
                self.try_once(&name, &setup, number);
                if [2, 4, 5, 7].contains(&n) {
                    self.around(&setup, number);
                }
            }
        }
    }

    /// Proposing in round 1 at several n: the vote that is written has the INITs of the
    /// lowest-numbered proposer, and a none vote has none.
    fn first_round_stages(&mut self) {
        for n in [2, 3, 4, 5, 6, 7, 31] {
            let all = first_rounds(n).into_iter().enumerate();
            for (i, one) in all.filter(|(i, _)| n < 31 || i % 3 == 0) {
                let report = self.try_once(&one.name, &one.setup, 20);
                let made = Bundle::read(&report.lent.1[..report.count], n);
                let made = made.expect("a bundle is written");
                assert_eq!(made.certificate[quorum(n)..], one.written);
                assert_eq!(made.main.value == NONE, one.written.is_empty());
                if n == 6 && i % 4 == 0 {
                    self.around(&one.setup, 20);
                }
            }
        }
    }

    fn around(&mut self, setup: &Setup, number: u32) {
        let mut other = setup.clone();
        other.coin = 0;
        self.give(&other, Some(number));
        for decision in [0, 1] {
            other.station[7] = decision;
            let expected = if number == 21 { 20 } else { number };
            self.give(&other, Some(expected));
        }
        let mut coin = setup.clone();
        coin.coin = 2;
        self.give(&coin, Some(2));
        let mut short = setup.clone();
        short.output = 330;
        self.give(&short, Some(1));
        short.output = 400;
        self.give(&short, Some(number));
        let mut empty = setup.clone();
        empty.given = Vec::new();
        self.give(&empty, Some(3));
        self.around_module(setup, number);
    }

    /// The module's last pair below, at and above the statement that would be coded.
    fn around_module(&mut self, setup: &Setup, number: u32) {
        let step = step_and_decision(&setup.station).0 .0;
        let next = if step == 0 { 2 } else { step + 1 };
        for (at, above) in modules_around(setup, step, next) {
            let would_write = number == 20 || number == 21;
            self.give(&at, Some(if would_write && !above { 12 } else { number }));
        }
    }

    /// The marked cases that are calls of a station or of a module.
    fn marked(&mut self) {
        self.author.comment("marked: n 3, INITs 0, 1");
        let words = station(3, init(1, 0), &[], [&[], &[]]);
        let made = self.written("marked", 3, words, bundle(init(2, 1), &[]), 20);
        assert_eq!((made.main.kind, made.main.value), (Kind::P, 1));
        let words = station(4, init(1, 0), &[init(2, 1)], [&[], &[]]);
        let made = self.written("marked", 4, words, bundle(init(3, 1), &[]), 20);
        assert_eq!((made.main.kind, made.main.value), (Kind::P, 1));
        let group = proposals(4, 1, 0, &[D], true);
        let words = station(4, v(1, 1, 0), &[v(2, 1, 0)], [&group, &[]]);
        let made = self.written("marked", 4, words, vote_bundle(4, 3, 1, 0), 21);
        assert_eq!((made.main.value, made.main.flag), (0, D));
        let group = proposals(4, 1, 1, &[D], true);
        let words = station(4, v(1, 1, NONE), &[v(2, 1, 1)], [&group, &[]]);
        let made = self.written("marked", 4, words, vote_bundle(4, 3, 1, NONE), 20);
        assert_eq!((made.main.value, made.main.flag), (1, D));
        let words = station(4, v(1, 1, NONE), &[v(2, 1, NONE)], [&[], &[]]);
        let made = self.written("marked", 4, words, vote_bundle(4, 3, 1, NONE), 20);
        assert_eq!((made.main.value, made.main.flag), (1, R));
        let first = proposals(4, 1, 0, &[D], true);
        let second = none_votes(4, 1, true);
        let words = station(4, p(1, 2, 0, R), &[p(2, 2, 0, D)], [&first, &second]);
        let made = self.written("marked", 4, words, later_proposal(4, 3, 2, 0, R), 20);
        assert_eq!((made.main.value, &made.certificate[3..]), (0, &first[..]));
        let words = station(4, p(1, 2, 0, D), &[p(2, 2, 1, R)], [&first, &second]);
        let made = self.written("marked", 4, words, later_proposal(4, 3, 2, 0, R), 20);
        assert_eq!(
            (made.main.value, &made.certificate[3..]),
            (NONE, &second[..])
        );
        let words = station(4, p(1, 2, 0, D), &[], [&first, &[]]);
        let setup = Setup::new(4, words, later_proposal(4, 3, 2, 1, D));
        self.try_once("marked: holding P 0 D, then 1 D", &setup, 10);
    }
}

// ---- the first proposal -------------------------------------------------------------------

impl Calls {
    /// "If at least half of the q INITs are 1 the proposal is 1, else 0": at every n, with as many
    /// INITs for 1 as just make half of q, and with one fewer and one more. The ones are those of
    /// the lowest stations, then those of the highest.
    fn first_proposals(&mut self) {
        for n in 2..=31 {
            let q = quorum(n) as u32;
            let half = q.div_ceil(2);
            for (ones, value) in [(half - 1, 0), (half, 1), (half + 1, 1)] {
                self.first_proposal_of(n, value, |s| u32::from(s <= ones));
                self.first_proposal_of(n, value, |s| u32::from(s > q - ones));
            }
        }
    }

    /// Stations 1 to q open with these values, and the last is given to the first.
    fn first_proposal_of(&mut self, n: u32, value: u32, opened: impl Fn(u32) -> u32) {
        let q = quorum(n) as u32;
        let held: Vec<Statement> = (2..q).map(|s| init(s, opened(s))).collect();
        let words = station(n, init(1, opened(1)), &held, [&[], &[]]);
        let given = bundle(init(q, opened(q)), &[]);
        let made = self.written("the first proposal", n, words, given, 20);
        assert_eq!((made.main.kind, made.main.value), (Kind::P, value));
        assert_eq!(made.certificate.len(), backing(n, value));
        assert!(made.certificate.iter().all(|s| s.value == value));
    }

    /// Job 2 of 02: "where the vote is for v, the backing of v in INITs with v follows the P group":
    /// at every n, for each value. What is written is valid.
    fn first_votes(&mut self) {
        for n in 2..=31 {
            let q = quorum(n);
            for value in [0, 1] {
                let held: Vec<Statement> = (2..q as u32).map(|s| p(s, 1, value, D)).collect();
                let kept = inits(n, value, false);
                let words = station(n, p(1, 1, value, D), &held, [&kept, &[]]);
                let given = first_proposal(n, q as u32, value);
                let made = self.written("the first vote", n, words, given, 20);
                assert_eq!((made.main.kind, made.main.value), (Kind::V, value));
                assert_eq!(made.certificate[..q], proposals(n, 1, value, &[D], true));
                assert_eq!(made.certificate[q..], kept);
                let count = made.words().len();
                self.author.set(Command::Length(OUTPUT, count));
                let valid = self.author.call(Command::Check(USED, OUTPUT));
                assert_eq!(valid.number, 0);
            }
        }
    }
}
