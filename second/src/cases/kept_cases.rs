//! Which group is taken into the next bundle, and which is kept for it.

use crate::cases::calls::{Calls, BACKGROUND, OUTPUT, USED};
use crate::cases::sample_bundles::first_proposal;
use crate::cases::samples::{
    both_values, bundle, init, inits, kept_words, none_votes, p, station, v, D, R,
};
use crate::group::{backing, BUNDLE_WORDS};
use crate::station::{StationWords, FIRST_START, SECOND_START};
use crate::tester::script::Command;
use crate::tester::setup::Setup;
use crate::words::{Bundle, Flag, Statement, NONE};

/// Records the calls after what was recorded.
pub fn kept_cases(calls: &mut Calls) {
    calls.lowest_numbered();
    calls.lowest_numbered_of_round_1();
    calls.kept_inits();
}

/// Each order of three bundles.
const ORDERS: [[usize; 3]; 6] = [
    [0, 1, 2],
    [0, 2, 1],
    [1, 0, 2],
    [1, 2, 0],
    [2, 0, 1],
    [2, 1, 0],
];

/// The q stations of a group of 6 that leave out two.
fn leaving_out(two: [u32; 2]) -> Vec<u32> {
    (1..=6).filter(|s| !two.contains(s)).collect()
}

impl Calls {
    /// Three others with different groups, given in each order to a station with any number.
    fn lowest_numbered(&mut self) {
        for own in [1, 4, 6] {
            for order in ORDERS {
                self.lowest_of_proposals(own, order, D);
                self.lowest_of_proposals(own, order, R);
                self.lowest_of_votes(own, order, 0);
                self.lowest_of_votes(own, order, NONE);
            }
        }
    }

    /// The same in round 1, with proposals of one value, and of both.
    fn lowest_numbered_of_round_1(&mut self) {
        for order in ORDERS {
            for own in [1, 4, 6] {
                self.lowest_of_first_proposals(own, order, [0; 4]);
                self.lowest_of_first_proposals(own, order, [1; 4]);
            }
            self.lowest_of_first_proposals(4, order, [0, 1, 0, 1]);
            self.lowest_of_first_proposals(4, order, [1, 0, 1, 0]);
        }
    }

    fn in_order(&mut self, own: StationWords, given: &[Bundle], order: [usize; 3]) -> Bundle {
        let setup = Setup::new(6, own, given[order[0]].clone());
        let mut report = self.try_once("which group is taken", &setup, 0);
        for (i, expected) in [(order[1], 0), (order[2], 20)] {
            self.author.put_all(USED, &given[i].words());
            self.author
                .set(Command::Fill(OUTPUT, BUNDLE_WORDS, BACKGROUND));
            report = self.author.call(Command::Give(USED, USED, USED, 1, OUTPUT));
            assert_eq!(report.number, expected);
        }
        Bundle::read(&report.lent.1[..report.count], 6).expect("a bundle is written")
    }

    /// Proposals of round 2 by 2, 3 and 5, each with a group of its own.
    fn lowest_of_proposals(&mut self, own: u32, order: [usize; 3], flag: Flag) {
        let outs = [[1, 2], [3, 4], [5, 6], [1, 6]];
        let group = |i: usize| -> Vec<Statement> {
            let stations = leaving_out(outs[i]).into_iter();
            match flag {
                Flag::DGet => stations.map(|s| p(s, 1, 0, D)).collect(),
                Flag::RGet => stations.map(|s| v(s, 1, NONE)).collect(),
            }
        };
        let senders = [2, 3, 5];
        // the R-GET proposals have both values, so that rule 7 wants their group
        let value = |s: u32| if flag == R && s == 3 { 1 } else { 0 };
        let given: Vec<Bundle> = senders
            .iter()
            .enumerate()
            .map(|(i, s)| bundle(p(*s, 2, value(*s), flag), &[group(i)]))
            .collect();
        let kept = group(3);
        let groups: [&[Statement]; 2] = match flag {
            Flag::DGet => [&kept, &[]],
            Flag::RGet => [&[], &kept],
        };
        let words = station(6, p(own, 2, 0, flag), &[], groups);
        let made = self.in_order(words, &given, order);
        let expected = if own < 2 { group(3) } else { group(0) };
        assert_eq!(made.certificate[4..], expected);
    }

    /// Job 2 of 02: "taken from the lowest-numbered proposer's certificate". Proposals of round 1 by
    /// 2, 3 and 5 and the own, each with INITs of its own choice. At n 6 three back 0 and two back 1.
    fn lowest_of_first_proposals(&mut self, own: u32, order: [usize; 3], values: [u32; 4]) {
        let stations = [[1, 3, 5], [2, 4, 6], [1, 2, 6], [3, 4, 5]];
        let group = |i: usize| -> Vec<Statement> {
            let chosen = stations[i].into_iter().take(backing(6, values[i]));
            chosen.map(|s| init(s, values[i])).collect()
        };
        let given: Vec<Bundle> = [2, 3, 5]
            .into_iter()
            .enumerate()
            .map(|(i, s)| bundle(p(s, 1, values[i], D), &[group(i)]))
            .collect();
        let words = station(6, p(own, 1, values[3], D), &[], [&group(3), &[]]);
        let made = self.in_order(words, &given, order);
        let lowest = if own < 2 { group(3) } else { group(0) };
        let (vote, expected) = match values == [values[0]; 4] {
            true => (values[0], lowest),
            false => (NONE, Vec::new()),
        };
        assert_eq!(made.main.value, vote);
        assert_eq!(made.certificate[4..], expected);
    }

    /// At n 6 station 6 with its own proposal takes those of 4 and 2, of the other value and of its
    /// own: each is the lowest-numbered when it comes. The kept group shrinks and grows, and the
    /// words behind it are zero. That of 5 changes nothing of it, and ends the step.
    fn kept_inits(&mut self) {
        for (value, flag) in [(0, D), (1, D), (0, R), (1, R)] {
            let other = 1 - value;
            let kept = inits(6, value, false);
            let words = station(6, p(6, 1, value, flag), &[], [&kept, &[]]);
            assert_eq!(words[FIRST_START..SECOND_START], kept_words(&kept));
            let setup = Setup::new(6, words, first_proposal(6, 4, other));
            let mut report = self.try_once("which INITs are kept", &setup, 0);
            let kept = kept_words(&inits(6, other, true));
            assert_eq!(report.station.1[FIRST_START..SECOND_START], kept);
            for (from, value, number) in [(2, value, 0), (5, other, 20)] {
                let given = first_proposal(6, from, value);
                self.author.put_all(USED, &given.words());
                report = self.author.call(Command::Give(USED, USED, USED, 0, OUTPUT));
                assert_eq!(report.number, number);
                if from == 2 {
                    let kept = kept_words(&given.certificate);
                    assert_eq!(report.station.1[FIRST_START..SECOND_START], kept);
                }
            }
            let made = Bundle::read(&report.lent.1[..report.count], 6).expect("a bundle");
            assert_eq!((made.main.value, made.certificate.len()), (NONE, 4));
        }
    }

    /// Votes of round 2 by 2, 3 and 5, of which 3 and 5 are for 0; or all three are.
    fn lowest_of_votes(&mut self, own: u32, order: [usize; 3], second: u32) {
        let outs = [[1, 2], [3, 4], [5, 6], [1, 6]];
        let group = |i: usize| -> Vec<Statement> {
            leaving_out(outs[i])
                .into_iter()
                .map(|s| p(s, 2, 0, R))
                .collect()
        };
        let none = bundle(
            v(2, 2, NONE),
            &[both_values(6, 2, &[R], true), none_votes(6, 1, true)],
        );
        let given = [
            match second {
                NONE => none,
                _ => bundle(v(2, 2, 0), &[group(0)]),
            },
            bundle(v(3, 2, 0), &[group(1)]),
            bundle(v(5, 2, 0), &[group(2)]),
        ];
        let own_value = if second == NONE { 0 } else { NONE };
        let kept = group(3);
        let first: &[Statement] = if own_value == 0 { &kept } else { &[] };
        let words = station(6, v(own, 2, own_value), &[], [first, &[]]);
        let made = self.in_order(words, &given, order);
        let expected = match (own_value, own) {
            (0, 1) => group(3),
            (0, _) => group(1),
            _ => group(0),
        };
        assert_eq!(made.certificate, expected);
    }
}
