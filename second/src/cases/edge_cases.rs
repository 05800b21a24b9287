//! Closing, the edges of a giving, and the first votes that are nearly as rule 5 wants them.

use crate::cases::calls::{Calls, OUTPUT, USED};
use crate::cases::sample_bundles::{first_proposal, giver, vote_bundle};
use crate::cases::sample_setups::setups;
use crate::cases::samples::{
    bundle, init, inits, kept_words, module, none_votes, p, proposals, some, station, v, D,
    QUESTION, R,
};
use crate::group::{quorum, MOST_CERTIFICATE};
use crate::station::{FIRST_START, SECOND_START};
use crate::tester::script::Command;
use crate::tester::setup::Setup;
use crate::words::{Bundle, Statement, NONE};

/// Records the calls after what was recorded.
pub fn edge_cases(calls: &mut Calls) {
    calls.closing();
    calls.edges();
    calls.first_vote_edges();
    calls.first_vote_order();
    calls.without_kept_inits();
}

impl Calls {
    /// Closing with and without a decision, one made before, and the closed station after it.
    fn closing(&mut self) {
        for (name, setup, number) in setups(4) {
            if number != 22 {
                continue;
            }
            for decision in [NONE, 0, 1] {
                let mut setup = setup.clone();
                setup.station[7] = decision;
                setup.module.last = module(4, 2, Some((QUESTION, 131_071))).last;
                let report = self.try_once(&name, &setup, 22);
                assert_eq!(report.station.1[6], 1);
                let again = Command::Give(USED, USED, USED, 0, OUTPUT);
                assert_eq!(self.author.call(again).number, 11);
                let bad_coin = Command::Give(USED, USED, USED, 2, OUTPUT);
                assert_eq!(self.author.call(bad_coin).number, 2);
                self.author.set(Command::Fill(USED, 0, 0));
                let empty = Command::Give(USED, USED, USED, 1, OUTPUT);
                assert_eq!(self.author.call(empty).number, 11);
            }
        }
    }

    /// 01's edges in a giving: q − 1 and q statements in a group and in a station, counts of 32 and
    /// 33, n 1 and 32, 330 and 331 output words, a bundle of 0 words. The bundle given has two groups of q: at n 31
    /// it is the longest there is.
    fn edges(&mut self) {
        for n in [2, 3, 4, 5, 6, 7, 31] {
            let words = station(n, v(2, 2, NONE), &[], [&[], &[]]);
            let groups = [
                proposals(n, 2, 0, &[R, D], true),
                proposals(n, 1, 0, &[D, R], false),
            ];
            let given = bundle(v(giver(n), 2, 0), &groups);
            let number = if quorum(n) == 2 { 20 } else { 0 };
            let setup = Setup::new(n, words, given.clone());
            self.try_once(&format!("edges at n {n}"), &setup, number);
            self.edge_certificates(&setup, &given);
            self.edge_held(&setup);
            for size in [1, 32] {
                let mut other = setup.clone();
                other.module.n = size;
                other.station[0] = size;
                self.give(&other, Some(2));
            }
            let mut other = setup.clone();
            other.output = 330;
            self.give(&other, Some(1));
            other.output = 331;
            other.given = Vec::new();
            self.give(&other, Some(3));
        }
    }

    /// A station with q − 1 statements, the giver's not among them, and with q.
    fn edge_held(&mut self, setup: &Setup) {
        let n = setup.module.n;
        let q = quorum(n);
        let others = |without: u32, size: usize| -> Vec<Statement> {
            let stations = (1..=n).filter(|s| *s != 2 && *s != without);
            stations.take(size).map(|s| v(s, 2, NONE)).collect()
        };
        for (held, expected) in [(others(giver(n), q - 2), 20), (others(0, q - 1), 2)] {
            let mut other = setup.clone();
            other.station = station(n, v(2, 2, NONE), &held, [&[], &[]]);
            self.give(&other, Some(expected));
        }
    }

    fn edge_certificates(&mut self, setup: &Setup, given: &Bundle) {
        let all = &given.certificate;
        let q = quorum(setup.module.n);
        let mut tried = Vec::new();
        for left_out in [0, q - 1, q, 2 * q - 1] {
            let mut fewer = all.clone();
            fewer.remove(left_out);
            tried.push((fewer, 6));
        }
        for (size, number) in [(MOST_CERTIFICATE, 6), (MOST_CERTIFICATE + 1, 3)] {
            let mut longer = all.clone();
            longer.resize(size, all[0]);
            if longer != *all {
                tried.push((longer, number));
            }
        }
        for (certificate, number) in tried {
            let mut other = setup.clone();
            other.given = Bundle {
                main: given.main,
                certificate,
            }
            .words();
            self.give(&other, Some(number));
        }
    }

    /// A vote of round 1 in a giving: of its certificate the q proposals are kept and not the INITs
    /// behind them. With fewer or more of these, none, or others in their place it is 6.
    fn first_vote_edges(&mut self) {
        for n in [2, 3, 4, 5, 6, 7, 31] {
            let q = quorum(n);
            for value in [0, 1] {
                let words = station(n, v(2, 1, NONE), &[], [&[], &[]]);
                let given = vote_bundle(n, giver(n), 1, value);
                let setup = Setup::new(n, words, given.clone());
                let name = format!("edges of a first vote for {value} at n {n}");
                let report = self.try_once(&name, &setup, if q == 2 { 20 } else { 0 });
                // where the step ends they are the certificate of the next proposal
                let kept = kept_words(&given.certificate[..q]);
                assert_eq!(report.station.1[FIRST_START..SECOND_START], kept);
                for certificate in unlike_first_vote(n, &given) {
                    let main = given.main;
                    let mut other = setup.clone();
                    other.given = Bundle { main, certificate }.words();
                    self.give(&other, Some(6));
                }
            }
        }
    }

    /// A vote of round 1 with its INITs and without them, where each later test would refuse it: 6
    /// comes before 7, 8, 9, 10 and 12.
    fn first_vote_order(&mut self) {
        let none = |s| v(s, 1, NONE);
        let for_1 = proposals(4, 1, 1, &[D], true);
        let nones = none_votes(4, 1, true);
        let stations = [
            (station(4, p(2, 2, 0, R), &[], [&[], &nones]), 7),
            (station(4, init(2, 0), &[], [&[], &[]]), 8),
            (station(4, none(2), &[none(4)], [&[], &[]]), 9),
            (station(4, v(2, 1, 1), &[], [&for_1, &[]]), 10),
            (station(4, none(2), &[none(1)], [&[], &[]]), 12),
        ];
        for (words, number) in stations {
            let mut given = vote_bundle(4, 4, 1, 0);
            let mut setup = Setup::new(4, words, given.clone());
            setup.module = module(4, 2, Some((QUESTION, 4)));
            self.try_once("a first vote and the tests behind 6", &setup, number);
            given.certificate.truncate(quorum(4));
            setup.given = given.words();
            self.give(&setup, Some(6));
        }
    }

    /// A station proposing in round 1 without its INITs is unfit: 2 comes before 3, behind 1.
    fn without_kept_inits(&mut self) {
        for n in [2, 3, 4, 6, 7] {
            let words = station(n, p(2, 1, 1, D), &[], [&[], &[]]);
            let mut setup = Setup::new(n, words, first_proposal(n, giver(n), 1));
            self.try_once("proposing in round 1 without INITs", &setup, 2);
            setup.given = Vec::new();
            self.give(&setup, Some(2));
            setup.output = 330;
            self.give(&setup, Some(1));
        }
    }
}

/// Certificates that are nearly those of a vote of round 1. "Bundles without the group are refused
/// by 6."
fn unlike_first_vote(n: u32, given: &Bundle) -> Vec<Vec<Statement>> {
    let (q, value) = (quorum(n), given.main.value);
    let (first, group) = given.certificate.split_at(q);
    let with = |behind: &[Statement]| [first, behind].concat();
    let of = |size: usize, value: u32| -> Vec<Statement> {
        let stations = some(n, size, true);
        stations.iter().map(|s| init(*s, value)).collect()
    };
    let mut all = vec![
        first.to_vec(),
        with(&group[1..]),
        with(&of(group.len(), 1 - value)),
        with(&inits(n, 1 - value, true)),
        with(&proposals(n, 1, value, &[D], true)),
        [group, first].concat(),
        with(&[group, group].concat()),
    ];
    // at n 2 the backing of 0 is everyone
    if group.len() < n as usize {
        all.push(with(&of(group.len() + 1, value)));
    }
    if group.len() != q {
        all.push(with(&of(q, value)));
    }
    all.dedup();
    all.retain(|certificate| certificate.len() <= MOST_CERTIFICATE);
    all
}
