//! Scripts of calls with stations that jump (Job 3 of 02): every kind of statement that can be jumped
//! onto from every stage, what is refused and in which order, how such a station goes on, and whole
//! runs. They stand behind all others, so that these stay what they are.

use crate::cases::calls::{Calls, BACKGROUND, OUTPUT, USED};
use crate::cases::fit_cases::fit_cases_of;
use crate::cases::jump_runs::{backing_run, other_backing_run, stranded, Run};
use crate::cases::list_cases::jump_lists;
use crate::cases::order_cases::{fault_sets, faulty_giving};
use crate::cases::sample_bundles::{first_proposal, giver, later_proposal, vote_bundle};
use crate::cases::sample_setups::{modules_around, setups};
use crate::cases::samples::{
    bundle, init, inits, jumping, module, none_votes, p, proposals, station, v,
};
use crate::cases::samples::{D, KEY, QUESTION, R};
use crate::group::{quorum, BUNDLE_WORDS, LAST_ROUND, STATEMENT_WORDS};
use crate::station::{give, step_and_decision, StationWords, JUMP_OFF, JUMP_ON, JUMP_WORD};
use crate::tester::author::Author;
use crate::tester::script::{Command, Report, LAST_STEP};
use crate::tester::setup::Setup;
use crate::words::{Bundle, Flag, Kind, Statement, Step, NONE};

/// Records the calls behind all others.
pub fn jump_cases(calls: &mut Calls) {
    calls.settings();
    calls.jumps();
    calls.around_jumps();
    calls.order_of_jump_tests();
    calls.own_later_bundles();
    calls.held_and_conflicting();
    calls.going_on();
    calls.last_round();
    calls.equal_steps();
    calls.fit_with_jump_on();
    calls.run("jump: a value that nobody proposed is decided", backing_run);
    let name = "jump: the same with jump on at one of two sound sites";
    calls.run(name, other_backing_run);
    calls.run(
        "jump: mixed settings leave a group where nothing moves it",
        stranded,
    );
    jump_lists(calls);
}

// ---- stations to jump from, and bundles to jump onto --------------------------------------------

/// Station 2 with jump on in each stage, as full as it can be without the giver.
fn starts(n: u32) -> Vec<StationWords> {
    let all = setups(n).into_iter();
    let mut all: Vec<StationWords> = all.map(|(_, setup, _)| jumping(setup.station)).collect();
    all.dedup();
    all
}

fn step_of(words: &StationWords) -> Step {
    step_and_decision(words).0
}

/// What a comment calls the stage of a station.
fn stage_name(words: &StationWords) -> String {
    match (words[3], words[4]) {
        (0, _) => "gathering".to_string(),
        (1, round) => format!("proposing in round {round}"),
        (_, round) => format!("voting in round {round}"),
    }
}

/// A station's valid bundles of every kind that can be jumped onto, of the first rounds and the last.
fn targets(n: u32, from: u32) -> Vec<Bundle> {
    let mut all = vec![first_proposal(n, from, 0), first_proposal(n, from, 1)];
    for round in [2, 3, LAST_ROUND] {
        for (value, flag) in [(0, D), (1, D), (0, R), (1, R)] {
            all.push(later_proposal(n, from, round, value, flag));
        }
    }
    for round in [1, 2, 3, LAST_ROUND] {
        for value in [0, 1, NONE] {
            all.push(vote_bundle(n, from, round, value));
        }
    }
    for round in [2, LAST_ROUND] {
        // rule 5 "as a second group"
        let groups = [
            proposals(n, round, 1, &[R, D], true),
            proposals(n, round - 1, 1, &[D, R], false),
        ];
        all.push(bundle(v(from, round, 1), &groups));
    }
    all
}

/// What station 2 writes and is after it jumped: "it writes its own statement with the same content and
/// certificate; for an R-GET P it tosses its own coin with that certificate. Only its own statement is
/// held afterwards." Of the certificate it keeps what it would keep of its own.
fn after_jump(setup: &Setup, given: &Bundle) -> (Vec<u32>, StationWords) {
    let (n, main, certificate) = (setup.module.n, given.main, given.certificate.clone());
    let value = match main.flag {
        Flag::DGet => main.value,
        Flag::RGet => setup.coin,
    };
    let own = Statement {
        station: 2,
        value,
        ..main
    }
    .coded(&KEY);
    let none: &[Statement] = &[];
    let groups = match (main.kind, main.flag, main.value) {
        (Kind::Init, ..) => unreachable!("an INIT is of no later step"),
        (Kind::P, Flag::DGet, _) => [&certificate[..], none],
        (Kind::P, Flag::RGet, _) => [none, &certificate[..]],
        (Kind::V, _, NONE) => [none, none],
        (Kind::V, ..) => [&certificate[..quorum(n)], none],
    };
    let mut words = jumping(station(n, own, &[], groups));
    words[7] = setup.station[7];
    let main = own;
    let written = Bundle {
        main,
        certificate: certificate.clone(),
    };
    (written.words(), words)
}

impl Calls {
    /// A giving that makes a station jump, with all that it returns.
    fn jump(&mut self, setup: &Setup, given: &Bundle) -> Report {
        let report = self.give(setup, Some(23));
        let (written, words) = after_jump(setup, given);
        assert_eq!(
            (report.count, written.len()),
            (setup.given.len(), report.count)
        );
        assert_eq!(report.lent.1[..report.count], written);
        let behind = &report.lent.1[report.count..];
        assert!(behind.iter().all(|word| *word == BACKGROUND));
        assert!(report.station.1 == words);
        assert_eq!(
            report.module.1[10..],
            [1, QUESTION, given.main.step().0 as u32]
        );
        report
    }

    /// "The given sender's statement is not held; the host may give it again."
    fn again(&mut self, setup: &Setup, given: &Bundle) -> Report {
        let decides = given.main.value != NONE && setup.station[7] == NONE;
        let expected = match (given.main.kind, given.main.round) {
            _ if quorum(setup.module.n) > 2 => 0,
            (Kind::V, LAST_ROUND) => 22,
            (Kind::V, _) if decides => 21,
            _ => 20,
        };
        self.next(&given.words(), setup.coin, expected)
    }

    /// The station that was given to last, given words.
    fn next(&mut self, words: &[u32], coin: u32, expected: u32) -> Report {
        self.author.put_like(USED, USED, words);
        self.author
            .set(Command::Fill(OUTPUT, BUNDLE_WORDS, BACKGROUND));
        let give = Command::Give(USED, USED, USED, coin, OUTPUT);
        let report = self.author.call(give);
        assert_eq!(report.number, expected);
        report
    }

    /// Every stage and every kind, at several n: as many pairs as need be. Each jump is followed by the
    /// same bundle again.
    fn jumps(&mut self) {
        for (n, one_in) in [(2, 4), (3, 4), (4, 4), (5, 8), (6, 8), (7, 8), (31, 19)] {
            for (i, words) in starts(n).into_iter().enumerate() {
                let name = format!("jump: n {n}, from {}", stage_name(&words));
                let mut is_first = true;
                for (j, given) in targets(n, giver(n)).into_iter().enumerate() {
                    let later = given.main.step() > step_of(&words);
                    if !later || (i + j) % one_in != 0 {
                        continue;
                    }
                    let mut setup = Setup::new(n, words, given.clone());
                    setup.coin = (i / 2 + j / 4) as u32 % 2;
                    if is_first {
                        self.base(&name, &setup);
                    }
                    is_first = false;
                    self.jump(&setup, &given);
                    self.again(&setup, &given);
                }
            }
        }
    }
}

// ---- opening, and what is around a jump -----------------------------------------------------------

impl Calls {
    /// "Opening gains a setting, jump off (0) or on (1)"; "a jump setting outside 0 and 1 is 2".
    fn settings(&mut self) {
        self.author.comment("jump: opening with each setting");
        let before = Some((QUESTION - 1, LAST_STEP));
        for jump in [JUMP_OFF, JUMP_ON, 2, 3, 1 << 31, u32::MAX] {
            for (length, proposal) in [(330, 0), (331, 0), (331, 1), (400, 1), (331, 2)] {
                for last in [None, before, Some((QUESTION, 0)), Some((QUESTION, 4))] {
                    let expected = match (length, proposal, jump, last) {
                        (0..=330, ..) => 1,
                        (_, 2, ..) | (_, _, 2.., _) => 2,
                        (_, _, _, Some((QUESTION, _))) => 12,
                        _ => 20,
                    };
                    let opening = (QUESTION, proposal, jump);
                    let report = self.open(&module(4, 2, last), opening, length, expected);
                    let kept = if expected == 20 { jump } else { 0 };
                    assert_eq!(report.station.1[JUMP_WORD], kept);
                }
            }
        }
        for (n, number) in [(2, 1), (3, 3), (31, 31), (1, 1), (32, 1), (4, 0), (4, 5)] {
            let good = (2..=31).contains(&n) && (1..=n).contains(&number);
            for jump in [JUMP_OFF, JUMP_ON, 2] {
                let expected = if good && jump < 2 { 20 } else { 2 };
                self.open(&module(n, number, None), (0, 1, jump), 331, expected);
            }
        }
    }

    /// One of each kind, jumped onto from the first step: coins, outputs, decisions, the setting and
    /// the module around it.
    fn around_jumps(&mut self) {
        for n in [3, 4] {
            let words = jumping(station(n, init(2, 0), &[], [&[], &[]]));
            for given in [
                first_proposal(n, giver(n), 0),
                later_proposal(n, giver(n), 2, 1, D),
                later_proposal(n, giver(n), 2, 0, R),
                vote_bundle(n, giver(n), 1, 1),
                vote_bundle(n, giver(n), 2, NONE),
                vote_bundle(n, giver(n), LAST_ROUND, 0),
            ] {
                let setup = Setup::new(n, words, given.clone());
                self.base(&format!("jump: n {n}, what is around it"), &setup);
                self.around_jump(&setup, &given);
                self.around_jump_module(&setup, &given);
            }
        }
    }

    fn around_jump(&mut self, setup: &Setup, given: &Bundle) {
        let with = |change: &dyn Fn(&mut Setup)| {
            let mut other = setup.clone();
            change(&mut other);
            other
        };
        for coin in [0, 1] {
            self.jump(&with(&|s| s.coin = coin), given);
        }
        for coin in [2, u32::MAX] {
            self.give(&with(&|s| s.coin = coin), Some(2));
        }
        for output in [0, 330] {
            self.give(&with(&|s| s.output = output), Some(1));
        }
        self.jump(&with(&|s| s.output = 400), given);
        // "The first decision is kept and the station goes on."
        for decision in [0, 1] {
            self.jump(&with(&|s| s.station[7] = decision), given);
        }
        self.give(&with(&|s| s.station[7] = 3), Some(2));
        self.give(&with(&|s| s.station[6] = 1), Some(11));
        self.give(&with(&|s| s.given.clear()), Some(3));
        let last_statement = setup.given.len() - STATEMENT_WORDS;
        self.give(&with(&|s| s.given[last_statement + 1] ^= 1), Some(4));
        self.give(&with(&|s| s.given[last_statement + 2] ^= 1), Some(5));
        // "8 is given only with jump off"
        self.give(&with(&|s| s.station[JUMP_WORD] = JUMP_OFF), Some(8));
    }

    /// "12 follows the checks up to 7": the module's last pair below, at and above the statement that is
    /// jumped onto.
    fn around_jump_module(&mut self, setup: &Setup, given: &Bundle) {
        let step = given.main.step().0;
        for (mut at, above) in modules_around(setup, 0, step) {
            match above {
                true => self.jump(&at, given),
                false => self.give(&at, Some(12)),
            };
            // with jump off it is 8, wherever the module is
            at.station[JUMP_WORD] = JUMP_OFF;
            self.give(&at, Some(8));
        }
    }

    /// The order of the tests on a bundle of a later step, and with jump on on one of an earlier step: each
    /// fault alone and each two and three together. That the sender is held (9), or that the votes would
    /// conflict (10), is no fault in another step.
    fn order_of_jump_tests(&mut self) {
        let base = jump_with_faults(&[], 0).expect("nothing excludes");
        self.base("jump: the order of the tests", &base);
        self.give(&base, Some(23));
        for (i, faults) in fault_sets().iter().enumerate() {
            if let Some(setup) = jump_with_faults(faults, i % 6) {
                let mut refusing = faults.iter().filter(|number| ![9, 10].contains(*number));
                self.give(&setup, Some(*refusing.next().unwrap_or(&23)));
            }
        }
    }

    /// "The sender's number is not tested: a sound site's own later bundle ends in 12." Where the module
    /// says that it was not coded there, a station jumps onto it.
    fn own_later_bundles(&mut self) {
        let words = jumping(station(4, init(2, 0), &[], [&[], &[]]));
        for given in targets(4, 2).into_iter().step_by(3) {
            let mut setup = Setup::new(4, words, given.clone());
            setup.module = module(4, 2, Some((QUESTION, given.main.step().0)));
            self.try_once("jump: its own later bundle", &setup, 12);
            setup.module = module(4, 2, Some((QUESTION, 0)));
            self.jump(&setup, &given);
        }
    }

    /// A station that holds the sender's statement and another value: 9 and 10 in its own step, and 23 in
    /// a later one.
    fn held_and_conflicting(&mut self) {
        let first = proposals(5, 1, 0, &[D], true);
        let kept = proposals(5, 2, 0, &[R], true);
        let proposing = station(5, p(2, 2, 0, D), &[p(5, 2, 0, D)], [&first, &[]]);
        let voting = station(5, v(2, 2, 0), &[v(5, 2, 0)], [&kept, &[]]);
        for (words, held, conflicting, later) in [
            (
                proposing,
                later_proposal(5, 5, 2, 0, D),
                later_proposal(5, 4, 2, 1, D),
                later_proposal(5, 5, 3, 1, D),
            ),
            (
                voting,
                vote_bundle(5, 5, 2, 0),
                vote_bundle(5, 4, 2, 1),
                vote_bundle(5, 5, 3, 1),
            ),
        ] {
            let setup = |given: &Bundle| Setup::new(5, jumping(words), given.clone());
            self.base("jump: 9 and 10 are of the step that is left", &setup(&held));
            self.give(&setup(&held), Some(9));
            self.give(&setup(&conflicting), Some(10));
            self.jump(&setup(&later), &later);
        }
    }
}

/// A giving of a vote of round 3, or of round 1, to a station voting in round 2 with jump on, with these
/// faults: 8 stands for jump off. None where they exclude one another.
fn jump_with_faults(faults: &[u32], unfit: usize) -> Option<Setup> {
    let has = |number| faults.contains(&number);
    let round = match (has(7), has(8)) {
        (true, true) => return None,
        (true, false) => 1,
        (false, _) => 3,
    };
    let mut setup = faulty_giving(faults, unfit, round);
    setup.station[JUMP_WORD] = if has(8) { JUMP_OFF } else { JUMP_ON };
    if has(12) {
        setup.module.last = Some((QUESTION, v(1, 3, 0).step()));
    }
    Some(setup)
}

// ---- how a station goes on --------------------------------------------------------------------------

/// A bundle of a kind from a station, with groups from the front or from the end.
type Made = fn(u32, bool) -> Bundle;

/// Kinds of bundles at n 4, and the vote or the proposal that follows three of each.
const KINDS: [(&str, Made); 6] = [
    ("P of round 1", |from, front| {
        bundle(p(from, 1, 0, D), &[inits(4, 0, front)])
    }),
    ("D-GET P of round 2", |from, front| {
        bundle(p(from, 2, 1, D), &[proposals(4, 1, 1, &[D, R], front)])
    }),
    ("R-GET P of round 2", |from, front| {
        bundle(p(from, 2, 0, R), &[none_votes(4, 1, front)])
    }),
    ("V of round 1 for 1", |from, front| {
        let inits = inits(4, 1, !front);
        bundle(v(from, 1, 1), &[proposals(4, 1, 1, &[D], front), inits])
    }),
    ("V none of round 1", |from, _| vote_bundle(4, from, 1, NONE)),
    ("V of round 3 for 0", |from, front| {
        bundle(v(from, 3, 0), &[proposals(4, 3, 0, &[R], front)])
    }),
];

impl Calls {
    /// After a jump onto 4's bundle station 2 takes that of 4 and one of 1 or 3, whose groups are others.
    /// Against 3 its own, copied certificate is the lowest-numbered's and goes into the next bundle, which
    /// is valid. The coin is 1, and so the own R-GET differs from those of the others.
    fn going_on(&mut self) {
        for ((name, made), third) in KINDS.into_iter().flat_map(|kind| [(kind, 1), (kind, 3)]) {
            let words = jumping(station(4, init(2, 0), &[], [&[], &[]]));
            let (copied, other) = (made(4, true), made(third, false));
            let setup = Setup::new(4, words, copied.clone());
            self.base(&format!("jump: going on behind {name}"), &setup);
            self.jump(&setup, &copied);
            self.again(&setup, &copied);
            let decides = other.main.kind == Kind::V && other.main.value != NONE;
            let number = if decides { 21 } else { 20 };
            let report = self.next(&other.words(), setup.coin, number);
            let next = Bundle::read(&report.lent.1[..report.count], 4).expect("a bundle");
            let lowest = if third == 1 { &other } else { &copied };
            let group = match other.main.kind {
                Kind::P => next.certificate[quorum(4)..] == lowest.certificate[..],
                _ if decides => next.certificate == lowest.certificate[..quorum(4)],
                _ => next.main.flag == R,
            };
            assert!(group, "{name}");
            self.author.set(Command::Length(OUTPUT, report.count));
            let valid = self.author.call(Command::Check(USED, OUTPUT));
            assert_eq!(valid.number, 0);
        }
    }

    /// A jump into round 65,535 does not close: the votes of that round do, and then the setting is off.
    fn last_round(&mut self) {
        for n in [2, 3, 4, 5] {
            let words = jumping(station(n, init(2, 0), &[], [&[], &[]]));
            for given in [
                later_proposal(n, giver(n), LAST_ROUND, 0, D),
                later_proposal(n, giver(n), LAST_ROUND, 0, R),
                vote_bundle(n, giver(n), LAST_ROUND, 0),
                vote_bundle(n, giver(n), LAST_ROUND, NONE),
            ] {
                let mut setup = Setup::new(n, words, given.clone());
                setup.coin = 0;
                self.base(&format!("jump: n {n}, into the last round"), &setup);
                let report = self.jump(&setup, &given);
                assert_eq!(report.station.1[6], 0);
                self.until_closed(n, &given);
            }
        }
    }

    /// The station in the last round is given what it takes to close, first from the giver.
    fn until_closed(&mut self, n: u32, given: &Bundle) {
        let others = (1..=n).filter(|s| *s != 2 && *s != giver(n));
        let senders: Vec<u32> = [giver(n)].into_iter().chain(others).collect();
        let senders = &senders[..quorum(n) - 1];
        let number = |sender: u32, last: u32| match sender == senders[senders.len() - 1] {
            true => last,
            false => 0,
        };
        if given.main.kind == Kind::P {
            for sender in senders {
                let flag = given.main.flag;
                let words = later_proposal(n, *sender, LAST_ROUND, 0, flag).words();
                self.next(&words, 0, number(*sender, 20));
            }
        }
        for sender in senders {
            let words = vote_bundle(n, *sender, LAST_ROUND, given.main.value).words();
            let report = self.next(&words, 0, number(*sender, 22));
            let closed = report.station.1[6];
            assert_eq!(
                (closed == 1, closed == 0),
                (report.number == 22, report.number == 0)
            );
            assert_eq!(report.station.1[JUMP_WORD], 1 - closed);
        }
        self.next(&given.words(), 0, 11);
    }

    /// On a bundle of the station's own step the setting has no effect: each giving answers as with jump
    /// off and leaves the same, but for the setting.
    fn equal_steps(&mut self) {
        for (n, one_in) in [(2, 2), (5, 3)] {
            for (name, off, number) in setups(n).into_iter().step_by(one_in) {
                let mut on = off.clone();
                on.station = jumping(off.station);
                let report = self.try_once(&format!("jump: equal step, {name}"), &on, number);
                let (mut module, mut words) = (off.module.clone(), off.station);
                let mut lent = vec![BACKGROUND; off.output];
                let answer = give(&mut module, &mut words, &off.given, off.coin, &mut lent);
                assert_eq!((report.number, report.count), (answer.number, answer.count));
                let setting = if number == 22 { JUMP_OFF } else { JUMP_ON };
                assert_eq!(report.station.1[JUMP_WORD], setting);
                assert!(report.station.1[..JUMP_WORD] == words[..JUMP_WORD]);
                assert_eq!(
                    (report.lent.1, report.module.1),
                    (lent, module.words().to_vec())
                );
            }
        }
    }

    /// What fits does not depend on the setting.
    fn fit_with_jump_on(&mut self) {
        for (name, setup, number) in setups(4).into_iter().step_by(9) {
            if number != 10 {
                let mut on = setup.clone();
                on.station = jumping(setup.station);
                fit_cases_of(self, &format!("jump on, {name}"), &on, number, false);
            }
        }
    }

    // ---- runs -------------------------------------------------------------------------------------

    fn run(&mut self, name: &str, run: fn(Author) -> Run) {
        self.author.comment(name);
        self.author = run(std::mem::take(&mut self.author)).author;
    }
}
