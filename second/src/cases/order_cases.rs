//! The order of the tests: givings with one, two and three faults.

use crate::cases::calls::Calls;
use crate::cases::sample_bundles::vote_bundle;
use crate::cases::samples::{module, proposals, station, v, KEY, QUESTION, R};
use crate::group::STATEMENT_WORDS;
use crate::tester::setup::Setup;
use crate::words::NONE;

/// Records the calls after what was recorded.
pub fn order_cases(calls: &mut Calls) {
    calls.order_of_tests();
}

/// A fault in what a giving takes, by the number that it is refused by.
pub const FAULTS: [u32; 12] = [1, 2, 11, 3, 4, 5, 6, 7, 8, 9, 10, 12];

/// A giving to a station voting in round 2, with these faults; none where they exclude one
/// another.
fn with_faults(faults: &[u32], unfit: usize) -> Option<Setup> {
    let has = |number| faults.contains(&number);
    let round = match (has(7), has(8)) {
        (true, true) => return None,
        (true, false) => 1,
        (false, true) => 3,
        (false, false) => 2,
    };
    Some(faulty_giving(faults, unfit, round))
}

/// A giving of a vote of this round to a station voting in round 2, with these faults beside it.
pub fn faulty_giving(faults: &[u32], unfit: usize, round: u32) -> Setup {
    let has = |number| faults.contains(&number);
    let kept = proposals(4, 2, 0, &[R], true);
    let words = station(4, v(2, 2, 0), &[v(3, 2, NONE)], [&kept, &[]]);
    let from = if has(9) { 3 } else { 1 };
    let mut given = vote_bundle(4, from, round, u32::from(has(10)));
    if has(6) {
        given.certificate.pop();
    }
    if has(4) {
        let all = given.certificate.iter_mut().chain([&mut given.main]);
        for statement in all {
            statement.question ^= 1;
            *statement = statement.coded(&KEY);
        }
    }
    let mut setup = Setup::new(4, words, given);
    add_faults(&mut setup, &has);
    if has(2) {
        add_fault_2(&mut setup, unfit);
    }
    setup
}

/// Each fault alone, and each two and three of them together.
pub fn fault_sets() -> Vec<Vec<u32>> {
    let mut sets = Vec::new();
    for (i, a) in FAULTS.iter().enumerate() {
        sets.push(vec![*a]);
        for (j, b) in FAULTS.iter().enumerate().skip(i + 1) {
            sets.push(vec![*a, *b]);
            sets.extend(FAULTS[j + 1..].iter().map(|c| vec![*a, *b, *c]));
        }
    }
    sets
}

/// The faults that are put into words, module and output.
fn add_faults(setup: &mut Setup, has: &dyn Fn(u32) -> bool) {
    let end = setup.given.len() - 1;
    if has(5) {
        setup.given[end] ^= 1;
    }
    if has(3) {
        setup.given[end + 1 - STATEMENT_WORDS] |= 1 << 26;
    }
    if has(11) {
        setup.station[6] = 1;
    }
    if has(1) {
        setup.output = 330;
    }
    if has(12) {
        setup.module.last = module(4, 2, Some((QUESTION, 6))).last;
    }
}

/// Each kind of test 2: coin, module, station of another n or number, unfit station.
fn add_fault_2(setup: &mut Setup, kind: usize) {
    match kind {
        0 => setup.coin = 2,
        1 => setup.module.n = 32,
        2 => setup.module.number = 0,
        3 => setup.station[0] = 5,
        4 => setup.station[1] = 1,
        _ if setup.station[6] == 1 => setup.coin = u32::MAX,
        _ => setup.station[8] ^= 1,
    }
}

impl Calls {
    /// "A station given a bundle tests 1, 2, 11, 3, 4, 5, 6, 7, 8, 9, 10 and, only where a bundle
    /// would be written, 12": each fault alone and each two and three together.
    fn order_of_tests(&mut self) {
        let base = with_faults(&[], 0).expect("nothing excludes");
        self.base("the order of the tests", &base);
        self.give(&base, Some(20));
        for (i, faults) in fault_sets().iter().enumerate() {
            // a conflict or a second hearing is none in another step
            if let Some(setup) = with_faults(faults, i % 6) {
                self.give(&setup, Some(faults[0]));
            }
        }
    }
}
