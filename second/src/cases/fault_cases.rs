//! Bundles with two and three faults of different numbers in different statements, in every order:
//! checked, and given to a station. 3 is tested over the whole bundle, then 4, then 5, then 6, so that
//! the least of the numbers answers, wherever its statement stands.

use crate::cases::calls::{Calls, BASE, USED};
use crate::cases::sample_setups::setups;
use crate::cases::samples::{v, KEY};
use crate::group::{quorum, STATEMENT_WORDS};
use crate::hmac::code;
use crate::tester::script::Command;
use crate::tester::setup::Setup;

pub const NUMBERS: [u32; 4] = [3, 4, 5, 6];

/// Records the cases behind what was recorded.
pub fn fault_cases(calls: &mut Calls) {
    for (n, one_in) in [(2, 9), (4, 4), (7, 9), (31, 12)] {
        let all = setups(n).into_iter().map(|(name, setup, _)| (name, setup));
        let long = all.filter(|(_, setup)| count(setup) >= 2);
        for (name, setup) in long.step_by(one_in) {
            calls.base(&format!("faults: {name}"), &setup);
            for faults in combinations(&places(n, &setup)) {
                calls.faults(&setup, &faults);
            }
            calls.of_another_question(&setup);
        }
    }
}

fn count(setup: &Setup) -> usize {
    setup.given.len() / STATEMENT_WORDS - 1
}

/// The statements that get faults: the main one, the first and the last, and those on both sides of
/// the groups' border.
fn places(n: u32, setup: &Setup) -> Vec<usize> {
    let (q, count) = (quorum(n), count(setup));
    let mut all = vec![0, 1, q, q + 1, count];
    all.retain(|i| *i <= count);
    all.sort();
    all.dedup();
    all
}

/// Two places with two numbers, and three with three, each in every order.
pub fn combinations(places: &[usize]) -> Vec<Vec<(usize, u32)>> {
    let mut all: Vec<Vec<(usize, u32)>> = vec![Vec::new()];
    let mut found = Vec::new();
    for _ in 0..3 {
        let mut longer = Vec::new();
        for faults in &all {
            let behind = faults.last().map(|(place, _)| *place);
            for place in places.iter().filter(|place| Some(**place) > behind) {
                let free = |number: &&u32| faults.iter().all(|(_, other)| other != *number);
                for number in NUMBERS.iter().filter(free) {
                    longer.push([&faults[..], &[(*place, *number)]].concat());
                }
            }
        }
        found.extend(longer.iter().filter(|faults| faults.len() > 1).cloned());
        all = longer;
    }
    found
}

/// Gives statement i (0 is the main one) a fault of this number and of none below it.
fn spoil(words: &mut [u32], i: usize, number: u32) {
    let at = 1 + STATEMENT_WORDS * i;
    match number {
        3 => words[at] |= 1 << 25,
        4 => words[at + 1] ^= 1,
        5 => words[at + 2 + i % 8] ^= 1 << 31,
        // the certificate is of another round than the main statement asks for
        _ if i == 0 => words[at] = words[at] & !0xffff | 40_000,
        // no rule asks for a vote for 0
        _ => words[at] = v(words[at] >> 16 & 255, 60_000, 0).words()[0],
    }
    if number == 4 || number == 6 {
        let right = code(&KEY, words[at], words[at + 1]);
        words[at + 2..at + STATEMENT_WORDS].copy_from_slice(&right);
    }
}

/// The words with every statement of another question, and coded so.
fn another_question(words: &[u32]) -> Vec<u32> {
    let mut words = words.to_vec();
    for i in 0..words.len() / STATEMENT_WORDS {
        spoil(&mut words, i, 4);
    }
    words
}

impl Calls {
    /// Checks the words under the setup's key and n, and gives them to its station.
    fn check_and_give(&mut self, setup: &Setup, words: Vec<u32>, checked: u32, given: u32) {
        self.author.put_like(USED, BASE, &words);
        let report = self.author.call(Command::Check(BASE, USED));
        assert_eq!(report.number, checked, "{words:x?}");
        let mut setup = setup.clone();
        setup.given = words;
        self.give(&setup, Some(given));
    }

    fn faults(&mut self, setup: &Setup, faults: &[(usize, u32)]) {
        let mut words = setup.given.clone();
        for (place, number) in faults {
            spoil(&mut words, *place, *number);
        }
        let least = faults.iter().map(|(_, number)| *number).min();
        let least = least.expect("there are faults");
        self.check_and_give(setup, words, least, least);
    }

    /// "4: a question differs from the main statement's, or that from the station's": a bundle that is
    /// wholly of another question, sound and with one fault.
    fn of_another_question(&mut self, setup: &Setup) {
        let words = another_question(&setup.given);
        self.check_and_give(setup, words.clone(), 0, 4);
        let count = count(setup);
        for (place, number) in [0, 1, count]
            .into_iter()
            .flat_map(|i| [(i, 3), (i, 5), (i, 6)])
        {
            let mut words = words.clone();
            spoil(&mut words, place, number);
            self.check_and_give(setup, words, number, number.min(4));
        }
    }
}
