//! The random tester: lists of calls at n 2 to 7 and 31, with sound and faulty sites.

use crate::returns::TABLE;
use crate::tester::author::Author;
use crate::tester::counts::Counts;
use crate::tester::jumps::JUMPS;
use crate::tester::list::{List, Run};
use crate::tester::registers::SPARE_OUTPUT;
use crate::tester::script::Command;

/// The group sizes tried, in turn.
const SIZES: [u32; 7] = [2, 3, 4, 5, 6, 7, 31];

impl Run {
    /// Goes on for so many turns, or until something does not hold.
    fn go(&mut self, turns: usize) {
        for site in 1..=self.world.n {
            if self.world.is_sound(site) || self.world.rng.percent(60) {
                self.open(site, self.base_question);
            }
        }
        if self.sites(true).is_empty() && self.world.rng.percent(70) {
            self.code_last_rounds();
        }
        for _ in 0..turns {
            if self.world.failure.is_some() {
                return;
            }
            self.turn();
        }
    }

    fn turn(&mut self) {
        if self.asides > 0 && self.world.rng.percent(self.asides) {
            self.world.aside();
            return;
        }
        let sound = self.sites(true);
        let faulty = self.sites(false);
        let chance = self.world.rng.below(100);
        if !sound.is_empty() && (faulty.is_empty() || chance < 60) {
            let site = self.world.rng.pick(&sound);
            match self.world.rng.below(100) {
                0..=5 => self.sound_odd_call(site),
                further if further < 6 + self.manner.further => self.sound_further(site),
                _ => self.sound_give(),
            }
        } else {
            let site = self.world.rng.pick(&faulty);
            match chance % 10 {
                0..=2 => self.faulty_code(site),
                3..=5 => self.faulty_publish(),
                _ => self.faulty_station(site),
            }
        }
    }
}

/// One list of calls; records it where the author does. Answers the author and what was counted, or
/// what failed.
pub fn one_list(list: List, author: Author) -> Result<(Author, Counts), String> {
    let mut run = Run::new(list, author);
    run.world.author.set(Command::Fill(SPARE_OUTPUT, 331, 0));
    run.go(list.turns);
    match run.world.failure {
        Some(failure) => Err(failure),
        None => Ok((run.world.author, run.world.counts)),
    }
}

/// Runs so many lists from a seed on. Answers the counts, or the first failure with the list's
/// own seed.
pub fn many_lists(seed: u64, lists: u64) -> Result<Counts, String> {
    let mut total = Counts::default();
    for i in 0..lists {
        let n = SIZES[(i % SIZES.len() as u64) as usize];
        let turn = i / SIZES.len() as u64;
        let list = List {
            n,
            seed: seed.wrapping_mul(1_000_003).wrapping_add(i),
            all_faulty: turn % 5 == 4,
            jumps: JUMPS[(turn % JUMPS.len() as u64) as usize],
            turns: if n == 31 { 2500 } else { 150 * n as usize },
            asides: 0,
        };
        match one_list(list, Author::default()) {
            Ok((_, counts)) => total.add(&counts),
            Err(failure) => return Err(format!("list {i} of seed {seed}: {failure}")),
        }
    }
    Ok(total)
}

/// The numbers of the table that were never returned.
pub fn missing(counts: &Counts) -> Vec<u32> {
    let never = |number: &&u32| !counts.returned.contains_key(number);
    TABLE.iter().filter(never).copied().collect()
}
