//! What makes a list of calls, and one under way.

use crate::group::most_faulty;
use crate::tester::author::Author;
use crate::tester::jumps::Jumps;
use crate::tester::loose::{Loose, LOOSE};
use crate::tester::rng::Rng;
use crate::tester::world::World;

/// How the hosts and the radio behave in one list.
#[derive(Clone, Copy)]
pub(super) struct Manner {
    /// How often, in a hundred, a bundle that splits the values is given first.
    pub(super) contrary: usize,
    /// How often, in a hundred, coins differ between odd and even sites.
    pub(super) split_coins: usize,
    /// How often, in a hundred, sound sites propose 1.
    pub(super) ones: usize,
    /// How often, in a hundred, a further question is opened.
    pub(super) further: usize,
    /// What the faulty sites try to be let through with, half of the time.
    pub(super) loose: Loose,
    /// The value that they propose and push, mostly.
    pub(super) push: u32,
    /// How often, in a hundred, a sound site gets a bundle of a later step, where some site jumps.
    pub(super) ahead: usize,
}

/// What makes a list of calls.
#[derive(Clone, Copy)]
pub struct List {
    pub n: u32,
    pub seed: u64,
    pub all_faulty: bool,
    /// Which jump settings the openings have. With all off a list is what it was without the setting.
    pub jumps: Jumps,
    pub turns: usize,
    /// How many turns in a hundred are calls beside the list.
    pub asides: usize,
}

/// One list of calls under way.
pub(super) struct Run {
    pub(super) world: World,
    pub(super) manner: Manner,
    pub(super) base_question: u32,
    pub(super) asides: usize,
}

/// The sites that are faulty: within the premise, or all of them. Without sound sites nothing is
/// claimed of agreement, but every number can be reached in few calls.
fn faulty_sites(n: u32, rng: &mut Rng, all: bool) -> Vec<bool> {
    let mut faulty = vec![all; n as usize];
    if !all && !rng.percent(10) {
        for _ in 0..most_faulty(n) {
            let site = rng.below(n as usize);
            faulty[site] = true;
        }
    }
    faulty
}

impl Run {
    pub(super) fn new(list: List, author: Author) -> Run {
        let mut rng = Rng::new(list.seed);
        let faulty = faulty_sites(list.n, &mut rng, list.all_faulty);
        let manner = Manner {
            contrary: rng.pick(&[0, 50, 90, 100]),
            split_coins: rng.pick(&[0, 50, 95]),
            ones: rng.pick(&[0, 30, 50, 50, 70, 100]),
            further: rng.pick(&[0, 0, 2, 10]),
            loose: rng.pick(&LOOSE),
            push: rng.bit(),
            ahead: match list.jumps {
                Jumps::Off => 0,
                Jumps::On | Jumps::Mixed => rng.pick(&[2, 10, 30]),
            },
        };
        let base_question = rng.pick(&[0, 1, 7, u32::MAX - 2, 1 << 31]);
        Run {
            world: World::new(list.n, faulty, list.jumps, rng, author),
            manner,
            base_question,
            asides: list.asides,
        }
    }

    pub(super) fn sites(&self, sound: bool) -> Vec<u32> {
        let all = 1..=self.world.n;
        all.filter(|s| self.world.is_sound(*s) == sound).collect()
    }

    pub(super) fn open(&mut self, site: u32, question: u32) {
        let one = self.world.rng.percent(self.manner.ones);
        let proposal = match self.world.is_sound(site) {
            true => u32::from(one),
            false => self.manner.push,
        };
        let jump = self.world.any_jump();
        let output = self.world.output();
        self.world.open(site, (question, proposal, jump), output);
    }

    pub(super) fn coin(&mut self, site: u32) -> u32 {
        match self.world.rng.percent(self.manner.split_coins) {
            true => site & 1,
            false => self.world.rng.bit(),
        }
    }
}
