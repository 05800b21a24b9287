//! What is counted of lists of calls.

use std::collections::BTreeMap;

use crate::tester::jumps::JUMP_KINDS;

/// What the calls returned, and how far the lists went.
#[derive(Default)]
pub struct Counts {
    pub returned: BTreeMap<u32, u64>,
    pub calls: u64,
    pub decisions: u64,
    pub sound_bundles: u64,
    pub tosses: u64,
    pub deepest_round: u32,
    pub forged_conflicts: u64,
    pub sound_closings: u64,
    /// Valid votes of round 1 for 0 or 1 that were looked at, those that sound sites wrote, and
    /// those that lacked their INITs and were refused by 6.
    pub first_votes: u64,
    pub sound_first_votes: u64,
    pub without_inits: u64,
    /// How often sound sites jumped, by the kind of statement.
    pub jumps: [u64; JUMP_KINDS.len()],
    /// Decisions for which the backing was required, and those on what too few sites proposed, made
    /// where a sound site had jump on.
    pub backed_decisions: u64,
    pub unbacked_decisions: u64,
}

impl Counts {
    /// Whether there were first votes of each of these kinds, so that what is required of them was
    /// put to the test.
    pub fn looked_at_first_votes(&self) -> bool {
        self.first_votes > 0 && self.sound_first_votes > 0 && self.without_inits > 0
    }

    /// The kinds of statements that no sound site jumped onto.
    pub fn never_jumped_onto(&self) -> Vec<&'static str> {
        let kinds = JUMP_KINDS.iter().zip(self.jumps);
        kinds
            .filter(|(_, count)| *count == 0)
            .map(|(kind, _)| *kind)
            .collect()
    }

    /// Adds what one list counted.
    pub fn add(&mut self, one: &Counts) {
        for (number, count) in &one.returned {
            *self.returned.entry(*number).or_default() += count;
        }
        self.calls += one.calls;
        self.decisions += one.decisions;
        self.sound_bundles += one.sound_bundles;
        self.tosses += one.tosses;
        self.deepest_round = self.deepest_round.max(one.deepest_round);
        self.forged_conflicts += one.forged_conflicts;
        self.sound_closings += one.sound_closings;
        self.first_votes += one.first_votes;
        self.sound_first_votes += one.sound_first_votes;
        self.without_inits += one.without_inits;
        for (sum, one) in self.jumps.iter_mut().zip(one.jumps) {
            *sum += one;
        }
        self.backed_decisions += one.backed_decisions;
        self.unbacked_decisions += one.unbacked_decisions;
    }
}
