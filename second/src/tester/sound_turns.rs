//! The turns of sound sites: they open, are given bundles, and now and then make calls that must be
//! refused.

use crate::returns::is_refusal;
use crate::sealed::{code_coin, code_plain, Module};
use crate::station::{give, step_and_decision};
use crate::tester::adversary::random_statement;
use crate::tester::jumps::Jumps;
use crate::tester::list::Run;
use crate::tester::registers::{Message, COPIES, DAMAGED, FORGED, SHORT};
use crate::tester::script::Command;
use crate::words::{Kind, Step, NONE};

impl Run {
    /// Opens on the question that follows the site's last.
    pub(super) fn sound_further(&mut self, site: u32) {
        let last = self.world.module(site).last;
        let question = last.map_or(self.base_question, |(last, _)| last.wrapping_add(1));
        self.open(site, question);
    }

    /// Gives a bundle to a present station of a sound site, mostly one of its step.
    pub(super) fn sound_give(&mut self) {
        let world = &mut self.world;
        let sound: Vec<usize> = (0..world.lineages.len())
            .filter(|i| world.is_sound(world.lineages[*i].site))
            .collect();
        if sound.is_empty() || world.messages.is_empty() {
            return;
        }
        let lineage = world.rng.pick(&sound);
        let (site, register) = (
            world.lineages[lineage].site,
            world.lineages[lineage].register,
        );
        let Some(message) = self.choose(register) else {
            return;
        };
        if self.world.rng.percent(8) {
            self.keep_copy(register);
        }
        let given = match self.world.rng.percent(6) {
            true => self.world.damage(message.buffer),
            false => message.buffer,
        };
        let coin = self.coin(site);
        let output = self.world.output();
        if given != output {
            self.world.give(site, register, given, coin, output);
        }
    }

    /// A message for a station: mostly of its step and of a station not heard, and by the manner
    /// one that splits the values.
    fn choose(&mut self, register: usize) -> Option<Message> {
        let words = *self.world.station(register);
        let step = step_and_decision(&words).0;
        if self.manner.ahead > 0 && self.world.rng.percent(self.manner.ahead) {
            if let Some(later) = self.choose_later(words[2], step) {
                return Some(later);
            }
        }
        let of_step = |m: &&Message| m.main.question == words[2] && m.main.step() == step;
        let new = |m: &&Message| words[8] >> (m.main.station - 1) & 1 == 0;
        let messages = &self.world.messages;
        let fit: Vec<Message> = messages
            .iter()
            .filter(of_step)
            .filter(new)
            .copied()
            .collect();
        if fit.is_empty() || self.world.rng.percent(7) {
            let any = self.world.rng.below(self.world.messages.len());
            return self.world.messages.get(any).copied();
        }
        let own = 9 + 10 * (words[1] as usize - 1);
        let own_value = words[own] >> 28 & 3;
        let splits = |m: &&Message| match m.main.kind {
            Kind::V => m.main.value == NONE,
            _ => m.main.value != own_value,
        };
        let split: Vec<Message> = fit.iter().filter(splits).copied().collect();
        if !split.is_empty() && self.world.rng.percent(self.manner.contrary) {
            return Some(self.world.rng.pick(&split));
        }
        Some(self.world.rng.pick(&fit))
    }

    /// A message of a question and of a later step, if there is one.
    fn choose_later(&mut self, question: u32, step: Step) -> Option<Message> {
        let messages = self.world.messages.iter();
        let later: Vec<Message> = messages
            .filter(|m| m.main.question == question && m.main.step() > step)
            .copied()
            .collect();
        (!later.is_empty()).then(|| self.world.rng.pick(&later))
    }

    /// Keeps a copy of a station as it is now, to hand it in when it is stale.
    fn keep_copy(&mut self, register: usize) {
        let copies: Vec<usize> = COPIES.collect();
        let copy = self.world.rng.pick(&copies);
        self.world.author.set(Command::Keep(copy, register));
        if !self.world.copies.contains(&copy) {
            self.world.copies.push(copy);
        }
    }

    /// Calls at a sound site that must be refused, or that only check.
    pub(super) fn sound_odd_call(&mut self, site: u32) {
        let output = self.world.output();
        let any = self.world.rng.below(self.world.messages.len().max(1));
        let given = self.world.messages.get(any).map_or(DAMAGED, |m| m.buffer);
        match self.world.rng.below(8) {
            0 => self.refused_opening(site, output),
            1 => {
                let jump = self.world.any_jump();
                self.world.open(site, (self.base_question, 0, jump), SHORT);
            }
            2 => self.open(site, self.base_question),
            3 => {
                let damaged = self.world.damage(given);
                self.world.check(damaged);
            }
            4 => {
                let number = self.world.check(given);
                self.world
                    .require(number == 0 || self.any_faulty(), "sound bundles are valid");
            }
            5 => self.refused_coding(site),
            _ => self.refused_giving(site, given, output),
        }
    }

    /// An opening with a proposal out of range or, where some site jumps, with such a setting.
    fn refused_opening(&mut self, site: u32, output: usize) {
        let wrong = self.world.rng.pick(&[2, 3, u32::MAX]);
        let some_jump = self.world.jumps != Jumps::Off;
        let opening = match some_jump && self.world.rng.percent(50) {
            true => (u32::MAX, 0, wrong),
            false => (u32::MAX, wrong, self.world.any_jump()),
        };
        self.world.open(site, opening, output);
    }

    fn any_faulty(&self) -> bool {
        self.world.faulty.contains(&true)
    }

    /// A coding call at a sound site, made only where it is refused.
    fn refused_coding(&mut self, site: u32) {
        let step = self.world.rng.below(8) as u64;
        let n = self.world.n;
        let question = self.base_question;
        let statement = random_statement(
            &mut self.world.rng,
            n,
            (site, question),
            step,
            self.manner.push,
        );
        let coin = self.world.rng.pick(&[None, Some(0), Some(1), Some(2)]);
        self.world.author.put_all(DAMAGED, &statement.words());
        let mut module = self.world.module(site);
        let mut lent = statement.words();
        let number = match coin {
            None => code_plain(&mut module, &mut lent),
            Some(coin) => code_coin(&mut module, &mut lent, coin),
        };
        if is_refusal(number) {
            self.world.code(site, DAMAGED, coin);
        }
    }

    /// A giving at a sound site with a station that is not its own or not its present one, or
    /// with a coin or an output out of range; made only where it is refused.
    fn refused_giving(&mut self, site: u32, given: usize, output: usize) {
        let lineages = self.world.lineages.len();
        let any = self.world.rng.below(lineages.max(1));
        let register = self
            .world
            .lineages
            .get(any)
            .map_or(FORGED, |one| one.register);
        let stale = match self.world.copies.is_empty() {
            true => register,
            false => self.world.rng.pick(&self.world.copies.clone()),
        };
        let coin = self.world.rng.pick(&[0, 1, 1, 2, 256]);
        let output = self.world.rng.pick(&[output, output, SHORT]);
        let register = self.world.rng.pick(&[register, stale, FORGED]);
        if given != output && self.would_refuse(site, register, given, coin, output) {
            self.world.give(site, register, given, coin, output);
        }
    }

    /// Whether a giving would be refused, tried on copies.
    fn would_refuse(
        &self,
        site: u32,
        register: usize,
        given: usize,
        coin: u32,
        out: usize,
    ) -> bool {
        let machine = &self.world.author.machine;
        let mut module: Module = self.world.module(site);
        let mut station = machine.stations[register];
        let mut lent = machine.buffers[out].seen().to_vec();
        let given = machine.buffers[given].seen();
        is_refusal(give(&mut module, &mut station, given, coin, &mut lent).number)
    }
}
