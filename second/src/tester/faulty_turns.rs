//! The turns of faulty sites: they code what they like, send it with what backs it or nearly does,
//! and hand in stations of any kind.

use crate::group::LAST_ROUND;
use crate::station::step_and_decision;
use crate::tester::adversary::{random_statement, round_of};
use crate::tester::list::Run;
use crate::tester::loose::Loose;
use crate::tester::registers::{Message, DAMAGED, FORGED};
use crate::tester::script::LAST_STEP;
use crate::words::{step, Bundle, Flag, Kind, Statement, Step, NONE};

impl Run {
    /// A question and a step that a sound station is in or comes to, or that was just coded.
    fn near_step(&mut self) -> (u32, u64) {
        let sound: Vec<usize> = (0..self.world.lineages.len())
            .filter(|i| self.world.is_sound(self.world.lineages[*i].site))
            .collect();
        let (question, step) = match sound.is_empty() || self.world.rng.percent(10) {
            true => {
                let coded = &self.world.coded;
                let latest = coded.iter().rev().take(6).map(|s| s.step().0).max();
                (self.question(), latest.unwrap_or(0))
            }
            false => {
                let lineage = &self.world.lineages[self.world.rng.pick(&sound)];
                let words = self.world.station(lineage.register);
                (lineage.question, step_and_decision(words).0 .0)
            }
        };
        let next = step + self.world.rng.pick(&[0, 0, 0, 1, 1, 2]);
        (question, next.min(LAST_STEP))
    }

    fn question(&mut self) -> u32 {
        let coded = &self.world.coded;
        match coded.is_empty() {
            true => self.base_question,
            false => coded[self.world.rng.below(coded.len())].question,
        }
    }

    /// Codes what it likes, sometimes against the rules of coding, and often sends it.
    pub(super) fn faulty_code(&mut self, site: u32) {
        let (question, step) = self.near_step();
        let n = self.world.n;
        let statement = random_statement(
            &mut self.world.rng,
            n,
            (site, question),
            step,
            self.manner.push,
        );
        let last = self.world.module(site).last;
        let late = last.is_some_and(|last| last >= (question, statement.step()));
        if late && self.world.rng.percent(90) {
            return;
        }
        if self.code_statement(site, statement) == 0 && self.world.rng.percent(80) {
            let main = self.world.coded[self.world.coded.len() - 1];
            self.publish(main);
        }
    }

    fn code_statement(&mut self, site: u32, statement: Statement) -> u32 {
        let for_coin = statement.kind == Kind::P && statement.flag == Flag::RGet;
        let right = for_coin != self.world.rng.percent(4);
        let coin = match self.world.rng.percent(3) {
            true => 2,
            false => statement.value & 1,
        };
        let mut words = statement.words();
        if self.world.rng.percent(3) {
            words[0] ^= 1 << self.world.rng.below(32);
        }
        self.world.author.put_all(DAMAGED, &words);
        self.world.code(site, DAMAGED, right.then_some(coin))
    }

    /// Puts a coded statement of a faulty site on the air, with a certificate where one is found.
    pub(super) fn faulty_publish(&mut self) {
        let mine: Vec<Statement> = self
            .world
            .coded
            .iter()
            .rev()
            .filter(|s| !self.world.is_sound(s.station))
            .take(8)
            .copied()
            .collect();
        if mine.is_empty() {
            return;
        }
        let main = self.world.rng.pick(&mine);
        self.publish(main);
    }

    /// Puts a statement on the air with a certificate that backs it, or that nearly does.
    fn publish(&mut self, main: Statement) {
        if self.world.rng.percent(50) {
            self.world.loose = self.manner.loose;
        }
        let found = self.world.find_certificate(&main);
        self.world.loose = Loose::No;
        let certificate = match found {
            Some(certificate) => certificate,
            None if self.world.rng.percent(90) => return,
            None => self.world.coded.iter().rev().take(3).copied().collect(),
        };
        self.world.publish(&Bundle { main, certificate });
    }

    /// Hands in a station: its own, a stale one, another site's or a forged one.
    pub(super) fn faulty_station(&mut self, site: u32) {
        if self.world.messages.is_empty() {
            self.open(site, self.base_question);
            return;
        }
        let any = self.world.rng.below(self.world.messages.len());
        let message = self.world.messages[any];
        let register = match self.world.rng.below(10) {
            0 => {
                self.open(site, message.main.question);
                return;
            }
            1..=3 => self.own_or_stale(site),
            _ => {
                self.forge(site, &message);
                FORGED
            }
        };
        let given = match self.world.rng.percent(4) {
            true => self.world.damage(message.buffer),
            false => message.buffer,
        };
        let coin = self.coin(site);
        let output = self.world.output();
        if given == output {
            return;
        }
        let number = self.world.give(site, register, given, coin, output);
        if number == 22 && self.world.rng.percent(50) {
            let output = self.world.output();
            self.world.give(site, register, given, coin, output);
        }
    }

    fn own_or_stale(&mut self, site: u32) -> usize {
        let lineages = self.world.lineages.iter();
        let mut registers: Vec<usize> = lineages
            .filter(|one| one.site == site)
            .map(|one| one.register)
            .collect();
        registers.extend(&self.world.copies);
        match registers.is_empty() {
            true => FORGED,
            false => self.world.rng.pick(&registers),
        }
    }

    /// Forges a station in a message's step, now and then one that contradicts it, or that does
    /// not fit.
    fn forge(&mut self, site: u32, message: &Message) {
        let mut like = message.main;
        if like.value != NONE && self.world.rng.percent(40) {
            like.value = 1 - like.value;
        }
        if self.world.rng.percent(10) && like.kind != Kind::Init {
            like.round = round_of(self.near_step().1).clamp(1, LAST_ROUND);
        }
        let mut words = self.world.forge_station(site, like);
        if self.world.rng.percent(15) {
            self.world.damage_station(&mut words);
        }
        self.world.author.put_station(FORGED, &words);
    }

    /// All sites code the statements of the last two rounds and put them on the air.
    pub(super) fn code_last_rounds(&mut self) {
        let value = self.world.rng.bit();
        let question = self.base_question;
        for site in 1..=self.world.n {
            let mut made = Vec::new();
            for late in LAST_STEP - 3..=LAST_STEP {
                let statement = self.late_statement(site, question, late, value);
                made.push(statement);
            }
            for statement in made {
                if !self.world.rng.percent(5) {
                    self.code_statement(site, statement);
                }
            }
        }
        for main in self.world.coded.clone() {
            if let Some(certificate) = self.world.find_certificate(&main) {
                self.world.publish(&Bundle { main, certificate });
            }
        }
    }

    fn late_statement(&mut self, site: u32, question: u32, late: u64, value: u32) -> Statement {
        let other = self.world.rng.percent(10);
        let value = if other { 1 - value } else { value };
        let who = (site, question);
        let round = round_of(late);
        if Step(late) == step(Kind::P, round) {
            let flag = self.world.rng.pick(&[Flag::DGet, Flag::RGet]);
            Statement::uncoded(Kind::P, round, value, flag, who)
        } else {
            let vote = self.world.rng.pick(&[value, value, NONE]);
            Statement::uncoded(Kind::V, round, vote, Flag::DGet, who)
        }
    }
}
