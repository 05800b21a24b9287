//! Calls beside a list: on copies of what it holds, or on stations and bundles made by hand in any
//! round, with a few faults put in. The key is at hand here, so that codes verify where they are
//! meant to. The list goes on as if these calls had not been made.

use std::cmp::Reverse;

use crate::group::{quorum, BUNDLE_WORDS, LAST_ROUND, MOST_CERTIFICATE, STATEMENT_WORDS};
use crate::hmac::code;
use crate::returns::is_refusal;
use crate::sealed::Module;
use crate::station::{fits, refused_station, step_and_decision, StationWords, JUMP_ON};
use crate::station::{JUMP_WORD, STATION_WORDS};
use crate::tester::adversary::random_statement;
use crate::tester::changes::{changes, field_faults};
use crate::tester::loose::{Loose, LOOSE};
use crate::tester::registers::{Message, AIR_BUFFERS, ASIDE, SPARE_OUTPUT};
use crate::tester::script::{Command, LAST_STEP, MODULES};
use crate::tester::setup::Setup;
use crate::tester::world::World;
use crate::words::{Bundle, Flag, Statement, Step, NONE};

/// The registers of these calls, which the list's own calls leave alone: codes made by hand must not
/// come into the list.
const MODULE: usize = MODULES - 1;
const STATION: usize = ASIDE;
const GIVEN: usize = AIR_BUFFERS;
const OUTPUT: usize = SPARE_OUTPUT;

/// Rounds of what is made by hand: the first and the last ones, and some between.
const ROUNDS: [u32; 13] = [
    1,
    1,
    2,
    2,
    3,
    255,
    256,
    32_767,
    32_768,
    LAST_ROUND - 1,
    LAST_ROUND - 1,
    LAST_ROUND,
    LAST_ROUND,
];

impl World {
    /// One call beside the list, or a few that follow one another.
    pub fn aside(&mut self) {
        match self.rng.below(20) {
            0 => self.making_aside(),
            1 | 2 => self.opening_aside(),
            3..=5 => self.coding_aside(),
            6..=9 => self.check_aside(),
            _ => self.givings_aside(),
        }
    }

    /// Makes a call and looks at what holds of every call.
    fn call_aside(&mut self, command: Command) -> u32 {
        let report = self.author.call(command.clone());
        self.count(&report);
        let refused = is_refusal(report.number);
        match command {
            Command::Make(..) => {
                let zeros = report.module.1.iter().all(|word| *word == 0);
                self.require(zeros == refused, "a refused making's module");
            }
            Command::Open(..) if refused => {
                self.require(
                    report.station.1 == refused_station(),
                    "a refused opening's station",
                );
                self.require_unchanged(&report, false);
            }
            _ if refused => self.require_unchanged(&report, true),
            Command::Open(..) | Command::Give(..) => {
                let module = Module::read(&self.author.machine.modules[MODULE]);
                let fits = fits(self.station(STATION), &module);
                self.require(fits, "a returned station fits");
            }
            _ => {}
        }
        report.number
    }

    // ---- what is made by hand ---------------------------------------------------------------

    fn any_site(&mut self) -> u32 {
        1 + self.rng.below(self.n as usize) as u32
    }

    fn any_message(&mut self) -> Option<Message> {
        let any = self.rng.below(self.messages.len().max(1));
        self.messages.get(any).copied()
    }

    /// A question of the list, or one at an end.
    fn any_question(&mut self) -> u32 {
        let coded = self.rng.below(self.coded.len().max(1));
        match self.coded.get(coded) {
            Some(coded) if self.rng.percent(80) => coded.question,
            _ => self.rng.pick(&[0, 1, u32::MAX]),
        }
    }

    /// A statement of any kind and round, mostly of that station.
    fn any_statement(&mut self, station: u32) -> Statement {
        let round = self.rng.pick(&ROUNDS);
        let propose = 2 * u64::from(round);
        let vote = propose + 1;
        let step = self.rng.pick(&[0, propose, propose, vote, vote, vote]);
        let who = (station, self.any_question());
        let push = self.rng.bit();
        random_statement(&mut self.rng, self.n, who, step, push)
    }

    /// A statement with a certificate that backs it, or that nearly does.
    fn made_bundle(&mut self, main: Statement) -> Bundle {
        self.by_hand = true;
        if self.rng.percent(35) {
            self.loose = self.rng.pick(&LOOSE);
        }
        let mut backed = main;
        if main.round == 1 {
            // an R-GET of round 1 is backed by no rule: it gets what another proposal would
            backed.flag = Flag::DGet;
        }
        let certificate = self.find_certificate(&backed).unwrap_or_default();
        self.loose = Loose::No;
        self.by_hand = false;
        Bundle {
            main: main.coded(&self.key),
            certificate,
        }
    }

    /// A module's last pair: none, or around a pair.
    fn last_near(&mut self, question: u32, step: Step) -> Option<(u32, Step)> {
        let step = step.0;
        let (question, last) = match self.rng.below(10) {
            0..=2 => return None,
            3 | 4 => (question, step),
            5 => (question, step.saturating_sub(1)),
            6 => (question, step + 1),
            7 => (question, step + 2),
            8 => (question.wrapping_sub(1), LAST_STEP),
            _ => (question.wrapping_add(1), 0),
        };
        Some((question, Step(last.min(LAST_STEP))))
    }

    /// A giving by hand: a station of any stage, with statements held and groups kept, and a bundle
    /// that is mostly of its step; else of any other, and mostly of its question.
    fn made_setup(&mut self) -> Setup {
        let (site, other) = (self.any_site(), self.any_site());
        let main = self.any_statement(other);
        let mut own = match self.rng.percent(30) {
            true => self.any_statement(site),
            false => main,
        };
        if self.rng.percent(85) {
            own.question = main.question;
        }
        if own.value != NONE && self.rng.percent(20) {
            own.value = 1 - own.value;
        }
        self.by_hand = true;
        let mut station = self.forge_station(site, own);
        self.by_hand = false;
        station[JUMP_WORD] = self.rng.bit();
        let mut module = self.module(site);
        let coded = self.rng.pick(&[own, own, main]);
        module.last = self.last_near(coded.question, coded.step());
        Setup {
            module,
            station,
            given: self.made_bundle(main).words(),
            coin: self.rng.bit(),
            output: BUNDLE_WORDS,
        }
    }

    /// A giving of the list: a present station with its site's module, and a bundle on the air that
    /// is mostly of its step. With the registers of the station and of the bundle.
    fn present_setup(&mut self) -> Option<(Setup, (usize, usize))> {
        let any = self.rng.below(self.lineages.len().max(1));
        let lineage = self.lineages.get(any)?;
        let (site, register) = (lineage.site, lineage.register);
        let station = *self.station(register);
        let step = step_and_decision(&station).0;
        let of_step = |m: &&Message| m.main.question == station[2] && m.main.step() == step;
        let fit: Vec<Message> = self.messages.iter().filter(of_step).copied().collect();
        let message = match fit.is_empty() || self.rng.percent(20) {
            true => self.any_message()?,
            false => self.rng.pick(&fit),
        };
        let given = self.author.machine.buffers[message.buffer].seen().to_vec();
        let setup = Setup {
            module: self.module(site),
            station,
            given,
            coin: self.rng.bit(),
            output: BUNDLE_WORDS,
        };
        Some((setup, (register, message.buffer)))
    }

    // ---- faults -----------------------------------------------------------------------------

    /// A length of lent output, mostly enough.
    fn any_length(&mut self) -> usize {
        let short = self.rng.below(BUNDLE_WORDS);
        self.rng
            .pick(&[331, 331, 331, 331, 331, 332, 400, 330, short, 0])
    }

    /// Puts a fault into one part of a giving, or something that is none.
    fn put_fault(&mut self, setup: &mut Setup) {
        match self.rng.below(9) {
            0 => setup.coin = self.rng.pick(&[2, 3, 256, u32::MAX]),
            1 => setup.output = self.any_length(),
            2 => self.change_module(&mut setup.module),
            3 => self.damage_station(&mut setup.station),
            4 => self.change_station(setup),
            5 => self.change_state(&mut setup.station),
            6 => self.recode(&mut setup.given),
            7 => setup.station[JUMP_WORD] ^= JUMP_ON,
            _ => self.rearrange(&mut setup.given),
        }
    }

    fn change_module(&mut self, module: &mut Module) {
        let n = self.n;
        match self.rng.below(4) {
            0 => module.n = self.rng.pick(&[0, 1, 2, n - 1, n + 1, 31, 32, u32::MAX]),
            1 => module.number = self.rng.pick(&[0, 1, n, n + 1, 31, 32, u32::MAX]),
            2 => module.key[self.rng.below(8)] ^= 1 << self.rng.below(32),
            _ => {
                let (question, step) = module.last.unwrap_or((1, Step(0)));
                module.last = self.last_near(question, step);
            }
        }
    }

    /// One of the changes by which the script of the repository tries what fits.
    fn change_station(&mut self, setup: &mut Setup) {
        let is_open = setup.station[6] == 0;
        if is_open && fits(&setup.station, &setup.module) {
            let all = changes(setup, 0, self.rng.percent(20));
            setup.station = all[self.rng.below(all.len())].0;
        }
    }

    /// Another decision, flag or round; closed; the station that is none; no station at all.
    fn change_state(&mut self, station: &mut StationWords) {
        match self.rng.below(10) {
            0..=2 => station[7] = self.rng.pick(&[0, 1, 2, 3, u32::MAX]),
            3 | 4 if station[3] == 1 => station[5] ^= 1,
            3..=5 if station[3] != 0 => station[4] ^= 1 << self.rng.below(18),
            6 => *station = refused_station(),
            7 => *station = [0; STATION_WORDS],
            _ => station[6] ^= 1,
        }
    }

    /// Changes one field of a statement's first word, mostly into what is well-formed.
    fn change_field(&mut self, word0: &mut u32) {
        let mut faults = field_faults(self.n, *word0);
        if self.rng.percent(80) {
            faults.retain(|(_, number)| number.is_none());
        }
        *word0 = self.rng.pick(&faults).0;
    }

    /// Changes a field or the question of one statement and codes it anew.
    fn recode(&mut self, words: &mut [u32]) {
        let statements = words.len().saturating_sub(1) / STATEMENT_WORDS;
        if statements == 0 {
            return;
        }
        let at = 1 + STATEMENT_WORDS * self.rng.below(statements);
        if self.rng.percent(15) {
            words[at + 1] ^= 1 << self.rng.below(32);
        } else {
            self.change_field(&mut words[at]);
        }
        let code = code(&self.key, words[at], words[at + 1]);
        words[at + 2..at + STATEMENT_WORDS].copy_from_slice(&code);
    }

    /// Changes the make-up of a certificate: one fewer, twice, of one more station, groups exchanged
    /// or repeated, as many statements as there may be or one more.
    fn rearrange(&mut self, words: &mut Vec<u32>) {
        let Some(Bundle {
            main,
            certificate: mut all,
        }) = Bundle::read(words, self.n)
        else {
            return;
        };
        let q = quorum(self.n).min(all.len());
        let place = self.rng.below(all.len().max(1));
        let one = all.get(place).copied().unwrap_or(main);
        match self.rng.below(6) {
            0 if !all.is_empty() => drop(all.remove(place)),
            1 => all.insert(place, one),
            2 => {
                let station = self.any_site();
                all.push(Statement { station, ..one }.coded(&self.key));
                if self.rng.percent(70) {
                    // each group behind those of later steps
                    all.sort_by_key(|s| (Reverse(s.step()), s.station));
                }
            }
            3 => all.rotate_left(q),
            4 => all.extend_from_within(..q),
            _ => all.resize(MOST_CERTIFICATE + self.rng.below(2), one),
        }
        all.truncate(MOST_CERTIFICATE + 1);
        let certificate = all;
        *words = Bundle { main, certificate }.words();
    }

    // ---- the calls --------------------------------------------------------------------------

    /// A making, in range or not, and what comes of it.
    fn making_aside(&mut self) {
        let any = 2 + self.rng.below(30) as u32;
        let n = self.rng.pick(&[any, any, any, 0, 1, 2, 31, 32, u32::MAX]);
        let inside = 1 + self.rng.below(31) as u32;
        let next = n.wrapping_add(1);
        let number = self.rng.pick(&[inside, inside, 1, n, 0, next, u32::MAX]);
        let key = std::array::from_fn(|_| self.rng.word());
        self.call_aside(Command::Make(MODULE, key, n, number));
        if self.rng.percent(50) {
            self.open_aside();
        }
    }

    /// An opening with the module beside the list, and now and then a giving on what it returned.
    fn open_aside(&mut self) {
        let length = self.any_length();
        let question = self.any_question();
        let proposal = self.rng.pick(&[0, 1, 0, 1, 0, 1, 2, 3, u32::MAX]);
        let jump = self.rng.pick(&[0, 1, 0, 1, 0, 1, 2, 3, u32::MAX]);
        self.author.set(Command::Fill(OUTPUT, length, 0xa5));
        let open = Command::Open(MODULE, STATION, question, proposal, jump, OUTPUT);
        self.call_aside(open);
        if let (Some(message), true) = (self.any_message(), self.rng.percent(30)) {
            self.give_aside(message.buffer);
        }
    }

    fn opening_aside(&mut self) {
        self.put_module();
        self.open_aside();
    }

    /// Puts a site's module into its register beside the list, now and then changed.
    fn put_module(&mut self) {
        let site = self.any_site();
        let mut module = self.module(site);
        if self.rng.percent(40) {
            self.change_module(&mut module);
        }
        self.author.set(Command::Raw(MODULE, module.words()));
    }

    /// Codes any statement, mostly of the module's station and mostly the right way.
    fn coding_aside(&mut self) {
        let (site, other) = (self.any_site(), self.any_site());
        let mut module = self.module(site);
        let station = if self.rng.percent(15) { other } else { site };
        let statement = self.any_statement(station);
        module.last = self.last_near(statement.question, statement.step());
        if self.rng.percent(20) {
            self.change_module(&mut module);
        }
        let mut words = statement.words().to_vec();
        if self.rng.percent(25) {
            self.change_field(&mut words[0]);
        }
        if self.rng.percent(10) {
            let length = self.rng.pick(&[0, 1, 9, 11, 20]);
            words.resize(length, 0);
        }
        self.author.set(Command::Raw(MODULE, module.words()));
        self.author.put_all(GIVEN, &words);
        let for_coin = statement.word0() >> 27 & 1 == 1;
        let coin = self.rng.pick(&[0, 1, 0, 1, 2, u32::MAX]);
        let command = match for_coin != self.rng.percent(15) {
            true => Command::Toss(MODULE, GIVEN, coin),
            false => Command::Plain(MODULE, GIVEN),
        };
        self.call_aside(command);
    }

    /// A check of a bundle made by hand or on the air, with up to two faults.
    fn check_aside(&mut self) {
        let (mut words, like) = match self.any_message() {
            Some(message) if self.rng.percent(30) => {
                let words = self.author.machine.buffers[message.buffer].seen();
                (words.to_vec(), message.buffer)
            }
            _ => {
                let site = self.any_site();
                let main = self.any_statement(site);
                (self.made_bundle(main).words(), GIVEN)
            }
        };
        for _ in 0..self.rng.pick(&[0, 1, 1, 2]) {
            match self.rng.percent(60) {
                true => self.recode(&mut words),
                false => self.rearrange(&mut words),
            }
        }
        self.put_module();
        self.author.put_like(GIVEN, like, &words);
        let given = self.maybe_damaged();
        self.call_aside(Command::Check(MODULE, given));
    }

    fn maybe_damaged(&mut self) -> usize {
        match self.rng.percent(12) {
            true => self.damage(GIVEN),
            false => GIVEN,
        }
    }

    /// A giving with up to three faults; the station then goes on with bundles of its steps.
    fn givings_aside(&mut self) {
        let present = match self.rng.percent(45) {
            true => self.present_setup(),
            false => None,
        };
        let (mut setup, like) = match present {
            Some(present) => present,
            None => (self.made_setup(), (STATION, GIVEN)),
        };
        for _ in 0..self.rng.pick(&[0, 0, 0, 1, 1, 1, 2, 3]) {
            self.put_fault(&mut setup);
        }
        self.author.set(Command::Raw(MODULE, setup.module.words()));
        self.author
            .put_station_like(STATION, like.0, &setup.station);
        self.author.put_like(GIVEN, like.1, &setup.given);
        let given = self.maybe_damaged();
        self.author.set(Command::Fill(OUTPUT, setup.output, 0xa5));
        let command = Command::Give(MODULE, STATION, given, setup.coin, OUTPUT);
        if is_refusal(self.call_aside(command)) && !self.rng.percent(10) {
            return;
        }
        let push = self.rng.bit();
        for _ in 0..self.rng.pick(&[0, 0, 1, 2, 5]) {
            self.go_on_aside(push);
        }
    }

    /// Gives the station beside the list a further bundle, made by hand: of its step, or one that is a
    /// little later.
    fn go_on_aside(&mut self, push: u32) {
        let station = *self.station(STATION);
        let later = self.rng.pick(&[0, 0, 0, 0, 0, 1, 2, 3]);
        let step = (step_and_decision(&station).0 .0 + later).min(LAST_STEP);
        let who = (self.any_site(), station[2]);
        let main = random_statement(&mut self.rng, self.n, who, step, push);
        let words = self.made_bundle(main).words();
        self.author.put_all(GIVEN, &words);
        self.give_aside(GIVEN);
    }

    fn give_aside(&mut self, given: usize) {
        let coin = self.rng.bit();
        let length = self.rng.pick(&[331, 331, 331, 400]);
        self.author.set(Command::Fill(OUTPUT, length, 0xa5));
        self.call_aside(Command::Give(MODULE, STATION, given, coin, OUTPUT));
    }
}
