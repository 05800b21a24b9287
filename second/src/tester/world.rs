//! One list of calls: a group of freshly made modules, sound and faulty sites, and what was coded and
//! is on the air.

use std::collections::{BTreeMap, BTreeSet};

use crate::hmac::Key;
use crate::sealed::Module;
use crate::station::{StationWords, JUMP_OFF, JUMP_ON};
use crate::tester::author::Author;
use crate::tester::counts::Counts;
use crate::tester::jumps::Jumps;
use crate::tester::loose::Loose;
use crate::tester::registers::{Message, AIR_BUFFERS, SHORT};
use crate::tester::rng::Rng;
use crate::tester::script::{Command, Report};
use crate::words::{Bundle, Statement};

/// A station from its opening on, with the votes that it has kept.
pub struct Lineage {
    pub site: u32,
    pub question: u32,
    pub register: usize,
    pub(super) votes: BTreeMap<(u32, u32), BTreeSet<u32>>,
    pub(super) decided: Option<u32>,
}

impl Lineage {
    /// A station that was just opened.
    pub fn opened(site: u32, question: u32, register: usize) -> Lineage {
        Lineage {
            site,
            question,
            register,
            votes: BTreeMap::new(),
            decided: None,
        }
    }
}

pub struct World {
    pub n: u32,
    pub key: Key,
    pub faulty: Vec<bool>,
    pub author: Author,
    pub rng: Rng,
    pub lineages: Vec<Lineage>,
    pub messages: Vec<Message>,
    pub coded: Vec<Statement>,
    pub copies: Vec<usize>,
    pub counts: Counts,
    pub failure: Option<String>,
    /// How the faulty sites find certificates just now.
    pub loose: Loose,
    /// Whether certificates and forged stations are coded by hand just now, under the group's key,
    /// and not found among what the modules coded.
    pub by_hand: bool,
    pub jumps: Jumps,
    /// The questions on which a sound site has opened with jump on.
    pub(super) jumped_questions: BTreeSet<u32>,
    pub(super) decisions: Vec<(u32, u32, u32)>,
    next_buffer: usize,
    ready_buffer: Option<usize>,
}

impl World {
    /// "The list starts, for every n, with the n modules of a group, each made once and with
    /// nothing coded, and no station open."
    pub fn new(n: u32, faulty: Vec<bool>, jumps: Jumps, mut rng: Rng, author: Author) -> World {
        let key = std::array::from_fn(|_| rng.word());
        let mut world = World {
            n,
            key,
            faulty,
            author,
            rng,
            lineages: Vec::new(),
            messages: Vec::new(),
            coded: Vec::new(),
            copies: Vec::new(),
            counts: Counts::default(),
            failure: None,
            loose: Loose::No,
            by_hand: false,
            jumps,
            jumped_questions: BTreeSet::new(),
            decisions: Vec::new(),
            next_buffer: 0,
            ready_buffer: None,
        };
        for site in 1..=n {
            let report = world
                .author
                .call(Command::Make(site as usize - 1, key, n, site));
            world.count(&report);
            world.require(report.number == 0, "a module is made");
        }
        world.author.set(Command::Fill(SHORT, 330, 0x5a));
        world
    }

    pub fn require(&mut self, holds: bool, what: &str) {
        if !holds && self.failure.is_none() {
            self.failure = Some(format!("{what} (n {}, call {})", self.n, self.counts.calls));
        }
    }

    pub fn count(&mut self, report: &Report) {
        self.counts.calls += 1;
        *self.counts.returned.entry(report.number).or_default() += 1;
    }

    pub fn is_sound(&self, site: u32) -> bool {
        !self.faulty[site as usize - 1]
    }

    pub fn module(&self, site: u32) -> Module {
        Module::read(&self.author.machine.modules[site as usize - 1])
    }

    pub fn station(&self, register: usize) -> &StationWords {
        &self.author.machine.stations[register]
    }

    /// A jump setting in range, as the list's openings have it.
    pub fn any_jump(&mut self) -> u32 {
        match self.jumps {
            Jumps::Off => JUMP_OFF,
            Jumps::On => JUMP_ON,
            Jumps::Mixed => self.rng.bit(),
        }
    }

    // ---- bundles on the air -----------------------------------------------------------------

    /// A buffer to lend: at least 331 words of a background that shows what is written.
    pub fn output(&mut self) -> usize {
        if let Some(buffer) = self.ready_buffer {
            return buffer;
        }
        let buffer = self.next_buffer;
        self.next_buffer = (buffer + 1) % AIR_BUFFERS;
        self.messages.retain(|message| message.buffer != buffer);
        let length = self.rng.pick(&[331, 331, 331, 332, 400]);
        self.author.set(Command::Fill(buffer, length, 0xa5));
        self.ready_buffer = Some(buffer);
        buffer
    }

    /// The lent buffer becomes a message: it is cut to the bundle written.
    pub(super) fn send(&mut self, buffer: usize, count: usize, main: Statement) {
        self.author.set(Command::Length(buffer, count));
        self.messages.push(Message { buffer, main });
        if self.ready_buffer == Some(buffer) {
            self.ready_buffer = None;
        }
    }

    /// Puts a bundle on the air that no station wrote.
    pub fn publish(&mut self, bundle: &Bundle) {
        let words = bundle.words();
        let buffer = self.output();
        self.author.put(buffer, 0, &words);
        self.send(buffer, words.len(), bundle.main);
    }
}
