//! What records the calls of a script: setups are put into registers, calls are made on them and
//! their numbers are held against what is expected.

use crate::sealed::{Module, MODULE_WORDS};
use crate::station::StationWords;
use crate::tester::author::Author;
use crate::tester::script::{Command, Report};
use crate::tester::setup::Setup;
use crate::words::Bundle;

/// Registers: what a call takes, what it is made from, and the lent output.
pub const USED: usize = 0;
pub const BASE: usize = 1;
pub const OUTPUT: usize = 2;
/// What lent words hold before a call.
pub const BACKGROUND: u32 = 0xa5;

/// The calls recorded so far.
pub struct Calls {
    pub author: Author,
}

impl Calls {
    /// Puts a setup into the registers that the following givings are made from.
    pub fn base(&mut self, name: &str, setup: &Setup) {
        self.author.comment(name);
        self.author.set(Command::Raw(BASE, setup.module.words()));
        self.author.put_station(BASE, &setup.station);
        self.author.put_all(BASE, &setup.given);
    }

    /// Gives by a setup. Only what differs from what the registers hold is put.
    pub fn give(&mut self, setup: &Setup, expected: Option<u32>) -> Report {
        self.put_module(setup);
        self.author.put_station_like(USED, BASE, &setup.station);
        self.author.put_like(USED, BASE, &setup.given);
        let output = &self.author.machine.buffers[OUTPUT];
        let ready = output.seen().iter().all(|word| *word == BACKGROUND);
        if !ready || output.length != setup.output {
            self.author
                .set(Command::Fill(OUTPUT, setup.output, BACKGROUND));
        }
        let report = self
            .author
            .call(Command::Give(USED, USED, USED, setup.coin, OUTPUT));
        if let Some(expected) = expected {
            assert_eq!(report.number, expected, "station {:?}", &setup.station[..9]);
        }
        report
    }

    fn put_module(&mut self, setup: &Setup) {
        let wanted = setup.module.words();
        let modules = &self.author.machine.modules;
        if modules[USED] == wanted {
            return;
        }
        let command = match modules[BASE] == wanted {
            true => Command::Adopt(USED, BASE),
            false => Command::Raw(USED, wanted),
        };
        self.author.set(command);
    }

    /// Puts a base and gives by it.
    pub fn try_once(&mut self, name: &str, setup: &Setup, expected: u32) -> Report {
        self.base(name, setup);
        self.give(setup, Some(expected))
    }

    /// Puts a module's words into the register that calls take it from.
    pub fn raw(&mut self, words: [u32; MODULE_WORDS]) {
        self.author.set(Command::Raw(USED, words));
    }

    /// Opens on a question with a proposal and a jump setting.
    pub fn open(
        &mut self,
        module: &Module,
        opening: (u32, u32, u32),
        length: usize,
        number: u32,
    ) -> Report {
        let (question, proposal, jump) = opening;
        self.raw(module.words());
        self.author.set(Command::Fill(OUTPUT, length, BACKGROUND));
        let command = Command::Open(USED, USED, question, proposal, jump, OUTPUT);
        let report = self.author.call(command);
        assert_eq!(report.number, number);
        report
    }

    /// Gives by a setup, and reads the bundle written.
    pub fn written(
        &mut self,
        name: &str,
        n: u32,
        words: StationWords,
        given: Bundle,
        number: u32,
    ) -> Bundle {
        let setup = Setup::new(n, words, given);
        let report = self.try_once(name, &setup, number);
        Bundle::read(&report.lent.1[..report.count], n).expect("a bundle is written")
    }
}
