//! The calls of a list: each is made, counted, and looked at for what must hold after it.

use crate::returns::is_refusal;
use crate::station::{refused_station, JUMP_ON, JUMP_WORD};
use crate::tester::registers::{FORGED, LINEAGE_REGISTERS};
use crate::tester::script::Command;
use crate::tester::world::{Lineage, World};
use crate::words::Statement;

impl World {
    /// Opens a station at a site into a register, on a question with a proposal and a jump setting; a
    /// new lineage where it is not refused.
    pub fn open(&mut self, site: u32, opening: (u32, u32, u32), output: usize) -> u32 {
        let (question, proposal, jump) = opening;
        let register = match self.lineages.len() {
            used if used < LINEAGE_REGISTERS => used,
            _ => FORGED,
        };
        let m = site as usize - 1;
        let command = Command::Open(m, register, question, proposal, jump, output);
        let report = self.author.call(command);
        self.count(&report);
        if is_refusal(report.number) {
            self.require(
                report.station.1 == refused_station(),
                "a refused opening's station",
            );
            self.require_unchanged(&report, false);
            return report.number;
        }
        self.require(report.number == 20, "an opening answers 20");
        self.require(report.station.1[JUMP_WORD] == jump, "it has its setting");
        if self.is_sound(site) && jump == JUMP_ON {
            self.jumped_questions.insert(question);
        }
        self.require_written(&report, site, output, self.is_sound(site));
        if register != FORGED {
            self.lineages
                .push(Lineage::opened(site, question, register));
            self.require_naming(self.lineages.len() - 1, &report);
        }
        report.number
    }

    /// Gives a buffer to the station in a register. The lineage is named where the station is the
    /// present one of a lineage.
    pub fn give(
        &mut self,
        site: u32,
        register: usize,
        given: usize,
        coin: u32,
        output: usize,
    ) -> u32 {
        let lineage = self
            .lineages
            .iter()
            .position(|one| one.register == register && one.site == site);
        let own = lineage.filter(|_| self.is_sound(site));
        let command = Command::Give(site as usize - 1, register, given, coin, output);
        let report = self.author.call(command);
        self.count(&report);
        self.look_at_given(given, report.number);
        self.require_step(&report, given);
        if is_refusal(report.number) {
            self.require_refusal(&report, own.is_some());
            self.counts.forged_conflicts += u64::from(report.number == 10);
            return report.number;
        }
        self.require(
            own.is_some() || !self.is_sound(site),
            "a sound site's module takes its own stations only",
        );
        self.require_given(&report, site, output, own.is_some());
        if report.number == 23 {
            self.require_jump(&report, given, coin, own.is_some());
        }
        if let Some(own) = own {
            self.note_votes(own, given, &report);
            self.require_naming(own, &report);
            self.require_deep(own, &report);
        }
        report.number
    }

    /// Codes the words of a buffer, by the coin where there is one.
    pub fn code(&mut self, site: u32, buffer: usize, coin: Option<u32>) -> u32 {
        let m = site as usize - 1;
        let report = self.author.call(match coin {
            None => Command::Plain(m, buffer),
            Some(coin) => Command::Toss(m, buffer, coin),
        });
        self.count(&report);
        if is_refusal(report.number) {
            self.require_unchanged(&report, true);
            return report.number;
        }
        self.require(
            report.number == 0,
            "coding answers 0 where it doesn't refuse",
        );
        self.require(
            !self.is_sound(site),
            "a sound site's module codes for its stations only",
        );
        match Statement::read(&report.lent.1, self.n) {
            Some(statement) => self.note_coded(&report, site, statement),
            None => self.require(false, "coded words are a statement"),
        }
        report.number
    }

    /// The validity check on a buffer.
    pub fn check(&mut self, buffer: usize) -> u32 {
        let report = self.author.call(Command::Check(0, buffer));
        self.count(&report);
        self.look_at_given(buffer, report.number);
        self.require_unchanged(&report, true);
        report.number
    }
}
