//! Carries commands out and, where asked, records them as a script with what it prints.

use crate::station::{StationWords, STATION_WORDS};
use crate::tester::script::{Command, Machine, Report, BUFFER_WORDS};

/// Words put by one line of a script.
const WORDS_A_LINE: usize = 60;

#[derive(Default)]
pub struct Author {
    pub machine: Machine,
    /// The script and what it prints, where they are recorded.
    pub record: Option<(String, String)>,
}

impl Author {
    pub fn recording() -> Author {
        Author {
            machine: Machine::default(),
            record: Some(Default::default()),
        }
    }

    /// A line that prints nothing and does nothing.
    pub fn comment(&mut self, text: &str) {
        if let Some((script, _)) = &mut self.record {
            script.push_str(&format!("# {text}\n"));
        }
    }

    /// Carries a setting out.
    pub fn set(&mut self, command: Command) {
        let report = self.carry_out(&command);
        assert!(report.is_none(), "a call is not a setting: {command:?}");
    }

    /// Carries a call out.
    pub fn call(&mut self, command: Command) -> Report {
        self.carry_out(&command).expect("a setting is not a call")
    }

    fn carry_out(&mut self, command: &Command) -> Option<Report> {
        assert!(self.machine.takes(command), "not for a script: {command:?}");
        let report = self.machine.carry_out(command);
        if let Some((script, output)) = &mut self.record {
            script.push_str(&command.line());
            if let Some(report) = &report {
                output.push_str(&report.line());
            }
        }
        report
    }

    /// Puts words into a buffer, in as many lines as it takes.
    pub fn put(&mut self, buffer: usize, index: usize, words: &[u32]) {
        for (chunk, start) in words
            .chunks(WORDS_A_LINE)
            .zip((index..).step_by(WORDS_A_LINE))
        {
            self.set(Command::Words(buffer, start, chunk.to_vec()));
        }
    }

    /// Makes a buffer exactly these words.
    pub fn put_all(&mut self, buffer: usize, words: &[u32]) {
        assert!(words.len() <= BUFFER_WORDS);
        self.put(buffer, 0, words);
        self.set(Command::Length(buffer, words.len()));
    }

    /// Makes a buffer these words: what differs from itself or, if that is less, from another.
    pub fn put_like(&mut self, buffer: usize, like: usize, words: &[u32]) {
        let size = words.len();
        let buffers = &self.machine.buffers;
        let own = differing(&buffers[buffer].words[..size], words);
        if differing(&buffers[like].words[..size], words) < own {
            self.set(Command::Bring(buffer, like));
        }
        let from = self.machine.buffers[buffer].clone();
        for (index, run) in runs(&from.words[..words.len()], words) {
            self.set(Command::Words(buffer, index, run));
        }
        if words.len() != from.length {
            self.set(Command::Length(buffer, words.len()));
        }
    }

    /// Makes a station register these words: zeros, and what differs.
    pub fn put_station(&mut self, register: usize, words: &StationWords) {
        self.set(Command::Zero(register));
        for (index, run) in runs(&[0; STATION_WORDS], words) {
            self.set(Command::Station(register, index, run));
        }
    }

    /// Makes a station register these words: what differs from itself or, if that is less, from
    /// another.
    pub fn put_station_like(&mut self, register: usize, like: usize, words: &StationWords) {
        let own = differing(&self.machine.stations[register], words);
        if differing(&self.machine.stations[like], words) + 1 < own {
            self.set(Command::Keep(register, like));
        }
        let from = self.machine.stations[register];
        for (index, run) in runs(&from, words) {
            self.set(Command::Station(register, index, run));
        }
    }
}

fn differing(from: &[u32], to: &[u32]) -> usize {
    from.iter().zip(to).filter(|(a, b)| a != b).count()
}

/// The runs of words that differ, each with its index, cut to what a line takes.
fn runs(from: &[u32], to: &[u32]) -> Vec<(usize, Vec<u32>)> {
    let mut runs = Vec::new();
    let mut index = 0;
    while index < to.len() {
        let differs = |i: &usize| from[*i] != to[*i];
        let end = (index..to.len())
            .take_while(differs)
            .take(WORDS_A_LINE)
            .count();
        if end > 0 {
            runs.push((index, to[index..index + end].to_vec()));
        }
        index += end.max(1);
    }
    runs
}
