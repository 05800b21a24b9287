//! Scripts of calls: registers, commands, and the line that each call prints. The format is
//! described in docs/SCRIPT.md.

use crate::check::check;
use crate::group::LAST_ROUND;
use crate::hmac::Key;
use crate::sealed::{code_coin, code_plain, make, Module, MODULE_WORDS};
use crate::station::{give, open, StationWords, JUMP_ON, JUMP_WORD, STATION_WORDS};

pub const MODULES: usize = 32;
pub const STATIONS: usize = 64;
pub const BUFFERS: usize = 128;
pub const BUFFER_WORDS: usize = 400;
pub const MOST_TOKENS: usize = 80;
/// The step of V of the last round.
pub const LAST_STEP: u64 = 2 * LAST_ROUND as u64 + 1;

/// A buffer register: all its words, and the length that is lent or given.
#[derive(Clone)]
pub struct Buffer {
    pub words: [u32; BUFFER_WORDS],
    pub length: usize,
}

impl Buffer {
    /// The words that a call sees.
    pub fn seen(&self) -> &[u32] {
        &self.words[..self.length]
    }
}

/// A command of a script. Registers are named by number; the target stands first.
#[derive(Clone, Debug, PartialEq, Eq)]
pub enum Command {
    /// `adopt M N`: module M becomes module N.
    Adopt(usize, usize),
    /// `bring B C`: buffer B becomes buffer C.
    Bring(usize, usize),
    /// `check M B`: the validity check under the key and n of module M.
    Check(usize, usize),
    /// `fill B L W`: the length becomes L and the first L words W.
    Fill(usize, usize, u32),
    /// `give M S B C O`: gives buffer B with coin C; buffer O is lent.
    Give(usize, usize, usize, u32, usize),
    /// `keep S T`: station S becomes station T.
    Keep(usize, usize),
    /// `length B L`: the length becomes L, the words stay.
    Length(usize, usize),
    /// `make M K0 .. K7 N I`: makes a module.
    Make(usize, Key, u32, u32),
    /// `open M S Q V J O`: opens a station with jump setting J; buffer O is lent.
    Open(usize, usize, u32, u32, u32, usize),
    /// `plain M B`: codes buffer B the plain way.
    Plain(usize, usize),
    /// `raw M W0 .. W12`: the words of module M.
    Raw(usize, [u32; MODULE_WORDS]),
    /// `station S I W ...`: puts words into station S from index I on.
    Station(usize, usize, Vec<u32>),
    /// `toss M B C`: codes buffer B the coin way.
    Toss(usize, usize, u32),
    /// `words B I W ...`: puts words into buffer B from index I on; the length stays.
    Words(usize, usize, Vec<u32>),
    /// `zero S`: all words of station S become zero.
    Zero(usize),
}

/// What a call was handed and what it left.
pub struct Report {
    pub number: u32,
    pub count: usize,
    pub module: (Vec<u32>, Vec<u32>),
    pub station: (Vec<u32>, Vec<u32>),
    pub lent: (Vec<u32>, Vec<u32>),
}

/// The changed runs, each with its index, or `=`.
fn changes(before_after: &(Vec<u32>, Vec<u32>)) -> String {
    let (before, after) = before_after;
    let differs = |i: usize| before[i] != after[i];
    let mut text = String::new();
    for i in (0..after.len()).filter(|i| differs(*i)) {
        if i == 0 || !differs(i - 1) {
            text.push_str(&format!(" @{i:x}"));
        }
        text.push_str(&format!(" {:x}", after[i]));
    }
    if text.is_empty() {
        text.push_str(" =");
    }
    text
}

impl Report {
    /// The line that the call prints.
    pub fn line(&self) -> String {
        format!(
            "{:x} {:x} m{} s{} w{}\n",
            self.number,
            self.count,
            changes(&self.module),
            changes(&self.station),
            changes(&self.lent)
        )
    }
}

fn hex(words: &[u32]) -> String {
    words.iter().map(|word| format!(" {word:x}")).collect()
}

impl Command {
    /// The command as a line of a script.
    pub fn line(&self) -> String {
        match self {
            Command::Adopt(m, from) => format!("adopt {m:x} {from:x}\n"),
            Command::Bring(b, from) => format!("bring {b:x} {from:x}\n"),
            Command::Check(m, b) => format!("check {m:x} {b:x}\n"),
            Command::Fill(b, l, w) => format!("fill {b:x} {l:x} {w:x}\n"),
            Command::Give(m, s, b, c, o) => format!("give {m:x} {s:x} {b:x} {c:x} {o:x}\n"),
            Command::Keep(s, from) => format!("keep {s:x} {from:x}\n"),
            Command::Length(b, l) => format!("length {b:x} {l:x}\n"),
            Command::Make(m, key, n, i) => format!("make {m:x}{} {n:x} {i:x}\n", hex(key)),
            Command::Open(m, s, q, v, j, o) => {
                format!("open {m:x} {s:x} {q:x} {v:x} {j:x} {o:x}\n")
            }
            Command::Plain(m, b) => format!("plain {m:x} {b:x}\n"),
            Command::Raw(m, words) => format!("raw {m:x}{}\n", hex(words)),
            Command::Station(s, i, words) => format!("station {s:x} {i:x}{}\n", hex(words)),
            Command::Toss(m, b, c) => format!("toss {m:x} {b:x} {c:x}\n"),
            Command::Words(b, i, words) => format!("words {b:x} {i:x}{}\n", hex(words)),
            Command::Zero(s) => format!("zero {s:x}\n"),
        }
    }
}

// ---- reading a line -----------------------------------------------------------------------

/// A number of one to eight lower-case hex digits.
fn number(token: &str) -> Option<u32> {
    let digits = token
        .bytes()
        .all(|b| matches!(b, b'0'..=b'9' | b'a'..=b'f'));
    if !digits || token.is_empty() || token.len() > 8 {
        return None;
    }
    u32::from_str_radix(token, 16).ok()
}

/// A number below a limit, as an index.
fn below(number: u32, limit: usize) -> Option<usize> {
    let index = number as usize;
    (index < limit).then_some(index)
}

fn module(number: u32) -> Option<usize> {
    below(number, MODULES)
}

fn station(number: u32) -> Option<usize> {
    below(number, STATIONS)
}

fn buffer(number: u32) -> Option<usize> {
    below(number, BUFFERS)
}

fn length(number: u32) -> Option<usize> {
    below(number, BUFFER_WORDS + 1)
}

/// Words to be put from an index on, at least one, all inside a register of that size.
fn put(index: u32, words: &[u32], size: usize) -> Option<(usize, Vec<u32>)> {
    let index = below(index, size)?;
    (!words.is_empty() && index + words.len() <= size).then(|| (index, words.to_vec()))
}

/// The command of a line without its newline; none where the line is malformed.
pub fn read_line(line: &str) -> Option<Command> {
    let mut tokens = line.split(' ');
    let keyword = tokens.next()?;
    let numbers: Option<Vec<u32>> = tokens.map(number).collect();
    let numbers = numbers?;
    if numbers.len() + 1 > MOST_TOKENS {
        return None;
    }
    match keyword {
        "adopt" | "bring" | "fill" | "keep" | "length" | "raw" | "station" | "words" | "zero" => {
            read_setting(keyword, &numbers)
        }
        _ => read_call(keyword, &numbers),
    }
}

fn read_setting(keyword: &str, numbers: &[u32]) -> Option<Command> {
    Some(match (keyword, numbers) {
        ("adopt", &[m, from]) => Command::Adopt(module(m)?, module(from)?),
        ("bring", &[b, from]) => Command::Bring(buffer(b)?, buffer(from)?),
        ("fill", &[b, l, w]) => Command::Fill(buffer(b)?, length(l)?, w),
        ("keep", &[s, from]) => Command::Keep(station(s)?, station(from)?),
        ("length", &[b, l]) => Command::Length(buffer(b)?, length(l)?),
        ("raw", &[m, ref words @ ..]) => Command::Raw(module(m)?, words.try_into().ok()?),
        ("station", &[s, i, ref words @ ..]) => {
            let (index, words) = put(i, words, STATION_WORDS)?;
            Command::Station(station(s)?, index, words)
        }
        ("words", &[b, i, ref words @ ..]) => {
            let (index, words) = put(i, words, BUFFER_WORDS)?;
            Command::Words(buffer(b)?, index, words)
        }
        ("zero", &[s]) => Command::Zero(station(s)?),
        _ => return None,
    })
}

fn read_call(keyword: &str, numbers: &[u32]) -> Option<Command> {
    Some(match (keyword, numbers) {
        ("check", &[m, b]) => Command::Check(module(m)?, buffer(b)?),
        ("give", &[m, s, b, c, o]) if b != o => {
            Command::Give(module(m)?, station(s)?, buffer(b)?, c, buffer(o)?)
        }
        ("make", &[m, ref key @ .., n, i]) => Command::Make(module(m)?, key.try_into().ok()?, n, i),
        ("open", &[m, s, q, v, j, o]) => {
            Command::Open(module(m)?, station(s)?, q, v, j, buffer(o)?)
        }
        ("plain", &[m, b]) => Command::Plain(module(m)?, buffer(b)?),
        ("toss", &[m, b, c]) => Command::Toss(module(m)?, buffer(b)?, c),
        _ => return None,
    })
}

// ---- carrying commands out ----------------------------------------------------------------

/// Whether a line of a well-formed script is a call, and so prints a line: "No two keywords start
/// with the same letter."
pub fn is_call(line: &str) -> bool {
    line.starts_with(['c', 'g', 'm', 'o', 'p', 't'])
}

/// The registers. All are zero at first, buffers of length 0.
pub struct Machine {
    pub modules: Vec<[u32; MODULE_WORDS]>,
    pub stations: Vec<StationWords>,
    pub buffers: Vec<Buffer>,
}

impl Default for Machine {
    fn default() -> Machine {
        let buffer = Buffer {
            words: [0; BUFFER_WORDS],
            length: 0,
        };
        Machine {
            modules: vec![[0; MODULE_WORDS]; MODULES],
            stations: vec![[0; STATION_WORDS]; STATIONS],
            buffers: vec![buffer; BUFFERS],
        }
    }
}

/// Whether 13 words are those of a module: a last pair with a step that there is, or none.
fn is_module(words: &[u32; MODULE_WORDS]) -> bool {
    match words[10..] {
        [0, question, step] => question == 0 && step == 0,
        [1, _, step] => u64::from(step) <= LAST_STEP,
        _ => false,
    }
}

/// Whether the words of a stage, the closed word and the jump setting are those of a station.
fn is_station(words: &StationWords) -> bool {
    let is_stage = matches!(words[3..6], [0, 0, 0] | [1, _, 0] | [1, _, 1] | [2, _, 0]);
    is_stage && words[6] <= 1 && words[JUMP_WORD] <= JUMP_ON
}

/// The registers that a call may change: module, station, lent buffer.
type Touched = (Option<usize>, Option<usize>, Option<usize>);

impl Machine {
    /// Whether the module and the station that a call takes can be read from their registers.
    pub fn takes(&self, command: &Command) -> bool {
        match *command {
            Command::Give(m, s, ..) => is_module(&self.modules[m]) && is_station(&self.stations[s]),
            Command::Open(m, ..) | Command::Plain(m, _) | Command::Toss(m, ..) => {
                is_module(&self.modules[m])
            }
            _ => true,
        }
    }

    /// Carries a command out. A call answers its report, a setting none.
    pub fn carry_out(&mut self, command: &Command) -> Option<Report> {
        let touched: Touched = match *command {
            Command::Check(_, b) => (None, None, Some(b)),
            Command::Give(m, s, _, _, o) | Command::Open(m, s, _, _, _, o) => {
                (Some(m), Some(s), Some(o))
            }
            Command::Make(m, ..) => (Some(m), None, None),
            Command::Plain(m, b) | Command::Toss(m, b, _) => (Some(m), None, Some(b)),
            _ => {
                self.set(command);
                return None;
            }
        };
        let before = self.copy_of(touched);
        let (number, count) = self.call(command);
        let after = self.copy_of(touched);
        Some(Report {
            number,
            count,
            module: (before.0, after.0),
            station: (before.1, after.1),
            lent: (before.2, after.2),
        })
    }

    fn copy_of(&self, touched: Touched) -> (Vec<u32>, Vec<u32>, Vec<u32>) {
        let (module, station, lent) = touched;
        (
            module.map_or(Vec::new(), |m| self.modules[m].to_vec()),
            station.map_or(Vec::new(), |s| self.stations[s].to_vec()),
            lent.map_or(Vec::new(), |b| self.buffers[b].seen().to_vec()),
        )
    }

    /// The settings, which print nothing.
    fn set(&mut self, command: &Command) {
        match command {
            Command::Adopt(m, from) => self.modules[*m] = self.modules[*from],
            Command::Bring(b, from) => self.buffers[*b] = self.buffers[*from].clone(),
            Command::Fill(b, l, w) => {
                self.buffers[*b].length = *l;
                self.buffers[*b].words[..*l].fill(*w);
            }
            Command::Keep(s, from) => self.stations[*s] = self.stations[*from],
            Command::Length(b, l) => self.buffers[*b].length = *l,
            Command::Raw(m, words) => self.modules[*m] = *words,
            Command::Station(s, i, words) => {
                self.stations[*s][*i..*i + words.len()].copy_from_slice(words)
            }
            Command::Words(b, i, words) => {
                self.buffers[*b].words[*i..*i + words.len()].copy_from_slice(words)
            }
            Command::Zero(s) => self.stations[*s] = [0; STATION_WORDS],
            _ => unreachable!("calls are carried out elsewhere"),
        }
    }

    /// The calls: returned number and word count.
    fn call(&mut self, command: &Command) -> (u32, usize) {
        match *command {
            Command::Check(m, b) => {
                let module = Module::read(&self.modules[m]);
                (check(&module.key, module.n, self.buffers[b].seen()), 0)
            }
            Command::Make(m, ref key, n, number) => {
                let (returned, module) = make(key, n, number);
                self.modules[m] = module.words();
                (returned, 0)
            }
            Command::Open(m, s, q, v, jump, o) => self.with_module(m, |machine, module| {
                let lent = &mut machine.buffers[o];
                let lent = &mut lent.words[..lent.length];
                let (answer, station) = open(module, q, v, jump, lent);
                machine.stations[s] = station;
                (answer.number, answer.count)
            }),
            Command::Give(m, s, b, coin, o) => self.with_module(m, |machine, module| {
                let given = machine.buffers[b].seen().to_vec();
                let lent = &mut machine.buffers[o];
                let lent = &mut lent.words[..lent.length];
                let answer = give(module, &mut machine.stations[s], &given, coin, lent);
                (answer.number, answer.count)
            }),
            Command::Plain(m, b) => self.with_module(m, |machine, module| {
                let lent = &mut machine.buffers[b];
                (code_plain(module, &mut lent.words[..lent.length]), 0)
            }),
            Command::Toss(m, b, coin) => self.with_module(m, |machine, module| {
                let lent = &mut machine.buffers[b];
                (code_coin(module, &mut lent.words[..lent.length], coin), 0)
            }),
            _ => unreachable!("settings are carried out elsewhere"),
        }
    }

    /// Reads a module register, calls, and writes the module back.
    fn with_module<F>(&mut self, m: usize, call: F) -> (u32, usize)
    where
        F: FnOnce(&mut Machine, &mut Module) -> (u32, usize),
    {
        let mut module = Module::read(&self.modules[m]);
        let answer = call(self, &mut module);
        self.modules[m] = module.words();
        answer
    }
}

/// Runs a script and answers what it prints. A line that starts with `#` prints nothing; at a
/// malformed line, or a call whose module or station cannot be read, the run prints `stop` and the
/// line's number, and ends.
pub fn run(script: &str) -> String {
    let mut machine = Machine::default();
    let mut output = String::new();
    let lines = script.split_inclusive('\n');
    for (i, line) in lines.enumerate() {
        if line.starts_with('#') && line.ends_with('\n') {
            continue;
        }
        let command = line.strip_suffix('\n').and_then(read_line);
        let Some(command) = command.filter(|command| machine.takes(command)) else {
            output.push_str(&format!("stop {:x}\n", i + 1));
            break;
        };
        if let Some(report) = machine.carry_out(&command) {
            output.push_str(&report.line());
        }
    }
    output
}
