//! The console program valley: its run as a function from input bytes to output bytes.

use crate::group::BUNDLE_WORDS;
use crate::hmac::Key;
use crate::returns::is_refusal;
use crate::sealed::{make, Module};
use crate::station::{give, open, step_and_decision, Answer, StationWords, JUMP_OFF};
use crate::words::NONE;

/// "Its input starts with `n` and a number from 2 to 7."
const LEAST_N: u32 = 2;
const MOST_N: u32 = 7;
/// "on question 1"
const QUESTION: u32 = 1;
/// "Bundles count from 1 as written, at most 40."
const MOST_BUNDLES: usize = 40;
/// "The key is 32 zero bytes."
const KEY: Key = [0; 8];
/// "Numbers have one to five digits."
const MOST_DIGITS: usize = 5;

/// What a line asks for.
enum Line {
    Group(u32),
    Open(u32, u32),
    Give(u32, u32, u32),
}

/// A number of one to five digits; leading zeros are allowed within them.
fn number(word: &[u8]) -> Option<u32> {
    let sized = (1..=MOST_DIGITS).contains(&word.len());
    if !sized || !word.iter().all(u8::is_ascii_digit) {
        return None;
    }
    Some(
        word.iter()
            .fold(0, |sum, digit| 10 * sum + u32::from(digit - b'0')),
    )
}

/// A line that can be read: words exactly one space apart, nothing before or behind.
fn read_line(line: &[u8]) -> Option<Line> {
    let words: Vec<&[u8]> = line.split(|byte| *byte == b' ').collect();
    match words[..] {
        [b"n", n] => Some(Line::Group(number(n)?)),
        [b"open", s, v] => Some(Line::Open(number(s)?, number(v)?)),
        [b"give", s, k, c] => Some(Line::Give(number(s)?, number(k)?, number(c)?)),
        _ => None,
    }
}

/// The lines of the input: each ends in a newline, which may be missing behind the last one.
fn lines(input: &[u8]) -> Vec<&[u8]> {
    let mut lines: Vec<&[u8]> = input.split(|byte| *byte == b'\n').collect();
    if lines.last().is_some_and(|last| last.is_empty()) {
        lines.pop();
    }
    lines
}

/// The group as the run goes: a module and perhaps an open station for each number, and the
/// bundles written.
struct Valley {
    modules: Vec<Module>,
    stations: Vec<Option<StationWords>>,
    bundles: Vec<Vec<u32>>,
}

impl Valley {
    fn new(n: u32) -> Valley {
        Valley {
            modules: (1..=n).map(|s| make(&KEY, n, s).1).collect(),
            stations: vec![None; n as usize],
            bundles: Vec::new(),
        }
    }

    fn is_open(&self, s: u32) -> bool {
        s >= 1 && matches!(self.stations.get(s as usize - 1), Some(Some(_)))
    }

    /// "`open s v` opens station s with proposal v on question 1". A number outside 1 to n has a
    /// module that is refused by 2. Job 3 of 02: "The program valley opens with jump off."
    fn open(&mut self, s: u32, v: u32) -> (Answer, Vec<u32>) {
        let n = self.modules.len() as u32;
        let mut lent = vec![0; BUNDLE_WORDS];
        if s < 1 || s > n {
            let mut module = make(&KEY, n, s).1;
            return (open(&mut module, QUESTION, v, JUMP_OFF, &mut lent).0, lent);
        }
        let i = s as usize - 1;
        let (answer, station) = open(&mut self.modules[i], QUESTION, v, JUMP_OFF, &mut lent);
        if !is_refusal(answer.number) {
            self.stations[i] = Some(station);
        }
        (answer, lent)
    }

    /// "`give s k c` gives bundle k to station s with coin c". None where station s is not open
    /// or bundle k is not written; this is looked at before the coin.
    fn give(&mut self, s: u32, k: u32, c: u32) -> Option<(Answer, Vec<u32>)> {
        if !self.is_open(s) || k < 1 {
            return None;
        }
        let i = s as usize - 1;
        let given = self.bundles.get(k as usize - 1)?;
        let station = self.stations[i].as_mut()?;
        let mut lent = vec![0; BUNDLE_WORDS];
        let answer = give(&mut self.modules[i], station, given, c, &mut lent);
        Some((answer, lent))
    }

    /// One event: the station it names and the number returned; none where the line "names no
    /// opened station or written bundle, or would make bundle 41".
    fn event(&mut self, line: Line) -> Option<(u32, u32)> {
        let (s, (answer, lent)) = match line {
            Line::Group(_) => return None,
            Line::Open(s, v) => (s, self.open(s, v)),
            Line::Give(s, k, c) => (s, self.give(s, k, c)?),
        };
        if answer.count > 0 {
            if self.bundles.len() == MOST_BUNDLES {
                return None;
            }
            self.bundles.push(lent[..answer.count].to_vec());
        }
        Some((s, answer.number))
    }

    /// "a station not open prints step 0 and decision 2"
    fn shown(&self, s: u32) -> (u64, u32) {
        if !self.is_open(s) {
            return (0, NONE);
        }
        let words = self.stations[s as usize - 1].as_ref().expect("it is open");
        let (step, decision) = step_and_decision(words);
        (step.0, decision)
    }
}

/// The whole run.
pub fn run(input: &[u8]) -> Vec<u8> {
    let mut output = String::new();
    // "prints `bad line` and its line number, and ends the run"
    let bad_line = |number: usize| format!("bad line {number}\n");
    let lines = lines(input);
    // "a missing first line counts as line 1"
    let n = match lines.first().and_then(|line| read_line(line)) {
        Some(Line::Group(n)) if (LEAST_N..=MOST_N).contains(&n) => n,
        _ => return bad_line(1).into_bytes(),
    };
    let mut valley = Valley::new(n);
    for (i, line) in lines[1..].iter().enumerate() {
        let Some((s, returned)) = read_line(line).and_then(|line| valley.event(line)) else {
            output.push_str(&bad_line(i + 2));
            break;
        };
        // "Each event prints event, returned number, step after it, decision (2 = undecided)"
        let event = i + 1;
        let (step, decision) = valley.shown(s);
        output.push_str(&format!("{event} {returned} {step} {decision}\n"));
    }
    output.into_bytes()
}
