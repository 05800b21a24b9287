//! One part changed: each field of a statement's first word, and each part of a station, with the
//! number where it is known without looking at the rest.

use crate::group::{backing, quorum, GROUP_SLOTS, LAST_ROUND, STATEMENT_WORDS};
use crate::station::{fitting, Fitting, Stage, Station, StationWords};
use crate::station::{FIRST_START, HEARD_WORD, HELD_START, SECOND_START};
use crate::tester::setup::Setup;
use crate::words::{Flag, Kind, Statement};

/// Each way to change one field of word 0, with the number where the field alone fixes it.
pub fn field_faults(n: u32, word0: u32) -> Vec<(u32, Option<u32>)> {
    let mut faults = Vec::new();
    for kind in 0..4 {
        let ill = (kind == 3).then_some(3);
        faults.push((word0 & !(3 << 30) | kind << 30, ill));
    }
    for value in 0..4 {
        let ill = (value == 3).then_some(3);
        faults.push((word0 & !(3 << 28) | value << 28, ill));
    }
    faults.push((word0 ^ 1 << 27, None));
    for bit in 24..27 {
        faults.push((word0 ^ 1 << bit, Some(3)));
    }
    for station in [0, n + 1, 128, 255] {
        faults.push((word0 & !(255 << 16) | station << 16, Some(3)));
    }
    for station in [1, 2, n] {
        faults.push((word0 & !(255 << 16) | station << 16, None));
    }
    let round = word0 & 0xffff;
    for round in [0, 1, 2, round.wrapping_sub(1), round + 1, LAST_ROUND] {
        faults.push((word0 & !0xffff | round & 0xffff, None));
    }
    faults.retain(|(fault, _)| *fault != word0);
    faults.sort();
    faults.dedup_by_key(|(fault, _)| *fault);
    faults
}

/// A changed station, and the number where it is known without looking at the rest.
pub type Changed = (StationWords, Option<u32>);

/// The number that a station is refused by if it does not fit.
const UNFIT: Option<u32> = Some(2);

struct Changes {
    from: StationWords,
    /// What the giving returns where the change does not matter.
    number: Option<u32>,
    /// Whether each bit of the statements' first words is tried too.
    every_bit: bool,
    all: Vec<Changed>,
}

impl Changes {
    /// Tries words that differ from the station's.
    fn push(&mut self, words: StationWords, expected: Option<u32>) {
        if words != self.from {
            self.all.push((words, expected));
        }
    }

    fn put(&mut self, index: usize, word: u32, expected: Option<u32>) {
        let mut words = self.from;
        words[index] = word;
        self.push(words, expected);
    }

    /// Exchanges two statements of ten words.
    fn swap(&mut self, one: usize, other: usize, expected: Option<u32>) {
        let mut words = self.from;
        for i in 0..STATEMENT_WORDS {
            words.swap(one + i, other + i);
        }
        self.push(words, expected);
    }

    /// Copies ten words over ten others.
    fn copy(&mut self, to: usize, from: usize, expected: Option<u32>) {
        let mut words = self.from;
        words.copy_within(from..from + STATEMENT_WORDS, to);
        self.push(words, expected);
    }

    fn zero(&mut self, range: std::ops::Range<usize>, expected: Option<u32>) {
        let mut words = self.from;
        words[range].fill(0);
        self.push(words, expected);
    }

    /// n, number, question and decision.
    fn identity(&mut self, n: u32) {
        for other in [0, n - 1, n + 1, 32, u32::MAX] {
            self.put(0, other, UNFIT);
        }
        for other in [0, 1, n + 1, n, u32::MAX] {
            self.put(1, other, if other == 2 { self.number } else { UNFIT });
        }
        self.put(2, self.from[2] ^ 1, UNFIT);
        self.put(2, self.from[2] ^ 1 << 31, UNFIT);
        for decision in [3, 4, u32::MAX] {
            self.put(7, decision, UNFIT);
        }
    }

    /// Every other stage.
    fn stages(&mut self) {
        let round = self.from[4];
        let late = [
            0,
            1,
            2,
            round,
            round + 1,
            LAST_ROUND,
            LAST_ROUND + 1,
            u32::MAX,
        ];
        let mut stages = vec![[0, 0, 0]];
        for round in late {
            stages.extend([[1, round, 0], [1, round, 1], [2, round, 0]]);
        }
        stages.sort();
        stages.dedup();
        for stage in stages {
            let mut words = self.from;
            words[3..6].copy_from_slice(&stage);
            self.push(words, UNFIT);
        }
    }

    /// The set: without one that is held, with one that is not, with one over n.
    fn set(&mut self, n: u32) {
        let set = self.from[HEARD_WORD];
        for bit in 0..32 {
            if bit < n + 2 || bit == 31 {
                self.put(HEARD_WORD, set ^ 1 << bit, UNFIT);
            }
        }
        self.put(HEARD_WORD, 0, UNFIT);
        self.put(HEARD_WORD, u32::MAX, UNFIT);
    }

    /// The held statements: fields, place, codes; and slots that must be zero.
    fn held(&mut self, n: u32) {
        let set = self.from[HEARD_WORD];
        let slot = |station: u32| HELD_START + STATEMENT_WORDS * (station as usize - 1);
        let held: Vec<u32> = (1..=n).filter(|s| set >> (s - 1) & 1 == 1).collect();
        let looked_at = [2, held[0], held[held.len() - 1]];
        for station in looked_at {
            self.fields(slot(station));
            self.put(
                slot(station) + 2,
                self.from[slot(station) + 2] ^ 1,
                self.number,
            );
            self.put(slot(station) + 9, 0, self.number);
            self.zero(slot(station)..slot(station) + STATEMENT_WORDS, UNFIT);
        }
        for station in [1, n, n + 1, 31] {
            let empty = station > n || set >> (station - 1) & 1 == 0;
            if station <= 31 && empty {
                self.put(slot(station), 1, UNFIT);
                self.put(slot(station) + 9, 1 << 31, UNFIT);
                self.swap(slot(station), slot(2), UNFIT);
                self.one_more(slot(station), slot(2), station);
            }
        }
        if held.len() > 1 {
            self.swap(slot(held[0]), slot(held[1]), UNFIT);
            self.copy(slot(held[0]), slot(held[1]), UNFIT);
        }
    }

    /// A further statement held, well-formed and in the set: then there are q, or one over n.
    fn one_more(&mut self, to: usize, from: usize, station: u32) {
        let mut words = self.from;
        words.copy_within(from..from + STATEMENT_WORDS, to);
        words[to] = words[to] & !(255 << 16) | station << 16;
        words[HEARD_WORD] |= 1 << (station - 1);
        self.push(words, UNFIT);
    }

    fn bits(&self) -> std::ops::Range<u32> {
        0..if self.every_bit { 32 } else { 0 }
    }

    /// Each bit of a statement's first word, and its question.
    fn fields(&mut self, at: usize) {
        for bit in self.bits() {
            // value and flag may change into what still fits
            let sure = !(27..30).contains(&bit);
            let expected = if sure { UNFIT } else { None };
            self.put(at, self.from[at] ^ 1 << bit, expected);
        }
        self.put(at + 1, self.from[at + 1] ^ 1 << 7, UNFIT);
    }

    /// How many statements a kept group has: word 0 of none of them is zero.
    fn size(&self, start: usize) -> usize {
        let slots = self.from[start..].chunks_exact(STATEMENT_WORDS);
        let slots = slots.take(GROUP_SLOTS);
        slots.take_while(|slot| slot[0] != 0).count()
    }

    /// A kept group: there or not, its size, order, fields, and what is behind it.
    fn group(&mut self, start: usize, n: u32) {
        let end = start + STATEMENT_WORDS * GROUP_SLOTS;
        let behind = start + STATEMENT_WORDS * self.size(start);
        if self.from[start] == 0 {
            self.put(start, 1, UNFIT);
            self.put(end - 1, 1, UNFIT);
            self.foreign_group(start, n);
            return;
        }
        let last = behind - STATEMENT_WORDS;
        self.zero(start..end, UNFIT);
        self.zero(start..start + STATEMENT_WORDS, UNFIT);
        self.zero(last..behind, UNFIT);
        self.swap(start, last, UNFIT);
        self.copy(start, last, UNFIT);
        self.copy(start + STATEMENT_WORDS, start, UNFIT);
        for at in [start, last] {
            self.group_fields(at);
        }
        if behind < end {
            self.put(behind, 1, UNFIT);
            self.put(end - 1, 1, UNFIT);
            self.copy(behind, last, UNFIT);
        }
        let mut words = self.from;
        words[start + 2..start + STATEMENT_WORDS].fill(0);
        self.push(words, self.number);
    }

    fn group_fields(&mut self, at: usize) {
        let is_p = self.from[at] >> 30 == 1;
        for bit in self.bits() {
            let is_station = (16..24).contains(&bit);
            let is_flag = bit == 27;
            let expected = match (is_station, is_flag && is_p) {
                // another station may still rise, another flag of a proposal may be there; INITs
                // and votes have none
                (true, _) => None,
                (_, true) => self.number,
                _ => UNFIT,
            };
            self.put(at, self.from[at] ^ 1 << bit, expected);
        }
        self.put(at + 1, self.from[at + 1] ^ 1 << 31, UNFIT);
    }

    /// A group where nobody supplies one.
    fn foreign_group(&mut self, start: usize, n: u32) {
        let other = if start == FIRST_START {
            SECOND_START
        } else {
            FIRST_START
        };
        let size = STATEMENT_WORDS * quorum(n);
        if self.from[other] != 0 {
            let mut words = self.from;
            words.copy_within(other..other + size, start);
            self.push(words, UNFIT);
            words[other..other + size].fill(0);
            self.push(words, UNFIT);
        }
    }

    /// Proposing in round 1: groups that are not the backing of the lowest-numbered held proposal's
    /// value in INITs with it.
    fn first_round_groups(&mut self, station: &Station) {
        let group = &station.first;
        let (q, value) = (quorum(station.n), group[0].value);
        let stations: Vec<u32> = group.iter().map(|s| s.station).collect();
        let all: Vec<u32> = (1..=station.n).collect();
        let mut more = stations.clone();
        more.extend(all.iter().find(|s| !stations.contains(s)));
        more.sort();
        let init = group[0];
        let (p, other) = (proposal_like(init), with_value(init, 1 - value));
        let mut groups = vec![
            Vec::new(),
            alike(&stations[1..], init),
            alike(&stations[..stations.len() - 1], init),
            alike(&stations, other),
            alike(&all[..backing(station.n, 1 - value)], other),
            alike(&stations, p),
            alike(&all[..q], p),
        ];
        // at n 2 the backing of 0 is everyone, and q
        if more != stations {
            groups.push(alike(&more, init));
        }
        if stations.len() != q {
            groups.push(alike(&all[..q], init));
        }
        for first in groups {
            let station = station.clone();
            self.push(Station { first, ..station }.words(), UNFIT);
        }
    }

    /// Proposing in round 1: held proposals with another flag or value. The group asks for the
    /// lowest-numbered's value alone.
    fn first_round_held(&mut self, station: &Station) {
        let last = station.held.len() - 1;
        let looked_at = |i: usize, s: u32| i < 2 || i == last || s == station.number;
        let held = station.held.iter().enumerate();
        for (i, held) in held.filter(|(i, s)| looked_at(*i, s.station)) {
            let mut other = station.clone();
            other.held[i].flag = match held.flag {
                Flag::DGet => Flag::RGet,
                Flag::RGet => Flag::DGet,
            };
            let is_own = held.station == station.number;
            // the stage's flag is the own proposal's
            self.push(other.words(), if is_own { UNFIT } else { self.number });
            if is_own {
                other.stage = Stage::of(&other.held[i]);
                self.push(other.words(), self.number);
            }
            let mut other = station.clone();
            other.held[i].value = 1 - held.value;
            self.push(other.words(), if i == 0 { UNFIT } else { self.number });
            if i == 0 {
                let init = with_value(station.first[0], 1 - held.value);
                let stations: Vec<u32> = (1..=station.n).collect();
                let size = backing(station.n, init.value);
                other.first = alike(&stations[..size], init);
                self.push(other.words(), self.number);
            }
        }
    }
}

/// A proposal of round 1 in place of an INIT.
fn proposal_like(init: Statement) -> Statement {
    Statement {
        kind: Kind::P,
        round: 1,
        ..init
    }
}

fn with_value(statement: Statement, value: u32) -> Statement {
    Statement { value, ..statement }
}

/// A statement of each station. Codes are left as they are: fit does not ask for them.
fn alike(stations: &[u32], like: Statement) -> Vec<Statement> {
    let of = |station: &u32| Statement {
        station: *station,
        ..like
    };
    stations.iter().map(of).collect()
}

/// A giving's station with each of these changes.
pub fn changes(setup: &Setup, number: u32, every_bit: bool) -> Vec<Changed> {
    let n = setup.module.n;
    let mut changes = Changes {
        from: setup.station,
        number: Some(number),
        every_bit,
        all: Vec::new(),
    };
    changes.identity(n);
    changes.stages();
    changes.set(n);
    changes.held(n);
    changes.group(FIRST_START, n);
    changes.group(SECOND_START, n);
    if let Some(Fitting::Open(station)) = fitting(&setup.station, &setup.module) {
        if matches!(station.stage, Stage::Proposing(1, _)) {
            changes.first_round_groups(&station);
            changes.first_round_held(&station);
        }
    }
    changes.all
}
