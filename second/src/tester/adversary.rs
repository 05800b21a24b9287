//! What faulty sites and the radio do: find certificates among coded statements, forge stations,
//! damage words.

use crate::group::{backing, quorum, LAST_ROUND, STATEMENT_WORDS};
use crate::station::{set_of, StationWords, FIRST_START, HEARD_WORD, HELD_START, SECOND_START};
use crate::station::{JUMP_WORD, STATION_WORDS};
use crate::tester::jumps::Jumps;
use crate::tester::loose::Loose;
use crate::tester::registers::DAMAGED;
use crate::tester::rng::Rng;
use crate::tester::script::Command;
use crate::tester::world::World;
use crate::words::{head, Flag, Kind, Statement, NONE};

/// A statement that is wanted in a certificate.
struct Wanted {
    kind: Kind,
    round: u32,
    value: Option<u32>,
    flag: Option<Flag>,
}

impl World {
    /// Coded statements as wanted.
    fn coded_like(&self, question: u32, wanted: &Wanted) -> Vec<Statement> {
        let loose = self.loose;
        self.coded
            .iter()
            .filter(|s| s.kind == wanted.kind)
            .filter(|s| loose == Loose::AnyQuestion || s.question == question)
            .filter(|s| loose == Loose::AnyRound || s.round == wanted.round)
            .filter(|s| loose == Loose::AnyValue || wanted.value.is_none_or(|v| v == s.value))
            .filter(|s| loose == Loose::AnyFlag || wanted.flag.is_none_or(|f| f == s.flag))
            .copied()
            .collect()
    }

    /// A statement as wanted of each station, coded by hand under the group's key; some are not
    /// quite as wanted where certificates are loose.
    fn made_like(&mut self, question: u32, wanted: &Wanted) -> Vec<Statement> {
        let values: &[u32] = match wanted.kind {
            Kind::V => &[0, 1, NONE],
            _ => &[0, 1],
        };
        let mut made = Vec::new();
        for station in 1..=self.n {
            let is_loose = self.rng.percent(20);
            let loosely = |loose: Loose| is_loose && self.loose == loose;
            let value = wanted.value.filter(|_| !loosely(Loose::AnyValue));
            let flag = wanted.flag.filter(|_| !loosely(Loose::AnyFlag));
            let next = u32::from(loosely(Loose::AnyRound));
            let other = u32::from(loosely(Loose::AnyQuestion));
            let flag = match wanted.kind {
                Kind::P => flag.unwrap_or(self.rng.pick(&[Flag::DGet, Flag::RGet])),
                _ => Flag::DGet,
            };
            let value = value.unwrap_or(self.rng.pick(values));
            let round = (wanted.round + next).min(LAST_ROUND);
            let who = (station, question ^ other);
            let statement = Statement::uncoded(wanted.kind, round, value, flag, who);
            made.push(statement.coded(&self.key));
        }
        made
    }

    /// So many statements as wanted, by rising station.
    fn some_like(&mut self, question: u32, size: usize, wanted: Wanted) -> Option<Vec<Statement>> {
        let mut found = match self.by_hand {
            true => self.made_like(question, &wanted),
            false => self.coded_like(question, &wanted),
        };
        found.sort_by_key(|s| s.station);
        if self.loose == Loose::Twice {
            found = found.into_iter().flat_map(|s| [s, s]).collect();
        } else {
            found.dedup_by_key(|s| s.station);
        }
        let fewer = usize::from(self.loose == Loose::OneFewer);
        self.rng.part(&found, size - fewer)
    }

    fn proposals(&mut self, question: u32, round: u32, value: u32) -> Option<Vec<Statement>> {
        let wanted = Wanted {
            kind: Kind::P,
            round,
            value: Some(value),
            flag: None,
        };
        self.some_like(question, quorum(self.n), wanted)
    }

    fn none_votes(&mut self, question: u32, round: u32) -> Option<Vec<Statement>> {
        let wanted = Wanted {
            kind: Kind::V,
            round,
            value: Some(NONE),
            flag: None,
        };
        self.some_like(question, quorum(self.n), wanted)
    }

    fn inits(&mut self, question: u32, value: u32) -> Option<Vec<Statement>> {
        let wanted = Wanted {
            kind: Kind::Init,
            round: 0,
            value: Some(value),
            flag: None,
        };
        self.some_like(question, backing(self.n, value), wanted)
    }

    /// A certificate of coded statements that backs the main statement, if chance finds one.
    pub fn find_certificate(&mut self, main: &Statement) -> Option<Vec<Statement>> {
        let (question, round) = (main.question, main.round);
        match (main.kind, main.flag, main.value) {
            (Kind::Init, _, _) => Some(Vec::new()),
            (Kind::P, Flag::DGet, v) if round == 1 => self.inits(question, v),
            (Kind::P, Flag::DGet, v) => self.proposals(question, round - 1, v),
            (Kind::P, Flag::RGet, _) => self.none_votes(question, round - 1),
            (Kind::V, _, NONE) => self.find_for_none(question, round),
            (Kind::V, _, v) => self.find_for_value(question, round, v),
        }
    }

    /// Rule 5, in round 1 with the INITs of Job 2 of 02.
    fn find_for_value(&mut self, question: u32, round: u32, v: u32) -> Option<Vec<Statement>> {
        let mut first = self.proposals(question, round, v)?;
        if self.loose == Loose::OneGroup {
            return Some(first);
        }
        if round == 1 {
            first.extend(self.inits(question, v)?);
        } else if first.iter().any(|s| s.flag == Flag::DGet) {
            first.extend(self.proposals(question, round - 1, v)?);
        }
        Some(first)
    }

    fn find_for_none(&mut self, question: u32, round: u32) -> Option<Vec<Statement>> {
        let wanted = Wanted {
            kind: Kind::P,
            round,
            value: None,
            flag: (round == 1).then_some(Flag::DGet),
        };
        let mut first = self.some_like(question, quorum(self.n), wanted)?;
        if round > 1 && self.loose != Loose::OneGroup {
            first.extend(self.none_votes(question, round - 1)?);
        }
        Some(first)
    }

    // ---- forged stations --------------------------------------------------------------------

    /// A statement for a forged station: coded by hand, or the coded one of that station and step
    /// where the value suits, else one without a true code.
    fn coded_or_false(&mut self, like: Statement) -> Statement {
        if self.by_hand {
            return like.coded(&self.key);
        }
        let coded = self.coded.iter().find(|s| s.word0() == like.word0());
        match coded {
            Some(coded) if coded.question == like.question => *coded,
            _ => like,
        }
    }

    fn forged_group(&mut self, size: usize, like: Statement) -> Vec<Statement> {
        let all: Vec<u32> = (1..=self.n).collect();
        let stations = self.rng.part(&all, size);
        let stations = stations.expect("q and the backings are at most n");
        let member = |station| Statement { station, ..like };
        let group: Vec<Statement> = stations.into_iter().map(member).collect();
        group.into_iter().map(|s| self.coded_or_false(s)).collect()
    }

    /// The statements of a forged station: its own, and up to q − 2 others of the same step.
    fn forged_held(&mut self, site: u32, like: Statement) -> Vec<Statement> {
        let room = quorum(self.n) - 2;
        let size = if self.rng.percent(75) {
            room
        } else {
            self.rng.below(room + 1)
        };
        let others: Vec<u32> = (1..=self.n).filter(|s| *s != site).collect();
        let mut stations = self.rng.part(&others, size).expect("q − 2 is below n");
        stations.push(site);
        stations.sort();
        let values: &[u32] = match like.kind {
            Kind::V => &[0, 1, NONE],
            _ => &[0, 1],
        };
        let mixed = self.rng.percent(50);
        let mut held = Vec::new();
        for station in stations {
            let mut one = Statement { station, ..like };
            if mixed {
                one.value = self.rng.pick(values);
            }
            if one.kind == Kind::P && self.rng.percent(40) {
                one.flag = self.rng.pick(&[Flag::DGet, Flag::RGet]);
            }
            held.push(self.coded_or_false(one));
        }
        held
    }

    /// A station that fits the site's module but was made by no opening, in the step of a
    /// statement and around its value.
    pub fn forge_station(&mut self, site: u32, like: Statement) -> StationWords {
        let like = Statement {
            code: [0; 8],
            ..like
        };
        let held = self.forged_held(site, like);
        let (first, second) = self.forged_groups(&like, &held);
        let own_flag = held.iter().find(|s| s.station == site).map(|s| s.flag);
        let (stage, flag) = stage_and_flag(like.kind, own_flag);
        let mut words = [0; STATION_WORDS];
        let decision = self.rng.pick(&[0, 1, NONE, NONE]);
        let front = [
            self.n,
            site,
            like.question,
            stage,
            like.round,
            flag,
            0,
            decision,
        ];
        words[..HEARD_WORD].copy_from_slice(&front);
        let stations: Vec<u32> = held.iter().map(|s| s.station).collect();
        words[HEARD_WORD] = set_of(&stations);
        for statement in &held {
            let slot = statement.station as usize - 1;
            put_slot(&mut words[HELD_START..], slot, statement);
        }
        for (start, group) in [(FIRST_START, first), (SECOND_START, second)] {
            for (slot, statement) in group.iter().enumerate() {
                put_slot(&mut words[start..], slot, statement);
            }
        }
        if self.jumps != Jumps::Off {
            words[JUMP_WORD] = self.rng.bit();
        }
        words
    }

    /// The kept groups that such a station needs.
    fn forged_groups(&mut self, like: &Statement, held: &[Statement]) -> (Group, Group) {
        let (q, round) = (quorum(self.n), like.round);
        let group_of = |kind, round, value| Statement {
            kind,
            flag: Flag::DGet,
            round,
            value,
            ..*like
        };
        let none = || (Vec::new(), Vec::new());
        match (like.kind, round) {
            (Kind::Init, _) => none(),
            (Kind::P, 1) => {
                // the held stand by rising station, and the lowest-numbered supplies
                let value = held[0].value;
                let size = backing(self.n, value);
                let inits = self.forged_group(size, group_of(Kind::Init, 0, value));
                (inits, Vec::new())
            }
            (Kind::P, _) => {
                let (mut first, mut second) = none();
                if let Some(s) = held.iter().find(|s| s.flag == Flag::DGet) {
                    first = self.forged_group(q, group_of(Kind::P, round - 1, s.value));
                }
                if held.iter().any(|s| s.flag == Flag::RGet) {
                    second = self.forged_group(q, group_of(Kind::V, round - 1, NONE));
                }
                (first, second)
            }
            (Kind::V, _) => match held.iter().find(|s| s.value != NONE) {
                Some(s) => {
                    let first = self.forged_group(q, group_of(Kind::P, round, s.value));
                    (first, Vec::new())
                }
                None => none(),
            },
        }
    }

    // ---- damaged words ----------------------------------------------------------------------

    /// Copies a bundle and damages it on the way; answers the buffer of the copy.
    pub fn damage(&mut self, buffer: usize) -> usize {
        self.author.set(Command::Bring(DAMAGED, buffer));
        let words = self.author.machine.buffers[buffer].seen().to_vec();
        let statements = words.len().saturating_sub(1) / STATEMENT_WORDS;
        match self.rng.below(8) {
            0 => self
                .author
                .set(Command::Length(DAMAGED, words.len().saturating_sub(1))),
            1 => self.author.set(Command::Length(DAMAGED, 0)),
            2 => {
                self.author
                    .set(Command::Words(DAMAGED, words.len(), vec![0]));
                self.author.set(Command::Length(DAMAGED, words.len() + 1));
            }
            3 if statements > 1 => {
                let cut = words.len() - STATEMENT_WORDS;
                self.author
                    .set(Command::Words(DAMAGED, 0, vec![head(statements - 2)]));
                self.author.set(Command::Length(DAMAGED, cut));
            }
            4 => self.damage_statement(statements, &words),
            5 if statements > 2 => {
                let at = 1 + STATEMENT_WORDS * (1 + self.rng.below(statements - 2));
                let mut two = words[at..at + 2 * STATEMENT_WORDS].to_vec();
                two.rotate_left(STATEMENT_WORDS);
                self.author.set(Command::Words(DAMAGED, at, two));
            }
            _ => {
                let index = self.rng.below(words.len().max(1));
                let flipped = words.get(index).unwrap_or(&0) ^ 1 << self.rng.below(32);
                self.author
                    .set(Command::Words(DAMAGED, index, vec![flipped]));
            }
        }
        DAMAGED
    }

    /// Puts any coded statement where another stood.
    fn damage_statement(&mut self, statements: usize, words: &[u32]) {
        if self.coded.is_empty() || statements == 0 {
            return;
        }
        let other = self.coded[self.rng.below(self.coded.len())];
        let question = words[2];
        let from_question: Vec<Statement> = self
            .coded
            .iter()
            .filter(|s| s.question == question)
            .copied()
            .collect();
        let other = match from_question.is_empty() || self.rng.percent(20) {
            true => other,
            false => self.rng.pick(&from_question),
        };
        let at = 1 + STATEMENT_WORDS * self.rng.below(statements);
        self.author
            .set(Command::Words(DAMAGED, at, other.words().to_vec()));
    }

    /// Changes one word of a station so that it rarely fits; not the jump setting, of which a script
    /// can hold no other than 0 and 1.
    pub fn damage_station(&mut self, words: &mut StationWords) {
        let end = JUMP_WORD;
        let index = match self.rng.below(4) {
            0 => self.rng.pick(&[0, 1, 2, 7, HEARD_WORD]),
            1 => HELD_START + STATEMENT_WORDS * self.rng.below(self.n as usize),
            2 => FIRST_START + self.rng.below(end - FIRST_START),
            _ => HELD_START + self.rng.below(end - HELD_START),
        };
        words[index] ^= 1 << self.rng.below(32);
    }
}

type Group = Vec<Statement>;

/// The words of a stage and of its flag, from the kind of its statements and the own one's flag.
fn stage_and_flag(kind: Kind, own: Option<Flag>) -> (u32, u32) {
    match (kind, own) {
        (Kind::Init, _) => (0, 0),
        (Kind::P, Some(Flag::RGet)) => (1, 1),
        (Kind::P, _) => (1, 0),
        (Kind::V, _) => (2, 0),
    }
}

fn put_slot(slots: &mut [u32], slot: usize, statement: &Statement) {
    let start = STATEMENT_WORDS * slot;
    slots[start..start + STATEMENT_WORDS].copy_from_slice(&statement.words());
}

/// The round of a step, 0 of the first one.
pub fn round_of(step: u64) -> u32 {
    (step / 2).try_into().expect("a round is one word")
}

/// A statement of a step for coding, nearly always of that station, and mostly with the value that
/// the faulty sites push.
pub fn random_statement(rng: &mut Rng, n: u32, who: (u32, u32), step: u64, push: u32) -> Statement {
    let (site, question) = who;
    let station = match rng.percent(95) {
        true => site,
        false => rng.below(n as usize + 2) as u32,
    };
    let value = match rng.percent(80) {
        true => push,
        false => rng.bit(),
    };
    let who = (station, question);
    match (step, step % 2) {
        (0 | 1, _) => Statement::uncoded(Kind::Init, 0, value, Flag::DGet, who),
        (_, 0) => {
            let flag = rng.pick(&[Flag::DGet, Flag::RGet]);
            Statement::uncoded(Kind::P, round_of(step), value, flag, who)
        }
        _ => {
            let vote = rng.pick(&[value, NONE]);
            Statement::uncoded(Kind::V, round_of(step), vote, Flag::DGet, who)
        }
    }
}
