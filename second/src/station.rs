//! The station: what it keeps, which words of a station fit, opening, and giving a bundle.

use crate::check::{is_group, is_init, is_none_vote, is_p, judge};
use crate::group::{
    backing, number_in_range, quorum, BUNDLE_WORDS, GROUP_SLOTS, LAST_ROUND, MOST_SITES,
    STATEMENT_WORDS,
};
use crate::returns::{
    CLOSED, CLOSED_NOW, CONFLICT, DECIDED, HEARD, JUMPED, KEPT, NOT_ABOVE, OUT_OF_RANGE, SENT,
    SHORT_OUTPUT, STEP_ABOVE, STEP_BELOW,
};
use crate::sealed::Module;
use crate::words::{step, Bundle, Flag, Kind, Statement, Step, NONE};

/// Where the parts of a station stand in its words.
pub const HEARD_WORD: usize = 8;
pub const HELD_START: usize = 9;
pub const FIRST_START: usize = HELD_START + STATEMENT_WORDS * MOST_SITES as usize;
pub const SECOND_START: usize = FIRST_START + STATEMENT_WORDS * GROUP_SLOTS;
pub const JUMP_WORD: usize = SECOND_START + STATEMENT_WORDS * GROUP_SLOTS;
pub const STATION_WORDS: usize = JUMP_WORD + 1;

/// Job 3 of 02: "Opening gains a setting, jump off (0) or on (1)."
pub const JUMP_OFF: u32 = 0;
pub const JUMP_ON: u32 = 1;

/// The words of a station at the edge.
pub type StationWords = [u32; STATION_WORDS];

/// "A station is in one of three stages: gathering INITs, proposing in a round, voting in a
/// round; at the end it is closed."
#[derive(Clone, Copy, Debug, PartialEq, Eq)]
pub enum Stage {
    Gathering,
    Proposing(u32, Flag),
    Voting(u32),
}

impl Stage {
    /// The stage of a station that has made this statement.
    pub fn of(statement: &Statement) -> Stage {
        match statement.kind {
            Kind::Init => Stage::Gathering,
            Kind::P => Stage::Proposing(statement.round, statement.flag),
            Kind::V => Stage::Voting(statement.round),
        }
    }

    /// The stage of three words, if they are in range.
    fn read(words: [u32; 3]) -> Option<Stage> {
        let [tag, round, flag] = words;
        let round_in_range = (1..=LAST_ROUND).contains(&round);
        match (tag, flag) {
            (0, 0) if round == 0 => Some(Stage::Gathering),
            (1, 0) if round_in_range => Some(Stage::Proposing(round, Flag::DGet)),
            (1, 1) if round_in_range => Some(Stage::Proposing(round, Flag::RGet)),
            (2, 0) if round_in_range => Some(Stage::Voting(round)),
            _ => None,
        }
    }

    /// The three words of the stage.
    fn words(self) -> [u32; 3] {
        match self {
            Stage::Gathering => [0, 0, 0],
            Stage::Proposing(round, Flag::DGet) => [1, round, 0],
            Stage::Proposing(round, Flag::RGet) => [1, round, 1],
            Stage::Voting(round) => [2, round, 0],
        }
    }

    /// The step of the stage's statements.
    pub fn step(self) -> Step {
        match self {
            Stage::Gathering => step(Kind::Init, 0),
            Stage::Proposing(round, _) => step(Kind::P, round),
            Stage::Voting(round) => step(Kind::V, round),
        }
    }
}

/// A station that is not closed. "It keeps a set of stations heard, one bit for each, and the
/// first q statements of its step, its own included": the held statements stand in the order of
/// their stations, and the set names exactly these.
///
/// The two kept groups are what a next bundle may need of the certificates given:
/// proposing in round 1, the first is the certificate of the lowest-numbered held proposal, its
/// INITs; proposing in a round over 1, the first is the certificate of the lowest-numbered held
/// D-GET proposal and the second that of the lowest-numbered held R-GET proposal; voting, the first
/// is the first group of the lowest-numbered held vote for 0 or 1. Else they are empty.
#[derive(Clone, Debug, PartialEq, Eq)]
pub struct Station {
    pub n: u32,
    pub number: u32,
    pub question: u32,
    pub stage: Stage,
    pub decision: u32,
    pub held: Vec<Statement>,
    pub first: Vec<Statement>,
    pub second: Vec<Statement>,
    /// Whether a bundle of a later step makes it enter that step.
    pub jump: bool,
}

/// A station whose words fit a module.
#[derive(Clone, Debug, PartialEq, Eq)]
pub enum Fitting {
    Closed,
    Open(Station),
}

/// The number and the word count that a call returns. "Where no bundle is written the word count
/// is zero."
#[derive(Clone, Copy, Debug, PartialEq, Eq)]
pub struct Answer {
    pub number: u32,
    pub count: usize,
}

fn without_bundle(number: u32) -> Answer {
    Answer { number, count: 0 }
}

// ---- words of a station -------------------------------------------------------------------

/// Writes statements into consecutive slots.
fn put_group(slots: &mut [u32], group: &[Statement]) {
    for (slot, statement) in slots.chunks_exact_mut(STATEMENT_WORDS).zip(group) {
        slot.copy_from_slice(&statement.words());
    }
}

impl Station {
    /// The words of a station that is not closed.
    pub fn words(&self) -> StationWords {
        let mut words = [0; STATION_WORDS];
        words[0] = self.n;
        words[1] = self.number;
        words[2] = self.question;
        words[3..6].copy_from_slice(&self.stage.words());
        words[7] = self.decision;
        for statement in &self.held {
            let slot = statement.station as usize - 1;
            words[HEARD_WORD] |= 1 << slot;
            let start = HELD_START + STATEMENT_WORDS * slot;
            words[start..start + STATEMENT_WORDS].copy_from_slice(&statement.words());
        }
        put_group(&mut words[FIRST_START..SECOND_START], &self.first);
        put_group(&mut words[SECOND_START..JUMP_WORD], &self.second);
        words[JUMP_WORD] = if self.jump { JUMP_ON } else { JUMP_OFF };
        words
    }
}

/// The closed station: group, number, question, the last stage and the decision; all else zero, its
/// jump setting too.
fn closed_words(station: &Station, decision: u32) -> StationWords {
    let mut words = [0; STATION_WORDS];
    words[0] = station.n;
    words[1] = station.number;
    words[2] = station.question;
    words[3..6].copy_from_slice(&station.stage.words());
    words[6] = 1;
    words[7] = decision;
    words
}

/// What a refused opening returns, a station that is none: closed, with no decision, and all else
/// zero. Its n is 0, so that every giving on it is refused, by 1 or 2.
pub fn refused_station() -> StationWords {
    let mut words = [0; STATION_WORDS];
    words[6] = 1;
    words[7] = NONE;
    words
}

// ---- which stations fit -------------------------------------------------------------------

/// The held statements, if the set and the slots fit: "it holds fewer than q well-formed
/// statements of its question and step, its own among them, and the set names exactly their
/// stations".
fn read_held(words: &StationWords, module: &Module, step: Step) -> Option<Vec<Statement>> {
    let set = words[HEARD_WORD];
    let names = |station: u32| set >> (station - 1) & 1 == 1;
    let nobody_over_n = (set as u64) < 1 << module.n;
    if !nobody_over_n || !names(module.number) || set.count_ones() as usize >= quorum(module.n) {
        return None;
    }
    let mut held = Vec::new();
    let slots = words[HELD_START..FIRST_START].chunks_exact(STATEMENT_WORDS);
    for (slot, station) in slots.zip(1..) {
        if names(station) {
            let statement = Statement::read(slot, module.n)?;
            let fits = statement.station == station
                && statement.question == words[2]
                && statement.step() == step;
            held.push(fits.then_some(statement)?);
        } else if slot.iter().any(|word| *word != 0) {
            return None;
        }
    }
    Some(held)
}

type Group = Vec<Statement>;

/// What a kept group has to be: its size, and what is wanted of each statement.
type Wanted<'a> = (usize, &'a dyn Fn(&Statement) -> bool);

/// A kept group: where it is wanted, exactly so many well-formed statements of the question, of
/// rising stations and as wanted, and zeros behind; elsewhere zeros only.
fn read_group(slots: &[u32], module: &Module, question: u32, wanted: Wanted) -> Option<Group> {
    let (size, wanted) = wanted;
    let (group, behind) = slots.split_at(STATEMENT_WORDS * size);
    if behind.iter().any(|word| *word != 0) {
        return None;
    }
    let group: Option<Group> = group
        .chunks_exact(STATEMENT_WORDS)
        .map(|ten| Statement::read(ten, module.n))
        .collect();
    let group = group?;
    is_group(&group, size, |s| s.question == question && wanted(s)).then_some(group)
}

/// The two kept groups, if each is there exactly where a held statement supplies it, and is what
/// the rules want of it.
fn read_groups(words: &StationWords, module: &Module, held: &Group) -> Option<(Group, Group)> {
    let stage = Stage::read([words[3], words[4], words[5]])?;
    let q = quorum(module.n);
    let value = lowest(held, first_supplier(stage)).map(|s| s.value);
    let first_size = match (stage, value) {
        (_, None) => 0,
        (Stage::Proposing(1, _), Some(v)) => backing(module.n, v),
        (_, Some(_)) => q,
    };
    let first_wanted = |s: &Statement| match (stage, value) {
        (Stage::Proposing(1, _), Some(v)) => is_init(s, v),
        (Stage::Proposing(round, _), Some(v)) => is_p(s, round - 1, v),
        (Stage::Voting(round), Some(v)) => is_p(s, round, v),
        _ => false,
    };
    let second_size = match lowest(held, second_supplier(stage)) {
        None => 0,
        Some(_) => q,
    };
    let second_wanted = |s: &Statement| match stage {
        Stage::Proposing(round, _) => is_none_vote(s, round - 1),
        _ => false,
    };
    let question = words[2];
    let first = (first_size, &first_wanted as &dyn Fn(&Statement) -> bool);
    let second = (second_size, &second_wanted as &dyn Fn(&Statement) -> bool);
    Some((
        read_group(&words[FIRST_START..SECOND_START], module, question, first)?,
        read_group(&words[SECOND_START..JUMP_WORD], module, question, second)?,
    ))
}

/// The station of these words, if they fit the module: "a station whose n or number isn't the
/// given module's, or whose stage, set and held statements don't fit one another" is none.
pub fn fitting(words: &StationWords, module: &Module) -> Option<Fitting> {
    if words[0] != module.n || words[1] != module.number {
        return None;
    }
    // a setting that is neither off nor on is that of no station, closed or not
    if words[JUMP_WORD] > JUMP_ON {
        return None;
    }
    // "A station fits if, unless closed, ..."
    match words[6] {
        0 => {}
        1 => return Some(Fitting::Closed),
        _ => return None,
    }
    let stage = Stage::read([words[3], words[4], words[5]])?;
    let decision = words[7];
    if decision > NONE {
        return None;
    }
    let held = read_held(words, module, stage.step())?;
    let own = held.iter().find(|s| s.station == module.number)?;
    // the stage's flag is the own proposal's
    if Stage::of(own) != stage {
        return None;
    }
    let (first, second) = read_groups(words, module, &held)?;
    Some(Fitting::Open(Station {
        n: module.n,
        number: module.number,
        question: words[2],
        stage,
        decision,
        held,
        first,
        second,
        jump: words[JUMP_WORD] == JUMP_ON,
    }))
}

// ---- which held statement supplies a group ------------------------------------------------

fn is_d_get(statement: &Statement) -> bool {
    statement.flag == Flag::DGet
}

fn is_r_get(statement: &Statement) -> bool {
    statement.flag == Flag::RGet
}

fn is_for_value(statement: &Statement) -> bool {
    statement.value != NONE
}

/// Which held statements could supply the first kept group. In round 1 every proposal does: there
/// "rule 5 now always has a second group", whatever the flags.
fn first_supplier(stage: Stage) -> fn(&Statement) -> bool {
    match stage {
        Stage::Gathering => |_| false,
        Stage::Proposing(1, _) => |_| true,
        Stage::Proposing(_, _) => is_d_get,
        Stage::Voting(_) => is_for_value,
    }
}

/// Which held statements could supply the second kept group, that of rule 7.
fn second_supplier(stage: Stage) -> fn(&Statement) -> bool {
    match stage {
        Stage::Gathering | Stage::Proposing(1, _) | Stage::Voting(_) => |_| false,
        Stage::Proposing(_, _) => is_r_get,
    }
}

/// "Where several held bundles could supply a second group or a rule 3 group, the lowest-numbered
/// station's is taken." The held stand in rising order.
fn lowest(held: &[Statement], could: fn(&Statement) -> bool) -> Option<&Statement> {
    held.iter().find(|s| could(s))
}

impl Station {
    /// A station that has just made its own statement and holds nothing else.
    fn entering(&self, own: Statement, certificate: &[Statement], decision: u32) -> Station {
        let mut station = Station {
            n: self.n,
            number: self.number,
            question: self.question,
            stage: Stage::of(&own),
            decision,
            held: Vec::new(),
            first: Vec::new(),
            second: Vec::new(),
            jump: self.jump,
        };
        station.hold(own, certificate);
        station
    }

    /// Whether a new statement becomes the lowest-numbered that could supply a group.
    fn becomes_lowest(&self, new: &Statement, could: fn(&Statement) -> bool) -> bool {
        could(new) && lowest(&self.held, could).is_none_or(|held| new.station < held.station)
    }

    /// Holds one more statement, and keeps of its certificate what a next bundle may need.
    fn hold(&mut self, new: Statement, certificate: &[Statement]) {
        if self.becomes_lowest(&new, first_supplier(self.stage)) {
            // a vote's proposals, and not the group behind them; a proposal's certificate, whole
            let size = certificate.len().min(quorum(self.n));
            self.first = certificate[..size].to_vec();
        }
        if self.becomes_lowest(&new, second_supplier(self.stage)) {
            self.second = certificate.to_vec();
        }
        self.held.push(new);
        self.held.sort_by_key(|s| s.station);
    }
}

// ---- opening ------------------------------------------------------------------------------

/// Tests 1 and 2 of an opening.
fn may_open(module: &Module, proposal: u32, jump: u32, lent: &[u32]) -> Result<(), u32> {
    if lent.len() < BUNDLE_WORDS {
        return Err(SHORT_OUTPUT);
    }
    // Job 3 of 02: "a jump setting outside 0 and 1 is 2"
    if !module.in_range() || proposal > 1 || jump > JUMP_ON {
        return Err(OUT_OF_RANGE);
    }
    Ok(())
}

/// "Opening tests 1, 2, 12." It answers 20 and writes the INIT; a refused opening returns the
/// station that is none and changes nothing. Job 3 of 02: "Opening gains a setting, jump off (0) or
/// on (1)."
pub fn open(
    module: &mut Module,
    question: u32,
    proposal: u32,
    jump: u32,
    lent: &mut [u32],
) -> (Answer, StationWords) {
    if let Err(number) = may_open(module, proposal, jump, lent) {
        return (without_bundle(number), refused_station());
    }
    let who = (module.number, question);
    let init = Statement::uncoded(Kind::Init, 0, proposal, Flag::DGet, who);
    let Ok(init) = module.seal(init) else {
        return (without_bundle(NOT_ABOVE), refused_station());
    };
    let station = Station {
        n: module.n,
        number: module.number,
        question,
        stage: Stage::Gathering,
        decision: NONE,
        held: vec![init],
        first: Vec::new(),
        second: Vec::new(),
        jump: jump == JUMP_ON,
    };
    let bundle = Bundle {
        main: init,
        certificate: Vec::new(),
    };
    let count = bundle.write(lent);
    (
        Answer {
            number: SENT,
            count,
        },
        station.words(),
    )
}

// ---- giving -------------------------------------------------------------------------------

/// What a station does with a valid bundle that it does not refuse.
enum Taken {
    /// It holds the main statement, which is of its step.
    Held,
    /// It enters the main statement's step, a later one.
    Jumped,
}

impl Station {
    /// Tests 7, 8, 9 and 10 on a valid bundle's main statement. With jump on 9 and 10 do not apply to
    /// one of a later step: they are about what is held in the step that is left.
    fn admits(&self, new: &Statement) -> Result<Taken, u32> {
        // "A bundle for another step is refused; the host may give it again."
        if new.step() < self.stage.step() {
            return Err(STEP_BELOW);
        }
        if new.step() > self.stage.step() {
            // Job 3 of 02: "With it on, a valid bundle of a later step makes the station enter that
            // step"; "8 is given only with jump off; 12 follows the checks up to 7"
            return if self.jump {
                Ok(Taken::Jumped)
            } else {
                Err(STEP_ABOVE)
            };
        }
        if self.held.iter().any(|s| s.station == new.station) {
            return Err(HEARD);
        }
        if self.would_conflict(new) {
            return Err(CONFLICT);
        }
        Ok(Taken::Held)
    }

    /// "the held and the new would have votes for both 0 and 1, or, in a round over 1, D-GET of
    /// both values"
    fn would_conflict(&self, new: &Statement) -> bool {
        let counts: fn(&Statement) -> bool = match self.stage {
            Stage::Gathering | Stage::Proposing(1, _) => return false,
            Stage::Proposing(_, _) => is_d_get,
            Stage::Voting(_) => is_for_value,
        };
        let has = |v: u32| {
            let mut all = self.held.iter().chain([new]);
            all.any(|s| counts(s) && s.value == v)
        };
        has(0) && has(1)
    }
}

/// What the end of a step, or a jump, makes: a statement not yet coded, its certificate, the decision
/// as it is then, and the number that is returned if the module codes the statement.
struct Ended {
    statement: Statement,
    certificate: Vec<Statement>,
    decision: u32,
    number: u32,
}

impl Station {
    fn statement(&self, kind: Kind, round: u32, value: u32, flag: Flag) -> Statement {
        Statement::uncoded(kind, round, value, flag, (self.number, self.question))
    }

    /// Job 1 of 02: "If at least half of the q INITs are 1 the proposal is 1, else 0." "P of round 1
    /// follows, D-GET."
    fn end_of_gathering(&self) -> Ended {
        let ones = self.held.iter().filter(|s| s.value == 1).count();
        let value = if 2 * ones >= self.held.len() { 1 } else { 0 };
        // "Of the INITs with that value, the lowest-numbered go into the certificate."
        let with_value = self.held.iter().filter(|s| s.value == value);
        Ended {
            statement: self.statement(Kind::P, 1, value, Flag::DGet),
            certificate: with_value.take(backing(self.n, value)).copied().collect(),
            decision: self.decision,
            number: SENT,
        }
    }

    /// "P: all q equal gives V with that value; else V none."
    fn end_of_proposing(&self, round: u32) -> Ended {
        let value = self.held[0].value;
        let all_equal = self.held.iter().all(|s| s.value == value);
        let mut certificate = self.held.clone();
        if all_equal {
            // rule 5: in round 1 the INITs "taken from the lowest-numbered proposer's certificate"
            // (Job 2); with a D-GET in a round over 1, the group of the lowest-numbered of them
            certificate.extend(&self.first);
        } else {
            // rule 7: the group of the lowest-numbered R-GET; in round 1, rule 6, there is none
            certificate.extend(&self.second);
        }
        let vote = if all_equal { value } else { NONE };
        Ended {
            statement: self.statement(Kind::V, round, vote, Flag::DGet),
            certificate,
            decision: self.decision,
            number: SENT,
        }
    }

    /// "V: all q the same 0 or 1 decides it." "The first decision is kept and the station goes
    /// on."
    fn decision_after_votes(&self) -> u32 {
        let value = self.held[0].value;
        if self.decision == NONE && self.held.iter().all(|s| s.value == value) {
            value
        } else {
            self.decision
        }
    }

    /// What follows the votes of a round that is not the last.
    fn end_of_voting(&self, round: u32) -> Ended {
        let (statement, certificate) = match lowest(&self.held, is_for_value) {
            // "At least one with 0 or 1: P of the next round with it, D-GET."
            Some(vote) => (
                self.statement(Kind::P, round + 1, vote.value, Flag::DGet),
                self.first.clone(),
            ),
            // "All none: P flagged R-GET with the call's coin."
            None => (
                self.statement(Kind::P, round + 1, 0, Flag::RGet),
                self.held.clone(),
            ),
        };
        let decision = self.decision_after_votes();
        let decided_now = self.decision == NONE && decision != NONE;
        Ended {
            statement,
            certificate,
            decision,
            number: if decided_now { DECIDED } else { SENT },
        }
    }

    /// Job 3 of 02: "For a D-GET P or a V it writes its own statement with the same content and
    /// certificate; for an R-GET P it tosses its own coin with that certificate." The coin is put in
    /// where the statement is coded. The decision stays as it is.
    fn jump_onto(&self, given: Bundle) -> Ended {
        let Statement {
            kind,
            round,
            value,
            flag,
            ..
        } = given.main;
        Ended {
            statement: self.statement(kind, round, value, flag),
            certificate: given.certificate,
            decision: self.decision,
            number: JUMPED,
        }
    }
}

/// "A station given a bundle tests 1, 2, 11, 3, 4, 5, 6, 7, 8, 9, 10": answers the station, the
/// bundle and what is done with it, or the first refusal.
fn accept(
    module: &Module,
    words: &StationWords,
    given: &[u32],
    coin: u32,
    lent: &[u32],
) -> Result<(Station, Bundle, Taken), u32> {
    if lent.len() < BUNDLE_WORDS {
        return Err(SHORT_OUTPUT);
    }
    if !module.in_range() || coin > 1 {
        return Err(OUT_OF_RANGE);
    }
    let station = match fitting(words, module) {
        None => return Err(OUT_OF_RANGE),
        Some(Fitting::Closed) => return Err(CLOSED),
        Some(Fitting::Open(station)) => station,
    };
    let bundle = judge(&module.key, module.n, Some(station.question), given)?;
    let taken = station.admits(&bundle.main)?;
    Ok((station, bundle, taken))
}

/// Gives a bundle to a station, with the call's coin. At a refusal nothing is changed.
pub fn give(
    module: &mut Module,
    words: &mut StationWords,
    given: &[u32],
    coin: u32,
    lent: &mut [u32],
) -> Answer {
    let (mut station, bundle, taken) = match accept(module, words, given, coin, lent) {
        Ok(accepted) => accepted,
        Err(number) => return without_bundle(number),
    };
    if let Taken::Jumped = taken {
        let ended = station.jump_onto(bundle);
        return send(module, &station, ended, coin, (words, lent));
    }
    station.hold(bundle.main, &bundle.certificate);
    // "The q-th statement ends the step in that call."
    if station.held.len() < quorum(station.n) {
        *words = station.words();
        return without_bundle(KEPT);
    }
    let ended = match station.stage {
        Stage::Gathering => station.end_of_gathering(),
        Stage::Proposing(round, _) => station.end_of_proposing(round),
        // "The votes of round 65,535 are counted, then the station closes without a bundle."
        Stage::Voting(LAST_ROUND) => {
            *words = closed_words(&station, station.decision_after_votes());
            return without_bundle(CLOSED_NOW);
        }
        Stage::Voting(round) => station.end_of_voting(round),
    };
    send(module, &station, ended, coin, (words, lent))
}

/// Codes the new statement, by the coin where one is tossed, and writes the bundle; "only where a
/// bundle would be written, 12". Behind a step's end as behind a jump "Only its own statement is held
/// afterwards."
fn send(
    module: &mut Module,
    station: &Station,
    ended: Ended,
    coin: u32,
    lent: (&mut StationWords, &mut [u32]),
) -> Answer {
    let (words, output) = lent;
    // "A coin in range has no effect where none is tossed."
    let sealed = match ended.statement.flag {
        Flag::RGet => module.seal_with_coin(ended.statement, coin),
        Flag::DGet => module.seal(ended.statement),
    };
    let main = match sealed {
        Ok(main) => main,
        Err(number) => return without_bundle(number),
    };
    *words = station
        .entering(main, &ended.certificate, ended.decision)
        .words();
    let bundle = Bundle {
        main,
        certificate: ended.certificate,
    };
    Answer {
        number: ended.number,
        count: bundle.write(output),
    }
}

/// Step and decision of a station's words, as valley prints them.
pub fn step_and_decision(words: &StationWords) -> (Step, u32) {
    let stage = Stage::read([words[3], words[4], words[5]]).unwrap_or(Stage::Gathering);
    (stage.step(), words[7])
}

/// Whether the words of a station fit a module.
pub fn fits(words: &StationWords, module: &Module) -> bool {
    module.in_range() && fitting(words, module).is_some()
}

/// The set of a station with exactly these stations.
pub fn set_of(stations: &[u32]) -> u32 {
    stations
        .iter()
        .filter(|s| number_in_range(MOST_SITES, **s))
        .fold(0, |set, station| set | 1 << (station - 1))
}
