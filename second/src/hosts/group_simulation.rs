//! What the group simulation prints (crates/group_simulation): all sites of a group in one program,
//! over a radio that loses nothing or the packets of a fixed table. Without loss it is the whole vote
//! that the benchmark times.
//!
//! This file is a port of the proved program's loop, so that both give the same bundles in the same
//! order; every call it makes is this crate's own. Its `Habits` can be changed, to see what a group
//! does without them.

use crate::group::BUNDLE_WORDS;
use crate::hmac::Key;
use crate::returns::{is_refusal, CLOSED_NOW, DECIDED, OTHER_QUESTION, SENT, STEP_BELOW};
use crate::sealed::{make, Module};
use crate::station::{give, open, StationWords, JUMP_OFF, STATION_WORDS};
use crate::status::status;
use crate::words::{Bundle, Step, NONE};

const KEY: Key = [0x0707_0707; 8];
/// The steps of a question that a site keeps, of two questions.
const RING: usize = 16;

/// How the sites and their radio are. The proved program's are `BEST`, with or without the table.
#[derive(Clone, Copy)]
pub struct Habits {
    /// Which of 64 packets are lost, those at `x`, if any are.
    pub lost: Option<&'static [u8; 64]>,
    /// A bundle of an old step or question is answered with the own one.
    pub answering: bool,
    /// How many turns a site that has decided waits for its vote of the round behind.
    pub patience: u32,
    /// The turns, and packets in them, after which the group is left as it is.
    pub most: u64,
}

pub const TABLE: &[u8; 64] = b"x.x.x...x.xx.x.x.xx.xx.xx..x..xxx.xx.x.x.xxx.x.....xx...........";

pub const BEST: Habits = Habits {
    lost: None,
    answering: true,
    patience: 16,
    most: 100_000_000,
};

/// A bundle, by its question and step.
struct Written {
    question: u32,
    step: Step,
    words: Vec<u32>,
}

/// What a host keeps of its site, and its own bundles.
struct Site {
    own: Module,
    station: StationWords,
    question: u32,
    step: Step,
    decided: bool,
    waited: u32,
    free: bool,
    kept: [Option<Written>; 2 * RING],
}

/// Where the bundle of a question and step is kept.
fn spot(question: u32, step: Step) -> usize {
    question as usize % 2 * RING + step.0 as usize % RING
}

impl Site {
    fn fresh(n: u32, number: u32) -> Site {
        let (_, own) = make(&KEY, n, number);
        Site {
            own,
            station: [0; STATION_WORDS],
            question: 0,
            step: Step(0),
            decided: false,
            waited: 0,
            free: true,
            kept: [const { None }; 2 * RING],
        }
    }

    /// Keeps a bundle that the site wrote.
    fn keep(&mut self, words: &[u32], counts: &mut Counts) {
        let main = Bundle::read(words, self.own.n).expect("a bundle").main;
        self.step = main.step();
        let place = &mut self.kept[spot(main.question, self.step)];
        let passed = place.as_ref().is_some_and(|b| b.question == main.question);
        counts.past += u64::from(passed);
        *place = Some(Written {
            question: main.question,
            step: self.step,
            words: words.to_vec(),
        });
    }

    /// The own bundle of a question and step, if it is kept.
    fn own_bundle(&self, question: u32, step: Step) -> Option<Vec<u32>> {
        let kept = self.kept[spot(question, step)].as_ref()?;
        ((kept.question, kept.step) == (question, step)).then(|| kept.words.clone())
    }

    /// The beginning of a turn: the site opens a station on the question if it has none there and
    /// may.
    fn begin(&mut self, question: u32, value: u32, habits: Habits, counts: &mut Counts) {
        if self.question >= question || !self.free && self.waited <= habits.patience {
            self.waited += u32::from(self.decided);
            return;
        }
        let mut lent = [0; BUNDLE_WORDS];
        let (answer, station) = open(&mut self.own, question, value, JUMP_OFF, &mut lent);
        if answer.number != SENT {
            counts.refused += 1;
            return;
        }
        self.station = station;
        self.question = question;
        self.decided = false;
        self.waited = 0;
        self.free = false;
        self.keep(&lent[..answer.count], counts);
    }

    /// Gives a bundle: the number that was answered.
    fn hear(&mut self, words: &[u32], counts: &mut Counts) -> u32 {
        let mut lent = [0; BUNDLE_WORDS];
        let coin = (self.step.0 / 2 % 2) as u32;
        let answer = give(&mut self.own, &mut self.station, words, coin, &mut lent);
        self.free |= self.decided && answer.count > 0 || answer.number == CLOSED_NOW;
        self.decided |= answer.number == DECIDED;
        counts.given += 1;
        counts.refused += u64::from(is_refusal(answer.number));
        if answer.count > 0 {
            self.keep(&lent[..answer.count], counts);
        }
        answer.number
    }

    /// The decision on a question: none where the station is on another, or there is no station.
    fn decision(&self, question: u32) -> u32 {
        status(&self.own, &self.station, question).decision
    }
}

fn proposal(kind: u8, number: u32) -> u32 {
    match kind {
        b'0' => 0,
        b'1' => 1,
        _ => (number + 1) % 2,
    }
}

/// What the group has done so far.
#[derive(Default)]
pub struct Counts {
    pub packets: u64,
    pub lost: u64,
    pub given: u64,
    pub refused: u64,
    /// Bundles that were sent on request.
    pub again: u64,
    /// Bundles that took the place of one of the same question.
    pub past: u64,
}

/// Sends a packet; whether it was lost.
fn is_lost(habits: Habits, counts: &mut Counts) -> bool {
    let at = counts.packets + counts.packets / 64;
    let lost = habits
        .lost
        .is_some_and(|table| table[at as usize % 64] == b'x');
    counts.packets += 1;
    counts.lost += u64::from(lost);
    lost
}

/// A site sends its last bundle to another, which answers what is old.
fn pass(sites: &mut [Site], place: usize, other: usize, habits: Habits, counts: &mut Counts) {
    let (question, step) = (sites[place].question, sites[place].step);
    let Some(words) = sites[place].own_bundle(question, step) else {
        return;
    };
    if is_lost(habits, counts) || sites[other].question == 0 {
        return;
    }
    let number = sites[other].hear(&words, counts);
    if !habits.answering || ![STEP_BELOW, OTHER_QUESTION].contains(&number) {
        return;
    }
    let Some(words) = sites[other].own_bundle(question, step) else {
        return;
    };
    counts.again += 1;
    if !is_lost(habits, counts) {
        sites[place].hear(&words, counts);
    }
}

/// Votes of one group on the questions that the bytes stand for.
pub fn votes(n: u32, kinds: &[u8], habits: Habits, counts: &mut Counts) -> String {
    let mut sites: Vec<Site> = (1..=n).map(|number| Site::fresh(n, number)).collect();
    let mut lines = String::new();
    let mut question = 1;
    for done in 0..habits.most {
        let Some(kind) = kinds.get(question as usize - 1) else {
            break;
        };
        let (turn, behind) = ((done / u64::from(n)) as usize, done as usize % n as usize);
        let place = turn % n as usize;
        let other = (place + behind) % n as usize;
        if other == place {
            let value = proposal(*kind, place as u32 + 1);
            sites[place].begin(question, value, habits, counts);
        } else {
            pass(&mut sites, place, other, habits, counts);
        }
        if behind + 1 < n as usize || place + 1 < n as usize {
            continue;
        }
        let decided = |site: &Site| site.decision(question);
        let decisions: Vec<u32> = sites.iter().map(decided).collect();
        if decisions.iter().all(|decision| *decision != NONE) {
            let digits: String = decisions.iter().map(u32::to_string).collect();
            lines += &line(n, question, &digits, counts);
            question += 1;
        }
    }
    lines
}

fn line(n: u32, question: u32, decisions: &str, counts: &Counts) -> String {
    let Counts {
        given,
        refused,
        lost,
        again,
        past,
        ..
    } = counts;
    format!("{n} {question} {decisions} {given} {refused} {lost} {again} {past}\n")
}

/// The whole output for an input: the first byte says which groups vote, the second over which radio.
pub fn run(input: &[u8]) -> String {
    let [which, radio, kinds @ ..] = input else {
        return String::new();
    };
    let asked = |asks: u8, own: u8| asks == own || asks == b'a';
    let mut text = String::new();
    for (radio_byte, lost) in [(b'.', None), (b'x', Some(TABLE))] {
        for (group_byte, n) in [(b'4', 4), (b'7', 7), (b'3', 31)] {
            if asked(*radio, radio_byte) && asked(*which, group_byte) {
                let habits = Habits { lost, ..BEST };
                text += &votes(n, kinds, habits, &mut Counts::default());
            }
        }
    }
    text
}
