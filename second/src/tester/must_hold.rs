//! What must hold after each call of a list.

use std::collections::BTreeSet;

use crate::check::check;
use crate::sealed::{Module, MODULE_WORDS};
use crate::station::{fits, step_and_decision, StationWords};
use crate::station::{HEARD_WORD, JUMP_OFF, JUMP_ON, JUMP_WORD};
use crate::tester::jumps::jump_kind;
use crate::tester::script::Report;
use crate::tester::thresholds::{least_backing, meeting_number};
use crate::tester::world::World;
use crate::words::{Bundle, Flag, Kind, Statement, Step, NONE};

impl World {
    /// "At a refusal station, module and lent words keep their values." and "Where no bundle is
    /// written the word count is zero."
    pub fn require_unchanged(&mut self, report: &Report, station_too: bool) {
        let station_same = !station_too || report.station.0 == report.station.1;
        let same = report.module.0 == report.module.1 && report.lent.0 == report.lent.1;
        self.require(same && station_same, "a refusal changes nothing");
        self.require(report.count == 0, "a refusal counts no words");
    }

    /// What holds of a giving that is refused, to a sound site's own station or to any.
    pub(super) fn require_refusal(&mut self, report: &Report, own: bool) {
        self.require(
            !own || report.number != 10,
            "10 never answers a sound site's own station",
        );
        self.require_unchanged(report, true);
    }

    /// What the number says of the given step, beside the station's. "8 is given only with jump off".
    pub(super) fn require_step(&mut self, report: &Report, given: usize) {
        let words = self.author.machine.buffers[given].seen();
        let Some(given) = Bundle::read(words, self.n) else {
            return;
        };
        let jump = report.station.0[JUMP_WORD];
        let order = given.main.step().cmp(&step_of(&report.station.0));
        let (suits, what) = match report.number {
            7 => (order.is_lt(), "7 is of an earlier step"),
            8 => (order.is_gt() && jump == JUMP_OFF, "8 is of jump off"),
            23 => (order.is_gt() && jump == JUMP_ON, "23 is of jump on"),
            0 | 9 | 10 | 20..=22 => (order.is_eq(), "it is of the station's step"),
            _ => return,
        };
        self.require(suits, what);
    }

    /// What holds of a giving that is not refused, at any site.
    pub(super) fn require_given(&mut self, report: &Report, site: u32, output: usize, own: bool) {
        match report.number {
            0 | 22 => {
                let same = report.module.0 == report.module.1 && report.lent.0 == report.lent.1;
                self.require(same, "without a bundle module and lent words stay");
                self.require(report.count == 0, "without a bundle the count is zero");
                let module = self.module(site);
                self.require(
                    fits_words(&report.station.1, &module),
                    "a returned station fits",
                );
                let closed = report.station.1[6] == 1;
                self.require(
                    closed == (report.number == 22),
                    "22 exactly where it closes",
                );
            }
            20 | 21 | 23 => self.require_written(report, site, output, own),
            _ => self.require(false, "a giving answers a number of the table"),
        }
        let setting = match report.number {
            22 => JUMP_OFF,
            _ => report.station.0[JUMP_WORD],
        };
        self.require(
            report.station.1[JUMP_WORD] == setting,
            "it keeps its setting",
        );
    }

    /// Job 3 of 02: "With it on, a valid bundle of a later step makes the station enter that step
    /// and return 23. For a D-GET P or a V it writes its own statement with the same content and
    /// certificate; for an R-GET P it tosses its own coin with that certificate. Only its own
    /// statement is held afterwards."
    pub(super) fn require_jump(&mut self, report: &Report, given: usize, coin: u32, own: bool) {
        let given = Bundle::read(self.author.machine.buffers[given].seen(), self.n);
        let written = Bundle::read(&report.lent.1[..report.count], self.n);
        let (Some(given), Some(written)) = (given, written) else {
            self.require(false, "a jump goes from one bundle to another");
            return;
        };
        let content = |s: &Statement| (s.kind, s.round, s.flag);
        let value = match given.main.flag {
            Flag::DGet => given.main.value,
            Flag::RGet => coin,
        };
        let (before, after) = (&report.station.0, &report.station.1);
        self.require(step_of(after) == given.main.step(), "it enters that step");
        self.require(
            content(&written.main) == content(&given.main) && written.main.value == value,
            "with the same content, or its own coin",
        );
        self.require(
            written.certificate == given.certificate,
            "with the same certificate",
        );
        self.require(
            after[HEARD_WORD] == 1 << (written.main.station - 1),
            "only its own statement is held",
        );
        self.require(
            before[7] == after[7],
            "a jump leaves the decision as it was",
        );
        self.counts.jumps[jump_kind(&given.main)] += u64::from(own);
    }

    /// What holds of a call that writes a bundle; a sound site's own is valid to all.
    pub(super) fn require_written(&mut self, report: &Report, site: u32, output: usize, own: bool) {
        let (before, after) = &report.lent;
        let count = report.count.min(after.len());
        let written = &after[..count];
        let untouched = before[count..] == after[count..];
        let bundle = Bundle::read(written, self.n);
        let valid = check(&self.key, self.n, written) == 0;
        let module = self.module(site);
        self.require(untouched, "words behind the bundle are untouched");
        self.require(
            fits_words(&report.station.1, &module),
            "a returned station fits",
        );
        self.require(valid || !own, "what a sound site's station writes is valid");
        let Some(bundle) = bundle else {
            self.require(false, "a written bundle has its layout and its count");
            return;
        };
        if valid && is_first_vote(&bundle.main) {
            self.require_backed_vote(&bundle);
            self.counts.sound_first_votes += u64::from(own);
        }
        self.require(
            bundle.main.question == report.station.1[2],
            "of the question",
        );
        self.note_coded(report, site, bundle.main);
        self.send(output, count, bundle.main);
        self.counts.sound_bundles += u64::from(own);
        self.counts.tosses += u64::from(own && bundle.main.word0() >> 27 & 1 == 1);
    }

    /// A bundle was given to a call of the list. All refusals but these come behind test 6, and so
    /// say that it is valid. Codes made by hand under the key are in no bundle of the list.
    pub(super) fn look_at_given(&mut self, buffer: usize, number: u32) {
        let words = self.author.machine.buffers[buffer].seen();
        let Some(bundle) = Bundle::read(words, self.n).filter(|b| is_first_vote(&b.main)) else {
            return;
        };
        match number {
            1..=5 | 11 => {}
            6 => {
                let lacks = bundle.certificate.iter().all(|s| s.kind != Kind::Init);
                self.counts.without_inits += u64::from(lacks);
            }
            _ => self.require_backed_vote(&bundle),
        }
    }

    /// Job 2 of 02: "A site that missed the opening can't see whether a vote of round 1 rests on
    /// backed proposals." From a valid one it now can: of the sites that it names by INITs with its
    /// value, enough had their modules code just that.
    fn require_backed_vote(&mut self, bundle: &Bundle) {
        let (question, v) = (bundle.main.question, bundle.main.value);
        let inits = bundle.certificate.iter().filter(|s| s.kind == Kind::Init);
        let named: BTreeSet<u32> = inits.filter(|s| s.value == v).map(|s| s.station).collect();
        let proposers = self.proposers(question, v);
        let backed = named.intersection(&proposers).count() >= least_backing(self.n, v);
        self.require(backed, "a valid vote of round 1 names those who back it");
        self.counts.first_votes += 1;
    }

    /// The sites whose modules coded an INIT with this value on the question.
    fn proposers(&self, question: u32, v: u32) -> BTreeSet<u32> {
        let coded = self.coded.iter();
        coded
            .filter(|s| s.kind == Kind::Init && s.question == question && s.value == v)
            .map(|s| s.station)
            .collect()
    }

    /// A statement was coded: it is the module's own, its code verifies, the pair rises and is
    /// the module's last.
    pub(super) fn note_coded(&mut self, report: &Report, site: u32, statement: Statement) {
        let words = |list: &[u32]| -> [u32; MODULE_WORDS] {
            list.try_into().expect("a module has 13 words")
        };
        let before = Module::read(&words(&report.module.0));
        let after = Module::read(&words(&report.module.1));
        let pair = (statement.question, statement.step());
        self.require(
            statement.station == site,
            "a module codes for its own station",
        );
        self.require(statement.verifies(&self.key), "a code verifies");
        self.require(before.last.is_none_or(|last| last < pair), "the pair rises");
        self.require(after.last == Some(pair), "the pair becomes the last");
        self.coded.push(statement);
    }

    /// The votes that a lineage keeps by a giving: the given one, but for a jump, and its own where it
    /// writes one.
    pub(super) fn note_votes(&mut self, own: usize, given: usize, report: &Report) {
        let given = Bundle::read(self.author.machine.buffers[given].seen(), self.n);
        let written = Bundle::read(&report.lent.1[..report.count], self.n);
        for main in [given.filter(|_| report.number != 23), written]
            .into_iter()
            .flatten()
            .map(|bundle| bundle.main)
        {
            if main.kind == Kind::V {
                let votes = &mut self.lineages[own].votes;
                votes
                    .entry((main.round, main.value))
                    .or_default()
                    .insert(main.station);
            }
        }
    }

    /// "A sound site decides v, 0 or 1, on a question in the first call after which one of its
    /// stations has kept q V for v of one round, its own counted. From then on that station names
    /// v as its decision, before that none".
    pub(super) fn require_naming(&mut self, own: usize, report: &Report) {
        let q = meeting_number(self.n);
        let lineage = &mut self.lineages[own];
        let kept = |v: u32| {
            let mut votes = lineage.votes.iter();
            votes.any(|((_, value), from)| *value == v && from.len() >= q)
        };
        let first = match (lineage.decided, kept(0), kept(1)) {
            (None, true, _) => Some(0),
            (None, false, true) => Some(1),
            _ => None,
        };
        lineage.decided = lineage.decided.or(first);
        let named = lineage.decided.unwrap_or(NONE);
        let (site, question) = (lineage.site, lineage.question);
        self.require(
            report.station.1[7] == named,
            "the station names its decision",
        );
        let says_first = report.number == 21;
        let expected = first.is_some() && report.number != 22;
        self.require(says_first == expected, "21 exactly where it first decides");
        if let Some(v) = first {
            self.note_decision(site, question, v);
        }
        self.counts.sound_closings += u64::from(report.number == 22);
    }

    /// "no two sound sites have decided differently on one question, and no sound site has decided
    /// a value that too few sites proposed". Job 3 of 02: "Two sound sites still never decide
    /// differently. The backing holds only for questions on which every sound site has jump off".
    fn note_decision(&mut self, site: u32, question: u32, v: u32) {
        let mut others = self.decisions.iter();
        let agree = others.all(|(_, other, w)| *other != question || *w == v);
        self.require(agree, "agreement");
        let backed = self.proposers(question, v).len() >= least_backing(self.n, v);
        let claimed = !self.jumped_questions.contains(&question);
        self.require(backed || !claimed, "backing");
        self.decisions.push((site, question, v));
        self.counts.decisions += 1;
        self.counts.backed_decisions += u64::from(claimed);
        self.counts.unbacked_decisions += u64::from(!backed);
    }

    pub(super) fn require_deep(&mut self, own: usize, report: &Report) {
        let round = report.station.1[4];
        let question = self.lineages[own].question;
        self.require(
            report.station.1[2] == question,
            "a station keeps its question",
        );
        self.counts.deepest_round = self.counts.deepest_round.max(round);
    }
}

/// A vote of round 1 for 0 or 1.
fn is_first_vote(main: &Statement) -> bool {
    main.kind == Kind::V && main.round == 1 && main.value != NONE
}

/// The step that a station's words are in.
fn step_of(words: &[u32]) -> Step {
    let words: &StationWords = words.try_into().expect("a station's words");
    step_and_decision(words).0
}

fn fits_words(words: &[u32], module: &Module) -> bool {
    words
        .try_into()
        .is_ok_and(|words: &StationWords| fits(words, module))
}
