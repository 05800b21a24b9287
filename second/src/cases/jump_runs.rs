//! Whole runs in which stations jump (Job 3 of 02), each from its first opening on: two in which a
//! value is decided that nobody proposed, and one in which a group of mixed settings is left where
//! nothing moves it. They are recorded for the script of calls, and tests look at what they did.

use crate::cases::samples::{p, v, D, KEY, QUESTION};
use crate::group::BUNDLE_WORDS;
use crate::station::{JUMP_OFF, JUMP_ON};
use crate::tester::author::Author;
use crate::tester::script::{Command, Report};
use crate::words::{Bundle, Statement, NONE};

/// The coin of every giving. It is tossed only where an R-GET is written.
pub const COIN: u32 = 0;

/// A group from the making of its modules on. Site s has module and station s − 1, and bundle k is in
/// buffer k.
pub struct Run {
    pub author: Author,
    pub n: u32,
    /// The sites that were called and what they answered, behind the making of the modules.
    pub answered: Vec<(u32, u32)>,
    /// All that the modules coded.
    pub coded: Vec<Statement>,
    /// The bundles that stations wrote, or that a faulty site put together.
    pub bundles: Vec<Bundle>,
}

impl Run {
    /// A group of n with nothing coded.
    fn of(n: u32, mut author: Author) -> Run {
        for site in 1..=n {
            let made = author.call(Command::Make(site as usize - 1, KEY, n, site));
            assert_eq!(made.number, 0);
        }
        Run {
            author,
            n,
            answered: Vec::new(),
            coded: Vec::new(),
            bundles: Vec::new(),
        }
    }

    /// The next buffer, to be lent.
    fn output(&mut self) -> usize {
        let output = self.bundles.len();
        self.author.set(Command::Fill(output, BUNDLE_WORDS, 0));
        output
    }

    /// Makes a call of a site and keeps the bundle that it writes, if it writes one.
    fn call(&mut self, site: u32, command: Command) -> Report {
        let report = self.author.call(command);
        self.answered.push((site, report.number));
        if report.count > 0 {
            let bundle = Bundle::read(&report.lent.1[..report.count], self.n);
            let bundle = bundle.expect("a bundle is written");
            let buffer = self.bundles.len();
            self.author.set(Command::Length(buffer, report.count));
            self.coded.push(bundle.main);
            self.bundles.push(bundle);
        }
        report
    }

    /// The last bundle.
    fn last(&self) -> usize {
        self.bundles.len() - 1
    }

    /// Opens a site's station: the INIT's bundle.
    fn open(&mut self, site: u32, proposal: u32, jump: u32) -> usize {
        let (register, output) = (site as usize - 1, self.output());
        let open = Command::Open(register, register, QUESTION, proposal, jump, output);
        assert_eq!(self.call(site, open).number, 20);
        self.last()
    }

    /// Gives a bundle to a site's station.
    pub fn give(&mut self, site: u32, bundle: usize) -> Report {
        let (register, output) = (site as usize - 1, self.output());
        let give = Command::Give(register, register, bundle, COIN, output);
        self.call(site, give)
    }

    /// A giving that writes a bundle, and answers this number: the bundle.
    pub fn written(&mut self, site: u32, bundle: usize, number: u32) -> usize {
        let report = self.give(site, bundle);
        assert_eq!(report.number, number);
        assert!(report.count > 0);
        self.last()
    }

    /// A giving that is kept and ends nothing.
    fn kept(&mut self, site: u32, bundle: usize) {
        assert_eq!(self.give(site, bundle).number, 0);
    }

    /// Codes a statement the plain way: the number, and the statement with its code.
    fn plain(&mut self, statement: Statement) -> (u32, Statement) {
        let buffer = self.bundles.len();
        let code = [0; 8];
        let words = Statement { code, ..statement }.words();
        self.author.put_all(buffer, &words);
        let site = statement.station;
        let plain = Command::Plain(site as usize - 1, buffer);
        let report = self.call(site, plain);
        let coded = Statement::read(&report.lent.1, self.n).expect("a statement");
        (report.number, coded)
    }

    /// A faulty site codes a statement.
    fn code(&mut self, statement: Statement) -> Statement {
        let (number, coded) = self.plain(statement);
        assert_eq!(number, 0);
        self.coded.push(coded);
        coded
    }

    /// A faulty site puts a bundle together.
    fn air(&mut self, main: Statement, certificate: Vec<Statement>) -> usize {
        let bundle = Bundle { main, certificate };
        self.author.put_all(self.bundles.len(), &bundle.words());
        self.bundles.push(bundle);
        self.last()
    }

    /// Site 3 codes a proposal of round 1 for 0, which no INIT backs, and a none vote over it and over
    /// another's proposal for 1. The vote is valid by rule 6: "No certificate is required of a
    /// certificate's statements."
    fn faulty_none_vote(&mut self, other: usize) -> usize {
        let proposal = self.code(p(3, 1, 0, D));
        let vote = self.code(v(3, 1, NONE));
        let certificate = vec![self.bundles[other].main, proposal];
        self.air(vote, certificate)
    }

    /// Site 2 jumps onto such a vote of site 3, holds it beside its own copy and tosses 0: the vote and
    /// the R-GET proposal of round 2.
    fn jump_onto_none_vote(&mut self, other: usize) -> (usize, usize) {
        let vote = self.faulty_none_vote(other);
        self.written(2, vote, 23);
        (vote, self.written(2, vote, 20))
    }

    /// The decision of a site's station.
    pub fn decision(&self, site: u32) -> u32 {
        self.author.machine.stations[site as usize - 1][7]
    }
}

/// "a jumper can copy a faulty first-round none vote and a coin then bring an unproposed value, as a
/// tested run at n 3 shows": sites 1 and 2 are sound, have jump on and propose 1, site 3 codes no INIT.
/// Site 2 decides 0 in the eleventh call.
pub fn backing_run(author: Author) -> Run {
    let mut run = Run::of(3, author);
    run.open(1, 1, JUMP_ON);
    let init_2 = run.open(2, 1, JUMP_ON);
    let first_1 = run.written(1, init_2, 20);
    let (_, second_2) = run.jump_onto_none_vote(first_1);
    // 1 jumps onto the R-GET, tosses 0 and votes
    run.written(1, second_2, 23);
    let vote_1 = run.written(1, second_2, 20);
    // 2 jumps onto the vote and holds it beside its own
    run.written(2, vote_1, 23);
    run.written(2, vote_1, 21);
    run
}

/// The same with jump on at site 2 alone: site 1, with jump off, decides 0 too. Both propose 1.
pub fn other_backing_run(author: Author) -> Run {
    let mut run = Run::of(3, author);
    let init_1 = run.open(1, 1, JUMP_OFF);
    let init_2 = run.open(2, 1, JUMP_ON);
    let first_1 = run.written(1, init_2, 20);
    let first_2 = run.written(2, init_1, 20);
    let (none_3, second_2) = run.jump_onto_none_vote(first_1);
    // 1 votes 1, proposes 1 and sees both values in round 2; so does 2
    run.written(1, first_2, 20);
    let second_1 = run.written(1, none_3, 20);
    let vote_1 = run.written(1, second_2, 20);
    let vote_2 = run.written(2, second_1, 20);
    // both toss 0, vote 0 and decide
    let third_1 = run.written(1, vote_2, 20);
    let third_2 = run.written(2, vote_1, 20);
    let vote_1 = run.written(1, third_2, 20);
    let vote_2 = run.written(2, third_1, 20);
    run.written(1, vote_2, 21);
    run.written(2, vote_1, 21);
    run
}

/// At n 5 sites 4 and 5 fall silent when they, and 2 with them, propose in round 2. Site 3, with jump on,
/// has gone there from its INIT. Site 1, with the setting given here, proposes in round 1. Each of 1, 2
/// and 3 holds two of the three statements that end its step.
pub fn silence(author: Author, jump_1: u32) -> Run {
    let mut run = Run::of(5, author);
    let init_1 = run.open(1, 1, jump_1);
    let init_2 = run.open(2, 1, JUMP_OFF);
    let init_3 = run.open(3, 1, JUMP_ON);
    let init_4 = run.open(4, 0, JUMP_OFF);
    run.open(5, 0, JUMP_OFF);
    let first_1 = run.two(1, [init_2, init_3]);
    let first_2 = run.two(2, [init_1, init_3]);
    let first_4 = run.two(4, [init_1, init_2]);
    let first_5 = run.two(5, [init_1, init_4]);
    // 5 proposes 0, so that 4 and 5 vote none, and 2 has the only vote for 1 and does not decide
    let vote_2 = run.two(2, [first_1, first_4]);
    let vote_4 = run.two(4, [first_2, first_5]);
    let vote_5 = run.two(5, [first_2, first_4]);
    let second_2 = run.two(2, [vote_4, vote_5]);
    run.two(4, [vote_2, vote_5]);
    run.two(5, [vote_2, vote_4]);
    let second_3 = run.written(3, second_2, 23);
    run.kept(3, second_2);
    run.kept(2, second_3);
    run.kept(1, first_2);
    run
}

impl Run {
    /// Gives a site at n 5 two bundles, of which the second ends its step: the bundle written.
    fn two(&mut self, site: u32, given: [usize; 2]) -> usize {
        self.kept(site, given[0]);
        self.written(site, given[1], 20)
    }

    /// The bundles that sites 1, 2 and 3 wrote.
    pub fn of_the_three(&self) -> Vec<usize> {
        let all = 0..self.bundles.len();
        all.filter(|k| self.bundles[*k].main.station <= 3).collect()
    }

    /// The module of site 3, asked for the proposal of round 1 that its station went past. It is refused,
    /// so that the site stays sound.
    pub fn passed_proposal(&mut self) -> u32 {
        self.plain(p(3, 1, 1, D)).0
    }
}

/// Such a group with jump off at site 1. Whatever of 1, 2 and 3 is given to whichever of them, it is
/// refused and changes nothing; and site 3's module can never code the proposal that 1 lacks.
pub fn stranded(author: Author) -> Run {
    let mut run = silence(author, JUMP_OFF);
    for bundle in run.of_the_three() {
        for site in 1..=3 {
            let report = run.give(site, bundle);
            assert!([7, 8, 9].contains(&report.number));
            assert_eq!(report.station.0, report.station.1);
            assert_eq!(report.module.0, report.module.1);
        }
    }
    assert_eq!(run.passed_proposal(), 12);
    run
}
