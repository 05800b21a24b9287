//! Stations that jump: the sentences of Job 3 of 02, the readings of them in the README's words, and the
//! runs of `jump_runs.rs`.

mod common;
use common::*;
use second::cases::jump_runs::{backing_run, other_backing_run, silence, stranded, Run};
use second::check::check;
use second::group::{backing, LAST_ROUND};
use second::sealed::{code_plain, Module};
use second::station::{fits, give, open, refused_station, step_and_decision, StationWords};
use second::station::{FIRST_START, HEARD_WORD, JUMP_OFF, JUMP_ON, JUMP_WORD, SECOND_START};
use second::tester::author::Author;
use second::words::{Bundle, Kind, Statement, Step, NONE};

type Site = (Module, StationWords);

/// The statements of a kept group; all is zero behind them.
fn group(slots: &[u32], n: u32) -> Vec<Statement> {
    let read = slots
        .chunks(10)
        .map_while(|ten| Statement::read(ten, n))
        .collect::<Vec<_>>();
    assert!(slots[10 * read.len()..].iter().all(|word| *word == 0));
    read
}

/// Both kept groups of a station.
fn groups(words: &StationWords) -> [Vec<Statement>; 2] {
    let first = &words[FIRST_START..SECOND_START];
    let second = &words[SECOND_START..JUMP_WORD];
    [group(first, words[0]), group(second, words[0])]
}

/// Gives a bundle that makes the station jump: what it writes. It holds its own statement alone.
fn jump(site: &mut Site, given: &[u32], coin: u32) -> Bundle {
    let (number, decision) = (site.0.number, site.1[7]);
    let (answer, written) = give_words(&mut site.0, &mut site.1, given, coin);
    assert_eq!((answer.number, answer.count), (23, given.len()));
    let made = Bundle::read(&written, site.0.n).unwrap();
    assert_eq!(check(&KEY, site.0.n, &written), 0);
    assert_eq!(made.main.station, number);
    let words = &site.1;
    assert_eq!(words[HEARD_WORD], 1 << (number - 1));
    let own = 9 + 10 * (number as usize - 1);
    assert_eq!(words[own..own + 10], made.main.words());
    assert_eq!(step_and_decision(words), (made.main.step(), decision));
    assert_eq!((words[6], words[JUMP_WORD]), (0, JUMP_ON));
    assert_eq!(site.0.last, Some((QUESTION, made.main.step())));
    assert!(fits(words, &site.0));
    made
}

/// "Opening gains a setting, jump off (0) or on (1)"; "a jump setting outside 0 and 1 is 2".
#[test]
fn openings() {
    for jump in [JUMP_OFF, JUMP_ON] {
        let (module, station) = opened_with(4, 2, 1, jump);
        assert_eq!(station[JUMP_WORD], jump);
        assert!(fits(&station, &module));
        assert_eq!(station[..JUMP_WORD], opened(4, 2, 1).1[..JUMP_WORD]);
    }
    assert_eq!(JUMP_WORD, 639);
    let mut late = module(4, 2);
    late.last = Some((QUESTION, Step(0)));
    for (lent, proposal, jump, number) in [
        (330, 2, 2, 1),
        (331, 2, 1, 2),
        (331, 1, 2, 2),
        (331, 1, u32::MAX, 2),
        (331, 0, 1, 12),
    ] {
        let mut lent = vec![7; lent];
        let (answer, station) = open(&mut late, QUESTION, proposal, jump, &mut lent);
        assert_eq!((answer.number, answer.count), (number, 0));
        assert_eq!(station, refused_station());
        assert!(lent.iter().all(|word| *word == 7));
    }
    assert_eq!(refused_station()[JUMP_WORD], JUMP_OFF);
}

/// "For a D-GET P or a V it writes its own statement with the same content and certificate": "proposing in
/// round 1 its INITs; proposing in a later round the certificate, by its flag".
#[test]
fn onto_d_get_proposals() {
    let inits_of_0 = inits(&[1, 3], 0);
    let mut site = opened_with(4, 2, 1, JUMP_ON);
    let given = bundle(p(4, 1, 0, D), &[&inits_of_0]);
    let made = jump(&mut site, &given, 1);
    assert_eq!((made.main, &made.certificate), (p(2, 1, 0, D), &inits_of_0));
    assert_eq!(groups(&site.1), [inits_of_0, vec![]]);
    assert_eq!(site.1[3..6], [1, 1, 0]);

    let before = ps(&[1, 3, 4], 6, 1, R);
    let given = bundle(p(4, 7, 1, D), &[&before]);
    let made = jump(&mut site, &given, 0);
    assert_eq!((made.main, &made.certificate), (p(2, 7, 1, D), &before));
    assert_eq!(groups(&site.1), [before, vec![]]);
    assert_eq!(site.1[3..6], [1, 7, 0]);
}

/// "for an R-GET P it tosses its own coin with that certificate"
#[test]
fn onto_r_get_proposals() {
    for (value, coin) in [(0, 0), (0, 1), (1, 0), (1, 1)] {
        let mut site = opened_with(4, 2, 1, JUMP_ON);
        let before = nones(&[1, 3, 4], 1);
        let given = bundle(p(4, 2, value, R), &[&before]);
        let made = jump(&mut site, &given, coin);
        assert_eq!((made.main, &made.certificate), (p(2, 2, coin, R), &before));
        assert_eq!(groups(&site.1), [vec![], before]);
        assert_eq!(site.1[3..6], [1, 2, 1]);
    }
}

/// "voting for 0 or 1, the first q statements of the certificate (in round 1 the INITs behind them are not
/// kept)"; voting none, nothing.
#[test]
fn onto_votes() {
    for coin in [0, 1] {
        let mut site = opened_with(4, 2, 0, JUMP_ON);
        let first = ps(&[1, 3, 4], 1, 1, D);
        let backing = inits(&[1, 4], 1);
        let given = bundle(v(4, 1, 1), &[&first, &backing]);
        let made = jump(&mut site, &given, coin);
        assert_eq!(made.main, v(2, 1, 1));
        assert_eq!(made.certificate, [&first[..], &backing].concat());
        assert_eq!(groups(&site.1), [first, vec![]]);
        assert_eq!(site.1[3..6], [2, 1, 0]);

        let with_d = [p(1, 3, 0, R), p(2, 3, 0, D), p(4, 3, 0, R)];
        let before = ps(&[2, 3, 4], 2, 0, D);
        let given = bundle(v(1, 3, 0), &[&with_d, &before]);
        let made = jump(&mut site, &given, coin);
        assert_eq!(made.main, v(2, 3, 0));
        assert_eq!(made.certificate, [&with_d[..], &before].concat());
        assert_eq!(groups(&site.1), [with_d.to_vec(), vec![]]);

        let both = [p(1, 9, 0, R), p(2, 9, 1, R), p(4, 9, 0, D)];
        let given = bundle(v(1, 9, NONE), &[&both, &nones(&[2, 3, 4], 8)]);
        let made = jump(&mut site, &given, coin);
        assert_eq!(made.main, v(2, 9, NONE));
        assert_eq!(made.certificate.len(), 6);
        assert_eq!(groups(&site.1), [vec![], vec![]]);
    }
}

/// A none vote of round 1 by rule 6, which anybody can copy.
fn first_none_vote(from: u32) -> Vec<u32> {
    let both = [p(1, 1, 1, D), p(3, 1, 0, D)];
    bundle(v(from, 1, NONE), &[&both])
}

/// At every n and from each stage, what was held is gone, and the words behind the bundle stay.
#[test]
fn from_every_stage_at_every_n() {
    for n in 2..=31 {
        let all: Vec<u32> = (1..=n).collect();
        let q = &all[..n as usize / 2 + 1];
        let of_1 = inits(&all[..backing(n, 1)], 1);
        let none = nones(q, 1);
        let stages = [
            station(n, init(2, 0), &[], [&[], &[]]),
            station(n, p(2, 1, 1, D), &[], [&of_1, &[]]),
            station(n, v(2, 1, NONE), &[], [&[], &[]]),
            station(n, p(2, 2, 0, R), &[], [&[], &none]),
        ];
        let given = bundle(v(1, 2, 0), &[&ps(q, 2, 0, R)]);
        for words in stages {
            let mut site = (module(n, 2), jumping(words));
            let mut lent = [9; 400];
            let answer = give(&mut site.0, &mut site.1, &given, 1, &mut lent);
            assert_eq!((answer.number, answer.count), (23, given.len()));
            assert_eq!(lent[11..given.len()], given[11..]);
            assert_eq!(lent[1..11], v(2, 2, 0).words());
            assert!(lent[given.len()..].iter().all(|word| *word == 9));
            let after = station(n, v(2, 2, 0), &[], [&ps(q, 2, 0, R), &[]]);
            assert_eq!(site.1, jumping(after));
            // with jump off it is 8
            let (mut other, mut words) = (module(n, 2), words);
            let before = words;
            let answer = give_words(&mut other, &mut words, &given, 1).0;
            assert_eq!((answer.number, words, other.last), (8, before, None));
        }
    }
}

/// "The given sender's statement is not held; the host may give it again."
#[test]
fn the_sender_is_given_again() {
    let mut site = opened_with(3, 2, 1, JUMP_ON);
    let given = first_none_vote(3);
    jump(&mut site, &given, 0);
    let (answer, written) = give_words(&mut site.0, &mut site.1, &given, 0);
    assert_eq!(answer.number, 20);
    let made = Bundle::read(&written, 3).unwrap();
    assert_eq!(made.main, p(2, 2, 0, R));
    assert_eq!(made.certificate, nones(&[2, 3], 1));
    // at n 5 two are not enough; a further time it is held
    let mut site = opened_with(5, 2, 1, JUMP_ON);
    let given = bundle(p(3, 1, 1, D), &[&inits(&[1, 3], 1)]);
    jump(&mut site, &given, 0);
    for number in [0, 9] {
        let answer = give_words(&mut site.0, &mut site.1, &given, 0).0;
        assert_eq!(answer.number, number);
    }
}

/// Jumping does not depend on being decided, and the decision stays; 21 is not answered again.
#[test]
fn a_decided_station_jumps() {
    let mut site = opened_with(3, 1, 1, JUMP_ON);
    let first = ps(&[1, 2], 1, 1, D);
    let vote = bundle(v(2, 1, 1), &[&first, &inits(&[2], 1)]);
    jump(&mut site, &vote, 0);
    let answer = give_words(&mut site.0, &mut site.1, &vote, 0).0;
    assert_eq!((answer.number, site.1[7]), (21, 1));
    let later = bundle(v(3, 8, 1), &[&ps(&[2, 3], 8, 1, R)]);
    jump(&mut site, &later, 0);
    assert_eq!(site.1[7], 1);
    let answer = give_words(&mut site.0, &mut site.1, &later, 0).0;
    assert_eq!((answer.number, site.1[7]), (20, 1));
}

/// A station voting 0 in round 2 that holds 3's vote too, with jump on.
fn voting() -> StationWords {
    let first = ps(&[1, 2, 3], 2, 0, R);
    jumping(station(4, v(2, 2, 0), &[v(3, 2, 0)], [&first, &[]]))
}

/// The vote of 3 for 1 in round 3, with the proposals of these.
fn later_vote(proposers: &[u32]) -> Vec<u32> {
    bundle(v(3, 3, 1), &[&ps(proposers, 3, 1, R)])
}

/// What refuses a giving where the module is at that vote's step already.
fn refused(words: StationWords, given: &[u32], coin: u32, lent: usize) -> u32 {
    let (mut at, mut station) = (module(4, 2), words);
    at.last = Some((QUESTION, Step(7)));
    let answer = give(&mut at, &mut station, given, coin, &mut vec![0; lent]);
    assert_eq!((answer.count, station), (0, words));
    answer.number
}

/// "8 is given only with jump off; 12 follows the checks up to 7", and 9 and 10 do not apply: each test is
/// tried with later ones failing too.
#[test]
fn the_order_of_the_tests() {
    let (words, good) = (voting(), later_vote(&[1, 2, 3]));
    let with = |index: usize, word: u32| {
        let mut words = words;
        words[index] = word;
        words
    };
    let (closed, unfit, off) = (with(6, 1), with(HEARD_WORD, 7), with(JUMP_WORD, JUMP_OFF));
    let mut malformed = good.clone();
    malformed[11] |= 1 << 26;
    malformed[12] ^= 1;
    let mut other_question = good.clone();
    other_question[12] ^= 1;
    let unbacked = later_vote(&[2, 3]);
    let mut other_code = unbacked.clone();
    other_code[13] ^= 1;
    let both = [p(1, 1, 0, D), p(2, 1, 1, D), p(3, 1, 1, D)];
    let earlier = bundle(v(3, 1, NONE), &[&both]);
    assert_eq!(refused(unfit, &malformed, 2, 330), 1);
    assert_eq!(refused(unfit, &malformed, 1, 331), 2);
    assert_eq!(refused(closed, &malformed, 2, 331), 2);
    assert_eq!(refused(closed, &malformed, 1, 331), 11);
    assert_eq!(refused(words, &malformed, 1, 331), 3);
    assert_eq!(refused(words, &other_question, 1, 331), 4);
    assert_eq!(refused(words, &other_code, 1, 331), 5);
    assert_eq!(refused(words, &unbacked, 1, 331), 6);
    assert_eq!(refused(words, &earlier, 1, 331), 7);
    assert_eq!(refused(words, &good, 1, 331), 12);
    assert_eq!(refused(off, &good, 1, 331), 8);
    // the sender is held and the votes differ
    jump(&mut (module(4, 2), words), &good, 1);
}

/// "The sender's number is not tested: a sound site's own later bundle ends in 12."
#[test]
fn its_own_later_bundle() {
    let opened = opened_with(3, 2, 1, JUMP_ON);
    let mut ahead = opened.clone();
    let own = jump(&mut ahead, &first_none_vote(3), 0).words();
    // the site's first station, handed in again
    let (mut module, mut stale) = (ahead.0.clone(), opened.1);
    let answer = give_words(&mut module, &mut stale, &own, 0).0;
    assert_eq!((answer.number, stale == opened.1), (12, true));
    assert_eq!(module, ahead.0);
    // a module that did not code it is another one: the codes are those of the group's key
    let mut fresh = opened.clone();
    assert_eq!(jump(&mut fresh, &own, 0).words(), own);
}

/// A module that is at the later step, or beyond it, or on a later question, codes nothing.
#[test]
fn a_module_ahead() {
    let given = first_none_vote(3);
    for (question, step, number) in [
        (QUESTION, 2, 23),
        (QUESTION, 3, 12),
        (QUESTION, 4, 12),
        (QUESTION + 1, 0, 12),
        (QUESTION - 1, 131_071, 23),
    ] {
        let (mut module, mut station) = opened_with(3, 2, 1, JUMP_ON);
        module.last = Some((question, Step(step)));
        let answer = give_words(&mut module, &mut station, &given, 0).0;
        assert_eq!(answer.number, number, "{question:x} {step}");
    }
}

/// "A jump into round 65,535 does not close." Its votes do; the closed station's setting is off.
#[test]
fn into_the_last_round() {
    let both = [p(1, LAST_ROUND, 0, R), p(3, LAST_ROUND, 1, R)];
    let last_vote = |from| {
        let none = nones(&[1, 3], LAST_ROUND - 1);
        bundle(v(from, LAST_ROUND, NONE), &[&both, &none])
    };
    let mut site = opened_with(3, 2, 1, JUMP_ON);
    let proposal = bundle(p(3, LAST_ROUND, 1, R), &[&nones(&[1, 3], LAST_ROUND - 1)]);
    jump(&mut site, &proposal, 0);
    jump(&mut site, &last_vote(3), 0);
    let (answer, _) = give_words(&mut site.0, &mut site.1, &last_vote(1), 0);
    assert_eq!((answer.number, answer.count), (22, 0));
    assert_eq!((site.1[6], site.1[JUMP_WORD]), (1, JUMP_OFF));
    assert!(site.1[8..].iter().all(|word| *word == 0));
    let answer = give_words(&mut site.0, &mut site.1, &last_vote(1), 0).0;
    assert_eq!(answer.number, 11);
}

// ---- runs -----------------------------------------------------------------------------------------

/// The numbers that the calls of a run answered.
fn numbers(run: &Run) -> Vec<u32> {
    run.answered.iter().map(|(_, number)| *number).collect()
}

/// No module coded an INIT with 0, and sites 1 and 2 coded theirs with 1.
fn assert_nobody_proposed_0(run: &Run) {
    let inits = run.coded.iter().filter(|s| s.kind == Kind::Init);
    let inits: Vec<(u32, u32)> = inits.map(|s| (s.station, s.value)).collect();
    assert_eq!(inits, [(1, 1), (2, 1)]);
    assert_eq!(backing(3, 0), 2);
    for bundle in &run.bundles {
        assert_eq!(check(&KEY, 3, &bundle.words()), 0);
    }
}

/// "a jumper can copy a faulty first-round none vote and a coin then bring an unproposed value, as a
/// tested run at n 3 shows"
#[test]
fn an_unproposed_value_is_decided() {
    let mut run = backing_run(Author::default());
    assert_eq!(numbers(&run), [20, 20, 20, 0, 0, 23, 20, 23, 20, 23, 21]);
    let sites: Vec<u32> = run.answered.iter().map(|(site, _)| *site).collect();
    assert_eq!(sites, [1, 2, 1, 3, 3, 2, 2, 1, 1, 2, 2]);
    assert_nobody_proposed_0(&run);
    assert_eq!((run.decision(1), run.decision(2)), (NONE, 0));
    // given the vote that 2 wrote, 1 decides 0 too
    let votes = |b: &Bundle| b.main.kind == Kind::V && b.main.value == 0 && b.main.station == 2;
    let vote_2 = run.bundles.iter().position(votes).unwrap();
    run.written(1, vote_2, 21);
    assert_eq!(run.decision(1), 0);
}

/// Nor need the site that decides it have jump on.
#[test]
fn an_unproposed_value_is_decided_with_jump_off() {
    let run = other_backing_run(Author::default());
    let mut expected = vec![20; 18];
    expected[4] = 0;
    expected[5] = 0;
    expected[6] = 23;
    expected[16] = 21;
    expected[17] = 21;
    assert_eq!(numbers(&run), expected);
    assert_nobody_proposed_0(&run);
    assert_eq!((run.decision(1), run.decision(2)), (0, 0));
    let setting = |site: usize| run.author.machine.stations[site][JUMP_WORD];
    assert_eq!((setting(0), setting(1)), (JUMP_OFF, JUMP_ON));
}

/// Where the settings are mixed, two faulty sites that fall silent at n 5 can leave the three sound ones
/// where no bundle that they ever wrote moves any of them.
#[test]
fn mixed_settings_strand_a_group() {
    let mut run = silence(Author::default(), JUMP_OFF);
    let at = |run: &Run, site: usize| {
        let words = &run.author.machine.stations[site - 1];
        (step_and_decision(words), words[HEARD_WORD])
    };
    assert_eq!(at(&run, 1), ((Step(2), NONE), 0b00011));
    assert_eq!(at(&run, 2), ((Step(4), NONE), 0b00110));
    assert_eq!(at(&run, 3), ((Step(4), NONE), 0b00110));
    for faulty in [4, 5] {
        assert_eq!(at(&run, faulty).0, (Step(4), NONE));
    }
    let all = run.of_the_three();
    assert_eq!(all.len(), 8);
    let before = (
        run.author.machine.stations.clone(),
        run.author.machine.modules.clone(),
    );
    for (bundle, site) in all.into_iter().flat_map(|b| [(b, 1), (b, 2), (b, 3)]) {
        let number = run.give(site, bundle).number;
        let step = run.bundles[bundle].main.step();
        let expected = match step.cmp(&at(&run, site as usize).0 .0) {
            std::cmp::Ordering::Less => 7,
            std::cmp::Ordering::Equal => 9,
            std::cmp::Ordering::Greater => 8,
        };
        assert_eq!(number, expected);
    }
    assert_eq!(run.passed_proposal(), 12);
    let after = (&run.author.machine.stations, &run.author.machine.modules);
    assert!(before.0 == *after.0 && before.1 == *after.1);
    // nothing else was tried in the recorded run
    assert_eq!(stranded(Author::default()).answered, run.answered);
}

/// With jump on at site 1 too the three go on by themselves, and decide 1.
#[test]
fn with_jump_on_everywhere_behind_they_go_on() {
    let mut run = silence(Author::default(), JUMP_ON);
    let second_2 = |b: &Bundle| b.main.step() == Step(4) && b.main.station == 2;
    let given = run.bundles.iter().position(second_2).unwrap();
    let second_1 = run.written(1, given, 23);
    let votes = [run.written(2, second_1, 20), run.written(3, second_1, 20)];
    let vote_1 = run.written(1, votes[0], 23);
    assert_eq!(run.give(1, votes[0]).number, 0);
    run.written(1, votes[1], 21);
    for (site, other) in [(2, votes[1]), (3, votes[0])] {
        assert_eq!(run.give(site, vote_1).number, 0);
        run.written(site, other, 21);
    }
    assert_eq!([1, 2, 3].map(|site| run.decision(site)), [1, 1, 1]);
}

/// A coding call at a sound site that is refused by 12 leaves it as it is.
#[test]
fn the_passed_step_is_never_coded() {
    let mut site = opened_with(3, 2, 1, JUMP_ON);
    jump(&mut site, &first_none_vote(3), 0);
    let before = site.clone();
    for value in [0, 1] {
        let mut lent = p(2, 1, value, D).words();
        assert_eq!(code_plain(&mut site.0, &mut lent), 12);
    }
    assert_eq!(site, before);
}
