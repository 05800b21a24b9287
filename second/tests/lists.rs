//! Lists of calls: the random tester in short, and two groups that go through all rounds.

mod common;
use common::*;
use second::check::check;
use second::group::{backing, quorum, LAST_ROUND, STATEMENT_WORDS};
use second::sealed::Module;
use second::station::{StationWords, FIRST_START, SECOND_START};
use second::tester::random::{many_lists, missing};
use second::words::{Bundle, Statement, NONE};

#[test]
fn random_lists() {
    let counts = many_lists(1, 140).unwrap();
    assert_eq!(missing(&counts), []);
    assert_eq!(counts.never_jumped_onto(), [""; 0]);
    assert!(counts.forged_conflicts > 0);
    assert!(counts.decisions > counts.backed_decisions && counts.backed_decisions > 0);
    assert!(counts.looked_at_first_votes());
}

/// Two stations give each other each bundle, with a coin each, until both are closed.
fn through_all_rounds(
    sites: &mut [(Module, StationWords); 2],
    mut bundles: [Vec<u32>; 2],
) -> [u32; 2] {
    let n = sites[0].0.n;
    loop {
        let [one, other] = &bundles;
        let first = give_words(&mut sites[0].0, &mut sites[0].1, other, 0);
        let second = give_words(&mut sites[1].0, &mut sites[1].1, one, 1);
        if first.0.number == 22 {
            assert_eq!(second.0.number, 22);
            return [sites[0].1[7], sites[1].1[7]];
        }
        assert!(first.0.number >= 20 && second.0.number >= 20);
        let round = sites[0].1[4];
        assert!(round <= LAST_ROUND);
        if round % 1000 == 1 || round == LAST_ROUND {
            assert_eq!(check(&KEY, n, &first.1), 0);
            assert_eq!(check(&KEY, n, &second.1), 0);
        }
        bundles = [first.1, second.1];
    }
}

/// Opened at n 2 with both values: both decide 1 in round 1, go on and close.
#[test]
fn all_rounds_with_a_decision() {
    let mut sites = [opened(2, 1, 0), opened(2, 2, 1)];
    let inits = [bundle(init(1, 0), &[]), bundle(init(2, 1), &[])];
    assert_eq!(through_all_rounds(&mut sites, inits), [1, 1]);
    assert_eq!(sites[0].1[6], 1);
}

/// Opened at n 3 with both values, the third site's INIT is 0: the first has two INITs for 0, the second
/// one for each. They propose 0 and 1, the coins differ in each round, and they close undecided.
#[test]
fn all_rounds_without_a_decision() {
    let mut sites = [opened(3, 1, 0), opened(3, 2, 1)];
    let first = give_words(
        &mut sites[0].0,
        &mut sites[0].1,
        &bundle(init(3, 0), &[]),
        0,
    );
    let second = give_words(
        &mut sites[1].0,
        &mut sites[1].1,
        &bundle(init(3, 0), &[]),
        0,
    );
    let bundles = [first.1, second.1];
    assert_eq!(through_all_rounds(&mut sites, bundles), [NONE, NONE]);
}

type Site = (Module, StationWords);

/// The INITs that a station keeps, zeros behind them and no second group.
fn kept(words: &StationWords) -> Vec<Statement> {
    let slots = words[FIRST_START..SECOND_START].chunks_exact(STATEMENT_WORDS);
    let group: Vec<Statement> = slots
        .map_while(|ten| Statement::read(ten, words[0]))
        .collect();
    let behind = FIRST_START + STATEMENT_WORDS * group.len();
    assert!(words[behind..].iter().all(|word| *word == 0));
    group
}

/// Gives a station INITs until it writes its proposal, whose certificate it then keeps.
fn propose(site: &mut Site, inits: &[Vec<u32>]) -> Bundle {
    let own = site.0.number as usize;
    for given in inits[own..].iter().chain(&inits[..own - 1]) {
        let (answer, written) = give_words(&mut site.0, &mut site.1, given, 0);
        if answer.number == 20 {
            let made = Bundle::read(&written, site.0.n).unwrap();
            assert_eq!(made.certificate.len(), backing(site.0.n, made.main.value));
            assert_eq!(kept(&site.1), made.certificate);
            return made;
        }
    }
    panic!("n stations open, and q are enough");
}

/// Gives a station proposals until it votes. It keeps the INITs of the lowest-numbered that it holds,
/// and writes them where all it holds are alike. Answers the vote.
fn vote<'a>(site: &mut Site, own: &'a Bundle, others: impl Iterator<Item = &'a Bundle>) -> Bundle {
    let mut held = vec![own];
    for given in others {
        let (answer, written) = give_words(&mut site.0, &mut site.1, &given.words(), 0);
        held.push(given);
        let lowest = held.iter().min_by_key(|b| b.main.station).unwrap();
        if answer.number == 0 {
            assert_eq!(kept(&site.1), lowest.certificate);
            continue;
        }
        assert_eq!((answer.number, check(&KEY, site.0.n, &written)), (20, 0));
        let made = Bundle::read(&written, site.0.n).unwrap();
        let alike = held.iter().all(|b| b.main.value == own.main.value);
        let (value, behind) = match alike {
            true => (own.main.value, &lowest.certificate[..]),
            false => (NONE, &[][..]),
        };
        assert_eq!(made.main.value, value);
        assert_eq!(&made.certificate[quorum(site.0.n)..], behind);
        return made;
    }
    panic!("n stations propose, and q are enough");
}

/// Groups from their opening to the votes of round 1, with any number of sites for 1: the INITs that the
/// stations keep, whichever order the proposals come in.
#[test]
fn inits_are_kept_from_the_opening_on() {
    let mut votes = [0; 3];
    for (n, ones) in (2..=9).flat_map(|n| (0..=n).map(move |ones| (n, ones))) {
        let value = |s: u32| u32::from(11 * s % n < ones);
        let inits: Vec<Vec<u32>> = (1..=n).map(|s| bundle(init(s, value(s)), &[])).collect();
        let opened_sites = || -> Vec<Site> { (1..=n).map(|s| opened(n, s, value(s))).collect() };
        for falling in [false, true] {
            let mut sites = opened_sites();
            let proposals: Vec<Bundle> = sites.iter_mut().map(|s| propose(s, &inits)).collect();
            for (site, own) in sites.iter_mut().zip(&proposals) {
                let others = proposals
                    .iter()
                    .filter(|b| b.main.station != own.main.station);
                let mut others: Vec<&Bundle> = others.collect();
                if falling {
                    others.reverse();
                }
                let made = vote(site, own, others.into_iter());
                votes[made.main.value as usize] += 1;
            }
        }
    }
    assert!(votes.iter().all(|count| *count > 50), "{votes:?}");
}
