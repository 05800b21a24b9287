//! The edges that 01 lists, and the readings of 01 that decide numbers. The readings are those of the
//! README, in its words.

mod common;
use common::*;
use second::check::check;
use second::group::{backing, quorum, LAST_ROUND};
use second::sealed::{code_coin, code_plain, make};
use second::station::{fits, give, open, refused_station, step_and_decision, FIRST_START};
use second::tester::thresholds::{least_backing, meeting_number};
use second::words::{step, Bundle, Kind, Statement, Step, NONE};

/// The thresholds against their meaning, at every n.
#[test]
fn thresholds_by_their_meaning() {
    for n in 2..=31 {
        assert_eq!(quorum(n), meeting_number(n));
        assert_eq!(backing(n, 0), least_backing(n, 0));
        assert_eq!(backing(n, 1), least_backing(n, 1));
    }
}

/// The steps of any round of 32 bits are numbers of their own, in their order.
#[test]
fn a_step_holds_64_bits() {
    assert_eq!(step(Kind::P, 1 << 31), Step(1 << 32));
    assert_eq!(step(Kind::V, u32::MAX), Step((1 << 33) - 1));
    assert!(step(Kind::V, LAST_ROUND) < step(Kind::P, u32::MAX));
}

#[test]
fn sizes_1_and_32() {
    for (n, number, returned) in [
        (1, 1, 2),
        (2, 1, 0),
        (31, 31, 0),
        (32, 1, 2),
        (31, 32, 2),
        (2, 0, 2),
    ] {
        let (answer, module) = make(&KEY, n, number);
        assert_eq!(answer, returned);
        assert_eq!(module.words() == [0; 13], returned == 2);
    }
    let words = bundle(init(1, 0), &[]);
    for (n, returned) in [(0, 2), (1, 2), (2, 0), (31, 0), (32, 2), (u32::MAX, 2)] {
        assert_eq!(check(&KEY, n, &words), returned);
    }
}

#[test]
fn output_of_330_and_331_words() {
    let (mut module, mut station) = opened(3, 1, 0);
    let given = bundle(init(2, 1), &[]);
    let before = (module.clone(), station);
    let mut short = [7; 330];
    assert_eq!(
        give(&mut module, &mut station, &given, 0, &mut short).number,
        1
    );
    assert_eq!(
        (module.clone(), station, short),
        (before.0, before.1, [7; 330])
    );
    let mut enough = [7; 331];
    let answer = give(&mut module, &mut station, &given, 0, &mut enough);
    assert_eq!((answer.number, answer.count), (20, 21));
    assert!(enough[21..].iter().all(|word| *word == 7));
    let (answer, closed) = open(&mut module, QUESTION + 1, 0, 0, &mut short);
    assert_eq!((answer.number, closed), (1, refused_station()));
}

/// "Count 33 or more is 3; up to 32 with the right length is well-formed at every n."
#[test]
fn counts_of_32_and_33() {
    let many = |count: usize| vec![init(1, 0); count];
    for n in [2, 4, 31] {
        assert_eq!(check(&KEY, n, &bundle(v(1, 2, 0), &[&many(32)])), 6);
        assert_eq!(check(&KEY, n, &bundle(v(1, 2, 0), &[&many(33)])), 3);
    }
    let stations: Vec<u32> = (1..=16).collect();
    let groups = [ps(&stations, 2, 0, D), ps(&stations, 1, 0, D)];
    let full = bundle(v(31, 2, 0), &[&groups[0], &groups[1]]);
    assert_eq!((full.len(), check(&KEY, 31, &full)), (331, 0));
}

#[test]
fn no_words_and_groups_of_q_less_1() {
    assert_eq!(check(&KEY, 4, &[]), 3);
    let vote = |stations: &[u32]| {
        let groups = [ps(stations, 1, 0, D), inits(&[1, 2], 0)];
        bundle(v(1, 1, 0), &[&groups[0], &groups[1]])
    };
    assert_eq!(check(&KEY, 4, &vote(&[1, 2, 3])), 0);
    assert_eq!(check(&KEY, 4, &vote(&[1, 2])), 6);
    assert_eq!(check(&KEY, 4, &vote(&[1, 2, 3, 4])), 6);
    assert_eq!(check(&KEY, 4, &vote(&[1, 2, 2])), 6);
    let later = |stations: &[u32]| bundle(v(1, 2, 0), &[&ps(stations, 2, 0, R)]);
    assert_eq!(check(&KEY, 4, &later(&[1, 2, 3])), 0);
    assert_eq!(check(&KEY, 4, &later(&[1, 2])), 6);
    assert_eq!(check(&KEY, 4, &later(&[1, 2, 3, 4])), 6);
    assert_eq!(check(&KEY, 4, &later(&[1, 2, 2])), 6);
}

/// A station of 3 voting in the last round holds its own vote and is given another.
fn last_votes(own: u32, other: u32, decision: u32) -> (u32, u32, u32) {
    let mut module = module(3, 1);
    // "12 is not tested where no bundle would be written."
    module.last = Some((u32::MAX, Step(131_071)));
    let group = ps(&[1, 2], LAST_ROUND, 0, R);
    let first: &[Statement] = if own == 0 { &group } else { &[] };
    let mut words = station(3, v(1, LAST_ROUND, own), &[], [first, &[]]);
    words[7] = decision;
    let certificate = match other {
        NONE => vec![
            p(1, LAST_ROUND, 0, R),
            p(2, LAST_ROUND, 1, R),
            v(1, LAST_ROUND - 1, NONE),
            v(3, LAST_ROUND - 1, NONE),
        ],
        _ => group.clone(),
    };
    let given = bundle(v(2, LAST_ROUND, other), &[&certificate]);
    let (answer, _) = give_words(&mut module, &mut words, &given, 0);
    assert_eq!(answer.count, 0);
    let expected_front = [3, 1, QUESTION, 2, LAST_ROUND, 0, 1];
    assert_eq!(words[..7], expected_front);
    assert!(words[8..].iter().all(|word| *word == 0));
    let again = give_words(&mut module, &mut words, &given, 0).0.number;
    // "A coin out of range is 2 in every giving", at a closed station too
    assert_eq!(give_words(&mut module, &mut words, &given, 2).0.number, 2);
    (answer.number, words[7], again)
}

#[test]
fn closing_behind_the_last_round() {
    assert_eq!(last_votes(0, 0, NONE), (22, 0, 11));
    assert_eq!(last_votes(0, NONE, NONE), (22, NONE, 11));
    assert_eq!(last_votes(NONE, NONE, NONE), (22, NONE, 11));
    assert_eq!(last_votes(0, 0, 1), (22, 1, 11));
    assert_eq!(last_votes(NONE, 0, 0), (22, 0, 11));
}

/// "A P of round 1 flagged R-GET is well-formed; it can be coded by the coin way, and stand in the P
/// groups of rules 3 and 5, not of rule 6. As a main statement it is 6."
#[test]
fn first_round_r_get() {
    let mut coder = module(3, 1);
    let mut lent = p(1, 1, 0, R).words();
    assert_eq!(code_coin(&mut coder, &mut lent, 1), 0);
    assert_eq!(lent, p(1, 1, 1, R).words());
    assert_eq!(check(&KEY, 3, &bundle(p(1, 1, 0, R), &[])), 6);
    assert_eq!(check(&KEY, 3, &bundle(p(1, 1, 1, R), &[&[init(1, 1)]])), 6);
    assert_eq!(check(&KEY, 3, &bundle(p(1, 1, 1, D), &[&[init(1, 1)]])), 0);
    let group = [p(1, 1, 0, R), p(2, 1, 0, D)];
    let backing = inits(&[1, 3], 0);
    assert_eq!(check(&KEY, 3, &bundle(v(1, 1, 0), &[&group, &backing])), 0);
    assert_eq!(check(&KEY, 3, &bundle(v(1, 1, 0), &[&group])), 6);
    assert_eq!(check(&KEY, 3, &bundle(p(1, 2, 0, D), &[&group])), 0);
    let both = [p(1, 1, 0, R), p(2, 1, 1, D)];
    assert_eq!(check(&KEY, 3, &bundle(v(1, 1, NONE), &[&both])), 6);
    let both = [p(1, 1, 0, D), p(2, 1, 1, D)];
    assert_eq!(check(&KEY, 3, &bundle(v(1, 1, NONE), &[&both])), 0);
}

/// "A second group that rule 5 does not ask for is 6", and so is one of another kind.
#[test]
fn second_group_only_where_asked() {
    let before = ps(&[1, 2], 1, 0, D);
    let backing = inits(&[1, 2], 0);
    let r_only = ps(&[1, 2], 2, 0, R);
    let with_d = [p(1, 2, 0, R), p(2, 2, 0, D)];
    assert_eq!(check(&KEY, 3, &bundle(v(1, 2, 0), &[&r_only])), 0);
    assert_eq!(check(&KEY, 3, &bundle(v(1, 2, 0), &[&r_only, &before])), 6);
    assert_eq!(check(&KEY, 3, &bundle(v(1, 2, 0), &[&with_d])), 6);
    assert_eq!(check(&KEY, 3, &bundle(v(1, 2, 0), &[&with_d, &before])), 0);
    assert_eq!(check(&KEY, 3, &bundle(v(1, 1, 0), &[&before])), 6);
    assert_eq!(check(&KEY, 3, &bundle(v(1, 1, 0), &[&before, &before])), 6);
    assert_eq!(check(&KEY, 3, &bundle(v(1, 1, 0), &[&before, &backing])), 0);
    assert_eq!(check(&KEY, 3, &bundle(v(1, 2, 0), &[&r_only, &backing])), 6);
    assert_eq!(check(&KEY, 3, &bundle(v(1, 2, 0), &[&with_d, &backing])), 6);
}

/// "Station 0 or over n is 3 everywhere, in coding too. Another station of 1 to n to code is 5." "The
/// coin way takes a value of 0 or 1 and replaces it." A coin out of range is 2.
#[test]
fn coding_stations_and_coins() {
    let mut fresh = module(4, 2);
    for (station, number) in [(0, 3), (5, 3), (255, 3), (1, 5), (4, 5), (2, 0)] {
        let statement = Statement {
            station,
            ..init(2, 1)
        };
        assert_eq!(
            code_plain(&mut fresh, &mut statement.words()),
            number,
            "{station}"
        );
    }
    for value in [0, 1, 2, 3] {
        let mut fresh = module(4, 2);
        let mut lent = Statement {
            value,
            ..p(2, 2, 0, R)
        }
        .words();
        let expected = if value <= 1 { 0 } else { 3 };
        assert_eq!(code_coin(&mut fresh, &mut lent, 1), expected);
    }
    let mut fresh = module(4, 2);
    assert_eq!(code_plain(&mut fresh, &mut p(2, 2, 0, R).words()), 3);
    assert_eq!(code_coin(&mut fresh, &mut p(2, 2, 0, D).words(), 0), 3);
    assert_eq!(code_coin(&mut fresh, &mut p(2, 2, 0, R).words(), 2), 2);
    assert_eq!(code_coin(&mut fresh, &mut v(2, 2, 0).words(), 0), 3);
    assert_eq!(fresh, module(4, 2));
}

/// "10 is judged over the held and the new together, before it is known whether the step ends." In
/// round 1 proposals do not conflict.
#[test]
fn conflicts() {
    let mut own = module(7, 1);
    let first = ps(&[1, 2, 3, 4], 1, 0, D);
    let mut words = station(7, p(1, 2, 0, D), &[], [&first, &[]]);
    let given = bundle(p(2, 2, 1, D), &[&ps(&[4, 5, 6, 7], 1, 1, D)]);
    assert_eq!(give_words(&mut own, &mut words, &given, 0).0.number, 10);
    let votes = ps(&[1, 2, 3, 4], 1, 0, D);
    let mut words = station(7, v(1, 1, 0), &[], [&votes, &[]]);
    let groups = [ps(&[4, 5, 6, 7], 1, 1, D), inits(&[6, 7], 1)];
    let given = bundle(v(2, 1, 1), &[&groups[0], &groups[1]]);
    assert_eq!(give_words(&mut own, &mut words, &given, 0).0.number, 10);
    let mut words = station(7, p(1, 1, 0, D), &[], [&inits(&[1, 2, 3], 0), &[]]);
    let given = bundle(p(2, 1, 1, D), &[&[init(1, 1), init(2, 1)]]);
    assert_eq!(give_words(&mut own, &mut words, &given, 0).0.number, 0);
    // held already: any further one is 10
    let group = ps(&[1, 2, 3, 4], 1, 1, D);
    let mut words = station(7, v(2, 1, 0), &[v(1, 1, 1)], [&group, &[]]);
    let both = [p(1, 1, 0, D), p(2, 1, 1, D), p(3, 1, 0, D), p(4, 1, 0, D)];
    let given = bundle(v(3, 1, NONE), &[&both]);
    let mut second = module(7, 2);
    assert_eq!(give_words(&mut second, &mut words, &given, 0).0.number, 10);
}

/// "Codes are not verified again. A closed station fits if n and number are the module's", whatever its
/// set says. Conflicts are no part of fit either, nor is an R-GET of round 1.
#[test]
fn what_fit_does_not_ask() {
    let group = ps(&[1, 2, 3, 4], 1, 1, D);
    let mut words = station(7, v(2, 1, 0), &[v(1, 1, 1)], [&group, &[]]);
    assert!(fits(&words, &module(7, 2)));
    words[11] ^= 1;
    words[321] ^= 1;
    assert!(fits(&words, &module(7, 2)));
    let mut closed = words;
    closed[6] = 1;
    closed[8] = u32::MAX;
    closed[3..6].copy_from_slice(&[1, 0, 0]);
    assert!(fits(&closed, &module(7, 2)));
    assert!(!fits(&closed, &module(7, 1)));
    assert!(!fits(&closed, &module(6, 2)));
    let backing = inits(&[1, 2, 3], 0);
    let round_1_r_get = station(7, p(2, 1, 0, D), &[p(3, 1, 0, R)], [&backing, &[]]);
    assert!(fits(&round_1_r_get, &module(7, 2)));
}

/// "Proposing in round 1 there is always a first group: the certificate of the lowest-numbered held
/// proposal, whole. It is the backing of that proposal's value in INITs with it. Each held proposal
/// supplies, whatever its flag".
#[test]
fn the_group_of_round_1() {
    let own = module(7, 2);
    for flag in [D, R] {
        for (value, size) in [(0, 3), (1, 2)] {
            let held = [p(4, 1, 1 - value, D)];
            let with = |group: &[Statement]| {
                let words = station(7, p(2, 1, value, flag), &held, [group, &[]]);
                fits(&words, &own)
            };
            let stations = [1, 4, 5, 7];
            for taken in 0..=4 {
                let group = inits(&stations[..taken], value);
                assert_eq!(with(&group), taken == size, "{taken} of {value}");
                assert!(!with(&inits(&stations[..taken], 1 - value)));
            }
            assert!(!with(&ps(&[1, 2, 3, 4], 1, value, D)));
            assert!(!with(&ps(&stations[..size], 1, value, D)));
            assert!(!with(&inits(&[4, 1, 5][..size], value)));
            assert!(!with(&inits(&[4, 4, 5][..size], value)));
            // the second group is for later rounds
            let group = inits(&stations[..size], value);
            let words = station(7, p(2, 1, value, flag), &held, [&group, &group]);
            assert!(!fits(&words, &own));
            // the lowest-numbered is another's
            let lower = [p(1, 1, 1 - value, flag)];
            let words = station(7, p(2, 1, value, flag), &lower, [&group, &[]]);
            assert!(!fits(&words, &own));
            let words = station(
                7,
                p(2, 1, 1 - value, D),
                &[p(1, 1, value, flag)],
                [&group, &[]],
            );
            assert!(fits(&words, &own));
        }
    }
}

/// "A refused making returns the module of zeros; a refused opening the station that is none": no
/// decision is named, and every call on them is refused by 1 or 2.
#[test]
fn the_module_and_the_station_that_are_none() {
    let none = refused_station();
    assert_eq!(none[..8], [0, 0, 0, 0, 0, 0, 1, NONE]);
    assert!(none[8..].iter().all(|word| *word == 0));
    assert_eq!(step_and_decision(&none), (Step(0), NONE));
    let no_module = make(&KEY, 32, 1).1;
    for holder in [no_module.clone(), module(2, 1), module(31, 31)] {
        for (length, number) in [(0, 1), (330, 1), (331, 2), (400, 2)] {
            for words in [&[][..], &bundle(init(1, 0), &[])] {
                let (mut holder, mut station) = (holder.clone(), none);
                let mut lent = vec![7; length];
                let answer = give(&mut holder, &mut station, words, 0, &mut lent);
                assert_eq!((answer.number, answer.count, station), (number, 0, none));
            }
            let answer = open(&mut no_module.clone(), 1, 0, 1, &mut vec![7; length]);
            assert_eq!((answer.0.number, answer.1), (number, none));
        }
        assert!(!fits(&none, &holder));
    }
    assert_eq!(code_plain(&mut no_module.clone(), &mut [0; 10]), 2);
    assert_eq!(code_coin(&mut no_module.clone(), &mut [0; 10], 0), 2);
}

/// "12 is not tested where no bundle would be written": after an opening on a later question an
/// earlier station keeps what it is given; where it would write, the module says 12.
#[test]
fn earlier_questions() {
    let (mut module, mut station) = opened(5, 1, 0);
    let (answer, _) = open(&mut module, QUESTION + 1, 1, 0, &mut [0; 331]);
    assert_eq!(answer.number, 20);
    let mut given = |number| {
        let words = bundle(init(number, 1), &[]);
        give_words(&mut module, &mut station, &words, 0).0.number
    };
    assert_eq!(given(2), 0);
    assert_eq!(given(2), 9);
    assert_eq!(given(3), 12);
    assert_eq!(given(4), 12);
}

/// "The own statement counts among the held and its certificate among those that supply a group".
#[test]
fn own_certificate_supplies() {
    let mut module = module(3, 1);
    let own_group = ps(&[1, 3], 1, 0, D);
    let other_group = ps(&[2, 3], 1, 0, D);
    let mut words = station(3, p(1, 2, 0, D), &[], [&own_group, &[]]);
    let given = bundle(p(2, 2, 0, D), &[&other_group]);
    let (answer, written) = give_words(&mut module, &mut words, &given, 0);
    assert_eq!(answer.number, 20);
    let made = Bundle::read(&written, 3).unwrap();
    assert_eq!((made.main.kind, made.main.value), (Kind::V, 0));
    assert_eq!(made.certificate[2..], own_group);
}

/// The same in round 1, where the group is INITs: Job 2 of 02, "taken from the lowest-numbered
/// proposer's certificate". At n 3 the own and one other make a quorum.
#[test]
fn own_certificate_supplies_in_round_1() {
    for (own, other) in [(1, 2), (2, 1), (3, 1), (1, 3)] {
        for (own_flag, value) in [(D, 0), (D, 1), (R, 0), (R, 1)] {
            let of = |stations: [u32; 2]| inits(&stations[..backing(3, value)], value);
            let (own_group, other_group) = (of([2, 3]), of([1, 3]));
            let mut module = module(3, own);
            let mut words = station(3, p(own, 1, value, own_flag), &[], [&own_group, &[]]);
            let given = bundle(p(other, 1, value, D), &[&other_group]);
            let (answer, written) = give_words(&mut module, &mut words, &given, 0);
            assert_eq!(answer.number, 20);
            assert_eq!(check(&KEY, 3, &written), 0);
            let made = Bundle::read(&written, 3).unwrap();
            assert_eq!((made.main.kind, made.main.value), (Kind::V, value));
            let lowest = if own < other { own_group } else { other_group };
            assert_eq!(made.certificate[2..], lowest);
        }
    }
}

/// "Where the vote is none the group is not written: the bundle has its q proposals and nothing more."
#[test]
fn a_first_none_vote_has_no_inits() {
    for value in [0, 1] {
        let mut module = module(3, 2);
        let kept = inits(&[2, 3][..backing(3, value)], value);
        let mut words = station(3, p(2, 1, value, D), &[], [&kept, &[]]);
        let other = 1 - value;
        let given = bundle(
            p(3, 1, other, D),
            &[&inits(&[1, 2][..backing(3, other)], other)],
        );
        let (answer, written) = give_words(&mut module, &mut words, &given, 0);
        assert_eq!((answer.number, check(&KEY, 3, &written)), (20, 0));
        let made = Bundle::read(&written, 3).unwrap();
        assert_eq!((made.main.value, made.certificate.len()), (NONE, 2));
        // nor does the station that votes none keep a group
        assert!(words[FIRST_START..].iter().all(|word| *word == 0));
    }
}

/// "of whose certificates the first q statements are taken. In round 1 the INITs behind these q are not
/// kept": they do not go into the next proposal.
#[test]
fn a_first_vote_keeps_its_proposals_only() {
    let mut module = module(3, 1);
    let mut words = station(3, v(1, 1, NONE), &[], [&[], &[]]);
    let first = ps(&[1, 2], 1, 0, D);
    let given = bundle(v(2, 1, 0), &[&first, &inits(&[1, 3], 0)]);
    let (answer, written) = give_words(&mut module, &mut words, &given, 0);
    assert_eq!((answer.number, check(&KEY, 3, &written)), (20, 0));
    let made = Bundle::read(&written, 3).unwrap();
    assert_eq!((made.main.round, made.main.value), (2, 0));
    assert_eq!(made.certificate, first);
}
