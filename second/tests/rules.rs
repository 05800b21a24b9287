//! The seven rules, one by one, with what is nearly as they want it. All at n 4: q is 3, the
//! backings are 2 and 2.

mod common;
use common::*;
use second::check::check;
use second::words::{Statement, NONE};

fn valid(main: Statement, groups: &[&[Statement]]) {
    assert_eq!(check(&KEY, 4, &bundle(main, groups)), 0, "{main:?}");
}

fn not_backed(main: Statement, groups: &[&[Statement]]) {
    assert_eq!(check(&KEY, 4, &bundle(main, groups)), 6, "{main:?}");
}

#[test]
fn rule_1() {
    valid(init(1, 0), &[]);
    valid(init(4, 1), &[]);
    not_backed(init(1, 0), &[&[init(1, 0)]]);
}

#[test]
fn rule_2() {
    valid(p(1, 1, 0, D), &[&[init(1, 0), init(4, 0)]]);
    valid(p(3, 1, 1, D), &[&[init(1, 1), init(2, 1)]]);
    not_backed(p(1, 1, 0, D), &[]);
    not_backed(p(1, 1, 0, D), &[&[init(1, 0)]]);
    not_backed(p(1, 1, 0, D), &[&[init(1, 0), init(2, 0), init(3, 0)]]);
    not_backed(p(1, 1, 0, D), &[&[init(1, 0), init(2, 1)]]);
    not_backed(p(1, 1, 0, D), &[&[init(2, 0), init(1, 0)]]);
    not_backed(p(1, 1, 0, D), &[&[init(2, 0), init(2, 0)]]);
    not_backed(p(1, 1, 0, D), &[&ps(&[1, 2], 1, 0, D)]);
    not_backed(p(1, 1, 0, R), &[&[init(1, 0), init(2, 0)]]);
    not_backed(p(1, 2, 0, D), &[&[init(1, 0), init(2, 0)]]);
}

#[test]
fn rule_3() {
    valid(p(1, 2, 0, D), &[&ps(&[1, 2, 3], 1, 0, D)]);
    valid(
        p(1, 9, 1, D),
        &[&[p(2, 8, 1, D), p(3, 8, 1, R), p(4, 8, 1, R)]],
    );
    not_backed(p(1, 2, 0, D), &[&ps(&[1, 2], 1, 0, D)]);
    not_backed(p(1, 2, 0, D), &[&ps(&[1, 2, 3, 4], 1, 0, D)]);
    not_backed(p(1, 2, 0, D), &[&ps(&[1, 2, 3], 2, 0, D)]);
    not_backed(p(1, 3, 0, D), &[&ps(&[1, 2, 3], 1, 0, D)]);
    not_backed(p(1, 2, 0, D), &[&ps(&[1, 2, 3], 1, 1, D)]);
    not_backed(
        p(1, 2, 0, D),
        &[&[p(1, 1, 0, D), p(2, 1, 0, D), p(3, 1, 1, D)]],
    );
    not_backed(p(1, 2, 0, D), &[&[v(1, 1, 0), v(2, 1, 0), v(3, 1, 0)]]);
    not_backed(p(1, 2, 0, D), &[&nones(&[1, 2, 3], 1)]);
}

#[test]
fn rule_4() {
    valid(p(1, 2, 0, R), &[&nones(&[1, 2, 3], 1)]);
    valid(p(1, 7, 1, R), &[&nones(&[2, 3, 4], 6)]);
    not_backed(p(1, 2, 0, R), &[&nones(&[1, 2], 1)]);
    not_backed(p(1, 2, 0, R), &[&nones(&[1, 2, 3, 4], 1)]);
    not_backed(p(1, 2, 0, R), &[&nones(&[1, 2, 3], 2)]);
    not_backed(p(1, 3, 0, R), &[&nones(&[1, 2, 3], 1)]);
    not_backed(
        p(1, 2, 0, R),
        &[&[v(1, 1, NONE), v(2, 1, NONE), v(3, 1, 0)]],
    );
    not_backed(p(1, 2, 0, R), &[&[v(1, 1, 0), v(2, 1, 0), v(3, 1, 0)]]);
    not_backed(p(1, 2, 0, R), &[&ps(&[1, 2, 3], 1, 0, D)]);
    not_backed(p(1, 2, 0, D), &[&nones(&[1, 2, 3], 1)]);
}

/// Job 2 of 02: "In round 1 rule 5 now always has a second group: where the vote is for v, the
/// backing of v in INITs with v follows the P group".
#[test]
fn rule_5_in_round_1() {
    for value in [0, 1] {
        let main = v(1, 1, value);
        let first = ps(&[2, 3, 4], 1, value, D);
        let group = inits(&[1, 2], value);
        valid(main, &[&first, &group]);
        // any stations that rise within their group, and the same ones in both
        valid(main, &[&first, &inits(&[3, 4], value)]);
        valid(main, &[&ps(&[1, 2, 3], 1, value, D), &group]);
        valid(v(4, 1, value), &[&first, &inits(&[1, 4], value)]);
        // R-GETs among the proposals, or alone: flags are not asked
        let one_r = [p(1, 1, value, D), p(2, 1, value, R), p(4, 1, value, D)];
        valid(main, &[&one_r, &group]);
        valid(main, &[&ps(&[2, 3, 4], 1, value, R), &group]);
        // "Bundles without the group are refused by 6."
        not_backed(main, &[&first]);
        not_backed(main, &[&one_r]);
        not_backed(main, &[&ps(&[2, 3, 4], 1, value, R)]);
        not_backed(main, &[&group]);
        not_backed(main, &[]);
    }
}

/// The group with one fault.
#[test]
fn rule_5_in_round_1_with_other_groups() {
    for value in [0, 1] {
        let other = 1 - value;
        let first = ps(&[1, 2, 3], 1, value, D);
        let group = inits(&[1, 2], value);
        let refused = |behind: &[Statement]| not_backed(v(1, 1, value), &[&first, behind]);
        refused(&group[..1]);
        refused(&group[1..]);
        refused(&inits(&[1, 2, 3], value));
        refused(&inits(&[1, 2, 3, 4], value));
        refused(&inits(&[1, 2], other));
        refused(&[init(1, value), init(2, other)]);
        refused(&[init(1, other), init(2, value)]);
        refused(&[init(1, value), init(2, value), init(3, other)]);
        refused(&inits(&[2, 1], value));
        refused(&inits(&[2, 2], value));
        refused(&ps(&[1, 2], 1, value, D));
        refused(&ps(&[1, 2, 3], 1, value, D));
        refused(&[init(1, value), p(2, 1, value, D)]);
        refused(&[v(1, 1, value), v(2, 1, value)]);
        refused(&nones(&[1, 2, 3], 1));
        refused(&[&group[..], &group].concat());
        refused(&[&group[..], &first].concat());
        not_backed(v(1, 1, value), &[&group, &first]);
        not_backed(v(1, 1, other), &[&first, &group]);
        not_backed(v(1, 1, other), &[&first, &inits(&[1, 2], other)]);
        not_backed(v(1, 1, value), &[&ps(&[1, 2], 1, value, D), &group]);
        not_backed(v(1, 1, value), &[&ps(&[1, 2, 3, 4], 1, value, D), &group]);
        not_backed(v(1, 1, value), &[&ps(&[1, 2, 2], 1, value, D), &group]);
        not_backed(v(1, 1, value), &[&ps(&[1, 2, 3], 2, value, D), &group]);
        not_backed(
            v(1, 1, value),
            &[&[v(1, 1, value), v(2, 1, value), v(3, 1, value)], &group],
        );
        let mixed = [p(1, 1, value, D), p(2, 1, value, D), p(3, 1, other, D)];
        not_backed(v(1, 1, value), &[&mixed, &group]);
    }
}

/// Where the two backings differ the group has the size of its own value: at n 2, 3, 6, 7 and 31, and
/// the same size at n 4 and 5.
#[test]
fn rule_5_in_round_1_by_the_backing() {
    let sizes = [
        (2, [2, 1]),
        (3, [2, 1]),
        (4, [2, 2]),
        (5, [2, 2]),
        (6, [3, 2]),
        (7, [3, 2]),
        (31, [9, 8]),
    ];
    for (n, backings) in sizes {
        let q: Vec<u32> = (1..=n / 2 + 1).collect();
        for value in [0, 1] {
            for size in 0..=10.min(n) {
                let stations: Vec<u32> = (1..=size).collect();
                let groups = [ps(&q, 1, value, D), inits(&stations, value)];
                let words = bundle(v(1, 1, value), &[&groups[0], &groups[1]]);
                let expected = if size == backings[value as usize] {
                    0
                } else {
                    6
                };
                assert_eq!(check(&KEY, n, &words), expected, "n {n}, {size} of {value}");
            }
        }
    }
}

/// The INITs are judged like any other statement of a bundle: 3, 4 and 5 come before 6.
#[test]
fn rule_5_in_round_1_and_the_other_tests() {
    let first = ps(&[1, 2, 3], 1, 1, D);
    let number = |group: &[Statement]| check(&KEY, 4, &bundle(v(1, 1, 1), &[&first, group]));
    let changed = |change: fn(&mut Statement)| {
        let mut second = init(2, 1);
        change(&mut second);
        [init(1, 1), second.coded(&KEY)]
    };
    assert_eq!(number(&changed(|_| ())), 0);
    assert_eq!(number(&changed(|s| s.round = 1)), 3);
    assert_eq!(number(&changed(|s| s.flag = R)), 3);
    assert_eq!(number(&changed(|s| s.value = NONE)), 3);
    assert_eq!(number(&changed(|s| s.station = 0)), 3);
    assert_eq!(number(&changed(|s| s.station = 5)), 3);
    assert_eq!(number(&changed(|s| s.question ^= 1)), 4);
    for word in 0..8 {
        let mut group = changed(|_| ());
        group[1].code[word] ^= 1;
        assert_eq!(number(&group), 5);
        // a further INIT alone would be 6
        assert_eq!(number(&[&group[..], &[init(3, 1)]].concat()), 5);
    }
}

#[test]
fn rule_5_in_later_rounds() {
    let before = ps(&[2, 3, 4], 1, 1, D);
    let with_d = [p(1, 2, 1, R), p(2, 2, 1, R), p(4, 2, 1, D)];
    let r_only = ps(&[1, 2, 3], 2, 1, R);
    valid(v(1, 2, 1), &[&r_only]);
    valid(v(1, 2, 1), &[&with_d, &before]);
    not_backed(v(1, 2, 1), &[&with_d]);
    not_backed(v(1, 2, 1), &[&before, &with_d]);
    not_backed(v(1, 2, 1), &[&r_only, &before]);
    not_backed(v(1, 2, 0), &[&with_d, &before]);
    not_backed(v(1, 2, 1), &[&with_d, &ps(&[2, 3, 4], 1, 0, D)]);
    not_backed(v(1, 2, 1), &[&with_d, &ps(&[2, 3], 1, 1, D)]);
    not_backed(v(1, 2, 1), &[&with_d, &ps(&[1, 2, 3, 4], 1, 1, D)]);
    not_backed(v(1, 2, 1), &[&with_d, &ps(&[2, 3, 4], 2, 1, D)]);
    not_backed(v(1, 3, 1), &[&with_d, &before]);
    not_backed(v(1, 2, 1), &[&with_d, &nones(&[1, 2, 3], 1)]);
    not_backed(
        v(1, 2, 1),
        &[&[p(1, 2, 1, R), p(2, 2, 1, R), p(3, 2, 0, R)]],
    );
    // INITs are no group of a later round
    not_backed(v(1, 2, 1), &[&r_only, &inits(&[1, 2], 1)]);
    not_backed(v(1, 2, 1), &[&with_d, &inits(&[1, 2], 1)]);
    not_backed(v(1, 2, 1), &[&with_d, &inits(&[2, 3, 4], 1)]);
    not_backed(v(1, 2, 1), &[&with_d, &before, &inits(&[1, 2], 1)]);
    not_backed(v(1, 2, 1), &[]);
}

#[test]
fn rule_6() {
    let both = [p(1, 1, 0, D), p(2, 1, 0, D), p(3, 1, 1, D)];
    valid(v(1, 1, NONE), &[&both]);
    not_backed(v(1, 1, NONE), &[&ps(&[1, 2, 3], 1, 0, D)]);
    not_backed(v(1, 1, NONE), &[&ps(&[1, 2, 3], 1, 1, D)]);
    not_backed(
        v(1, 1, NONE),
        &[&[p(1, 1, 0, D), p(2, 1, 0, D), p(3, 1, 1, R)]],
    );
    not_backed(v(1, 1, NONE), &[&[p(1, 1, 0, D), p(3, 1, 1, D)]]);
    not_backed(v(1, 1, NONE), &[&both, &[p(4, 1, 1, D)]]);
    not_backed(v(1, 1, NONE), &[&both, &both]);
    // Job 2 of 02 is of votes for a value: a none vote has no INITs
    not_backed(v(1, 1, NONE), &[&both, &inits(&[1, 2], 0)]);
    not_backed(v(1, 1, NONE), &[&both, &inits(&[1, 2], 1)]);
    not_backed(v(1, 1, NONE), &[&both, &[init(1, 0)]]);
    not_backed(
        v(1, 1, NONE),
        &[&[p(1, 2, 0, D), p(2, 2, 0, D), p(3, 2, 1, D)]],
    );
    not_backed(v(1, 1, NONE), &[&[init(1, 0), init(2, 0), init(3, 1)]]);
    not_backed(v(1, 1, 0), &[&both]);
}

#[test]
fn rule_7() {
    let both = [p(1, 2, 0, D), p(2, 2, 0, R), p(3, 2, 1, R)];
    let two_d = [p(1, 2, 0, D), p(2, 2, 1, D), p(3, 2, 1, D)];
    let before = nones(&[1, 3, 4], 1);
    valid(v(1, 2, NONE), &[&both, &before]);
    // which flags the proposals have is not asked
    valid(v(1, 2, NONE), &[&two_d, &before]);
    not_backed(v(1, 2, NONE), &[&both]);
    not_backed(v(1, 2, NONE), &[&before, &both]);
    not_backed(v(1, 2, NONE), &[&ps(&[1, 2, 3], 2, 0, R), &before]);
    not_backed(v(1, 2, NONE), &[&ps(&[1, 2, 3], 2, 1, D), &before]);
    not_backed(v(1, 2, NONE), &[&both, &nones(&[1, 3], 1)]);
    not_backed(v(1, 2, NONE), &[&both, &nones(&[1, 2, 3, 4], 1)]);
    not_backed(v(1, 2, NONE), &[&both, &nones(&[1, 3, 4], 2)]);
    not_backed(
        v(1, 2, NONE),
        &[&both, &[v(1, 1, NONE), v(2, 1, NONE), v(3, 1, 0)]],
    );
    not_backed(v(1, 2, NONE), &[&both, &ps(&[1, 2, 3], 1, 0, D)]);
    not_backed(v(1, 2, NONE), &[&both, &inits(&[1, 2], 0)]);
    not_backed(v(1, 2, NONE), &[&both, &inits(&[1, 2, 3], 1)]);
    not_backed(v(1, 2, NONE), &[&both, &before, &inits(&[1, 2], 0)]);
    not_backed(v(1, 3, NONE), &[&both, &before]);
    not_backed(v(1, 2, 0), &[&both, &before]);
}
