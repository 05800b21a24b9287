//! What the bundles with several faults cover.

use second::cases::fault_cases::{combinations, NUMBERS};

/// Two numbers in two statements: each pair of numbers in each pair of places, in both orders.
#[test]
fn pairs_in_both_orders() {
    let all = combinations(&[0, 1, 4]);
    let pairs: Vec<_> = all.iter().filter(|faults| faults.len() == 2).collect();
    assert_eq!(pairs.len(), 3 * 12);
    for a in NUMBERS {
        for b in NUMBERS.into_iter().filter(|b| *b != a) {
            for (i, j) in [(0, 1), (0, 4), (1, 4)] {
                assert!(pairs.contains(&&vec![(i, a), (j, b)]), "{a} before {b}");
            }
        }
    }
}

/// Three numbers in three statements: every order of every three.
#[test]
fn threes_in_every_order() {
    let all = combinations(&[0, 2, 3]);
    let threes: Vec<_> = all.iter().filter(|faults| faults.len() == 3).collect();
    assert_eq!(threes.len(), 24);
    for faults in threes {
        let places: Vec<usize> = faults.iter().map(|(place, _)| *place).collect();
        let mut numbers: Vec<u32> = faults.iter().map(|(_, number)| *number).collect();
        assert_eq!(places, [0, 2, 3]);
        numbers.sort();
        numbers.dedup();
        assert_eq!(numbers.len(), 3);
    }
}
