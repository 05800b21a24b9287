//! Lists of calls at random sites, made by the random tester and recorded.

use crate::cases::calls::Calls;
use crate::tester::jumps::{Jumps, JUMPS};
use crate::tester::list::List;
use crate::tester::random::one_list;

/// Lists in which no station jumps.
pub fn off_lists(calls: &mut Calls) {
    let lists = [
        (2, 2, 60),
        (3, 4, 150),
        (4, 4, 200),
        (5, 3, 200),
        (6, 3, 220),
        (7, 3, 220),
    ];
    for (n, count, turns) in lists {
        for seed in 0..count {
            let all_faulty = seed + 1 == count;
            record(
                calls,
                off_list(n, 1_000 * n as u64 + seed, all_faulty, turns),
            );
        }
    }
    record(calls, off_list(31, 31_000, false, 700));
    record(calls, off_list(31, 31_001, true, 60));
}

/// Lists with jump on, and with both settings.
pub fn jump_lists(calls: &mut Calls) {
    let sizes = [
        (2, 60),
        (3, 150),
        (4, 150),
        (5, 150),
        (6, 150),
        (7, 150),
        (31, 250),
    ];
    for (place, jumps) in JUMPS.into_iter().enumerate() {
        if jumps == Jumps::Off {
            continue;
        }
        calls
            .author
            .comment(&format!("jump: random lists, {jumps:?}"));
        for (n, turns) in sizes {
            let list = List {
                n,
                seed: 100 * u64::from(n) + place as u64,
                all_faulty: false,
                jumps,
                turns,
                asides: 0,
            };
            record(calls, list);
            if n == 4 {
                let all_faulty = true;
                record(calls, List { all_faulty, ..list });
            }
        }
    }
}

/// A list in which no station jumps.
fn off_list(n: u32, seed: u64, all_faulty: bool, turns: usize) -> List {
    List {
        n,
        seed,
        all_faulty,
        jumps: Jumps::Off,
        turns,
        asides: 0,
    }
}

/// Makes a list and records its calls.
fn record(calls: &mut Calls, list: List) {
    calls
        .author
        .comment(&format!("a random list at n {}", list.n));
    let author = std::mem::take(&mut calls.author);
    let (author, _) = one_list(list, author).expect("all holds");
    calls.author = author;
}
