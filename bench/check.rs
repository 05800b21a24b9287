//! Times the proved validity check beside the second implementation's, on valid bundles at n 31.
//!   check         prints the table
//!   check ours    runs the proved check alone, for a profiler
//!   check times   prints the proved check's times alone, at n 4, 7 and 31 and for refused bundles too,
//!                 for bench/compare

use std::hint::black_box;

use second::cases::samples::{both_values, bundle, inits, none_votes, proposals, v};
use second::cases::samples::{D, KEY, QUESTION, R};
use second::check::{check, is_backed, judge};
use second::group::{size_in_range, STATEMENT_WORDS};
use second::hmac::{bytes_of, Key};
use second::sha256::{compress, BLOCK_BYTES};
use second::words::{Bundle, Statement, NONE};

const N: u32 = 31;
const ROUNDS: usize = 200;
const CALLS: usize = 10;

/// What one check compresses where the key is prepared once: a pair of blocks for the key, and one for each statement.
fn pairs(case: &Case) -> usize {
    1 + case.words.len() / STATEMENT_WORDS
}

// The proved functions. A slice is a pointer and a length, a reference to an array a pointer.
#[link(name = "check_exports", kind = "static")]
extern "C" {
    fn check_exports_check(key: *const u8, n: u32, ws: *const u32, count: usize) -> u32;
    fn check_exports_judge(key: *const u8, n: u32, asked: u32, ws: *const u32, count: usize)
        -> u32;
    fn check_exports_compress(state: *mut u32, block: *const u32);
}

#[repr(C)]
struct Timespec {
    seconds: i64,
    nanoseconds: i64,
}

extern "C" {
    fn clock_gettime(clock: i32, time: *mut Timespec) -> i32;
}

/// Nanoseconds of processor time, so that what else runs on the machine counts less.
fn now() -> f64 {
    const CLOCK_PROCESS_CPUTIME_ID: i32 = 2;
    let mut time = Timespec {
        seconds: 0,
        nanoseconds: 0,
    };
    unsafe { clock_gettime(CLOCK_PROCESS_CPUTIME_ID, &mut time) };
    time.seconds as f64 * 1e9 + time.nanoseconds as f64
}

fn ours(key: &[u8], words: &[u32]) -> u32 {
    assert_eq!(key.len(), 32);
    unsafe { check_exports_check(key.as_ptr(), N, words.as_ptr(), words.len()) }
}

// ---- the second implementation with the key prepared once --------------------------------------

const INITIAL: [u32; 8] = [
    0x6a09e667, 0xbb67ae85, 0x3c6ef372, 0xa54ff53a, 0x510e527f, 0x9b05688c, 0x1f83d9ab, 0x5be0cd19,
];

/// The state after the block of a key of 32 bytes with a pad.
fn padded_key(key: &Key, pad: u8) -> [u32; 8] {
    let mut block = [pad; BLOCK_BYTES];
    for (byte, k) in block.iter_mut().zip(bytes_of(key)) {
        *byte ^= k;
    }
    let mut state = INITIAL;
    compress(&mut state, &block);
    state
}

/// The state after a key's block and a message that ends in the next block.
fn closed(keyed: [u32; 8], message: &[u32]) -> [u32; 8] {
    let mut block = [0; BLOCK_BYTES];
    for (bytes, word) in block.chunks_exact_mut(4).zip(message) {
        bytes.copy_from_slice(&word.to_be_bytes());
    }
    block[4 * message.len()] = 0x80;
    let bits = 8 * (BLOCK_BYTES + 4 * message.len()) as u64;
    block[BLOCK_BYTES - 8..].copy_from_slice(&bits.to_be_bytes());
    let mut state = keyed;
    compress(&mut state, &block);
    state
}

fn prepared_check(key: &Key, n: u32, words: &[u32]) -> u32 {
    if !size_in_range(n) {
        return 2;
    }
    let Some(Bundle { main, certificate }) = Bundle::read(words, n) else {
        return 3;
    };
    if !certificate.iter().all(|s| s.question == main.question) {
        return 4;
    }
    let (inner, outer) = (padded_key(key, 0x36), padded_key(key, 0x5c));
    let verifies =
        |s: &Statement| closed(outer, &closed(inner, &[s.word0(), s.question])) == s.code;
    if !verifies(&main) || !certificate.iter().all(verifies) {
        return 5;
    }
    if !is_backed(n, &main, &certificate) {
        return 6;
    }
    0
}

// ---- what is timed -----------------------------------------------------------------------------

struct Case {
    name: &'static str,
    words: Vec<u32>,
}

fn cases(n: u32) -> Vec<Case> {
    let second_group = bundle(
        v(1, 3, 1),
        &[
            proposals(n, 3, 1, &[D, R], true),
            proposals(n, 2, 1, &[D, R], false),
        ],
    );
    let none = bundle(
        v(1, 3, NONE),
        &[both_values(n, 3, &[R], true), none_votes(n, 2, false)],
    );
    let first = bundle(
        v(1, 1, 0),
        &[proposals(n, 1, 0, &[D], true), inits(n, 0, false)],
    );
    vec![
        Case {
            name: "rule 5, round 1",
            words: first.words(),
        },
        Case {
            name: "rule 5, two groups",
            words: second_group.words(),
        },
        Case {
            name: "rule 7",
            words: none.words(),
        },
    ]
}

/// A bundle as a station judges it that is on a question, with the number that it answers.
struct Given {
    name: &'static str,
    asked: u32,
    words: Vec<u32>,
    answer: u32,
}

/// By rule 7: valid, and refused by each number in the main statement, in the first of the certificate
/// and in its last.
fn givens(n: u32) -> Vec<Given> {
    let valid = cases(n).remove(2).words;
    let last = valid.len() - STATEMENT_WORDS;
    let given = |name, answer, changes: &[(usize, u32)]| {
        let mut words = valid.clone();
        for (place, bits) in changes {
            words[*place] ^= bits;
        }
        Given {
            name,
            asked: QUESTION,
            words,
            answer,
        }
    };
    let mut all = vec![
        given("valid", 0, &[]),
        given("3 in the main statement", 3, &[(1, 1 << 24)]),
        given("3 in the first of the certificate", 3, &[(11, 1 << 24)]),
        given("3 in the last", 3, &[(last, 1 << 24)]),
        given("4 in the first of the certificate", 4, &[(12, 1)]),
        given("4 in the last", 4, &[(last + 1, 1)]),
        given("5 in the main statement", 5, &[(3, 1)]),
        given("5 in the first of the certificate", 5, &[(13, 1)]),
        given("5 in the last", 5, &[(last + 2, 1)]),
    ];
    all.push(Given {
        name: "4 by the main statement",
        asked: QUESTION + 1,
        words: valid,
        answer: 4,
    });
    let six = bundle(
        v(1, 3, NONE),
        &[both_values(n, 3, &[R], true), none_votes(n, 1, false)],
    );
    all.push(Given {
        name: "6 in the second group",
        asked: QUESTION,
        words: six.words(),
        answer: 6,
    });
    all
}

fn ours_given(key: &[u8], n: u32, given: &Given) -> u32 {
    assert_eq!(key.len(), 32);
    let words = &given.words;
    unsafe { check_exports_judge(key.as_ptr(), n, given.asked, words.as_ptr(), words.len()) }
}

/// Nanoseconds for a call.
fn timed(mut call: impl FnMut()) -> f64 {
    let from = now();
    for _ in 0..CALLS {
        call();
    }
    (now() - from) / CALLS as f64
}

/// The checks that are compared. All must answer the same before they are timed.
fn agree(key: &[u8], case: &Case) {
    let mut changed = vec![case.words.clone()];
    for at in 0..case.words.len() {
        let mut words = case.words.clone();
        words[at] ^= 1;
        changed.push(words);
    }
    for (i, words) in changed.iter().enumerate() {
        let answer = ours(key, words);
        assert_eq!(answer, check(&KEY, N, words), "{}", case.name);
        assert_eq!(answer, prepared_check(&KEY, N, words), "{}", case.name);
        assert_eq!(answer == 0, i == 0, "{}", case.name);
    }
}

/// The compressions of one check alone: pairs, in each of which the second waits for the first.
fn our_compressions(pairs: usize, first: &[u32; 16], second: &mut [u32; 16]) {
    for _ in 0..pairs {
        let mut state = black_box(INITIAL);
        unsafe { check_exports_compress(state.as_mut_ptr(), first.as_ptr()) };
        second[..8].copy_from_slice(&state);
        state = black_box(INITIAL);
        unsafe { check_exports_compress(state.as_mut_ptr(), second.as_ptr()) };
        black_box(state);
    }
}

/// The proved check alone, each case by its best round.
fn our_times(key: &[u8]) {
    for n in [4, 7, 31] {
        for case in cases(n) {
            let call = || {
                let words = black_box(&case.words);
                let key = black_box(key);
                unsafe { check_exports_check(key.as_ptr(), n, words.as_ptr(), words.len()) }
            };
            print_best(n, case.name, &case.words, || assert_eq!(call(), 0));
        }
        for given in givens(n) {
            let judged = judge(&KEY, n, Some(given.asked), &given.words);
            assert_eq!(judged.err().unwrap_or(0), given.answer, "{}", given.name);
            let call = || ours_given(black_box(key), n, black_box(&given));
            print_best(n, given.name, &given.words, || {
                assert_eq!(call(), given.answer)
            });
        }
    }
}

fn print_best(n: u32, name: &str, words: &[u32], mut call: impl FnMut()) {
    let times = (0..ROUNDS).map(|_| timed(&mut call));
    let best = times.fold(f64::INFINITY, f64::min);
    let statements = words.len() / STATEMENT_WORDS;
    println!("check, n {n}, {name}\t{statements} statements\t{best:.0}");
}

fn main() {
    let key = bytes_of(&KEY);
    let cases = cases(N);
    match std::env::args().nth(1).as_deref() {
        Some("ours") => {
            for case in cases.iter().cycle().take(200_000) {
                assert_eq!(ours(&key, &case.words), 0);
            }
            return;
        }
        Some("times") => return our_times(&key),
        _ => {}
    }
    for case in &cases {
        agree(&key, case);
    }
    let mut best = vec![[f64::INFINITY; 4]; cases.len()];
    let mut shares = vec![Vec::new(); cases.len()];
    let first = [7; 16];
    let mut second = [7; 16];
    for _ in 0..ROUNDS {
        for ((case, best), shares) in cases.iter().zip(&mut best).zip(&mut shares) {
            let words = &case.words;
            let times = [
                timed(|| assert_eq!(ours(black_box(&key), black_box(words)), 0)),
                timed(|| our_compressions(pairs(case), &first, &mut second)),
                timed(|| assert_eq!(check(black_box(&KEY), N, black_box(words)), 0)),
                timed(|| assert_eq!(prepared_check(black_box(&KEY), N, black_box(words)), 0)),
            ];
            shares.push(times[1] / times[0]);
            for (best, time) in best.iter_mut().zip(times) {
                *best = best.min(time);
            }
        }
    }

    println!("Checking a valid bundle at n 31, of 26 statements in round 1 and else of 33: nanoseconds of processor time, the best of {ROUNDS} rounds. Ratios are of speed.");
    println!("Compressions: those of one check alone, two a statement and two for the key. Share: that time in the check's, the median of the rounds.");
    println!();
    let columns = [
        "",
        "ours",
        "Rust",
        "Rust, key",
        "ours/",
        "ours/",
        "compres-",
        "",
    ];
    row(columns.map(String::from));
    let columns = ["", "", "", "prepared", "Rust", "prepared", "sions", "share"];
    row(columns.map(String::from));
    let measured = best.into_iter().zip(&mut shares);
    for (case, ([ours, compressions, rust, prepared], shares)) in cases.iter().zip(measured) {
        shares.sort_by(f64::total_cmp);
        row([
            case.name.into(),
            format!("{ours:.0}"),
            format!("{rust:.0}"),
            format!("{prepared:.0}"),
            format!("{:.2}", rust / ours),
            format!("{:.2}", prepared / ours),
            format!("{compressions:.0}"),
            format!("{:.1}%", 100.0 * shares[ROUNDS / 2]),
        ]);
    }
}

fn row([name, a, b, c, d, e, f, g]: [String; 8]) {
    println!("{name:26} {a:>10} {b:>10} {c:>10} | {d:>6} {e:>8} | {f:>10} {g:>7}");
}
