//! What the script of calls contains: which calls, at which n, and which numbers they return.

use std::collections::{BTreeMap, BTreeSet};

use second::cases::generate::script;
use second::group::{backing, quorum};
use second::station::{JUMP_OFF, JUMP_ON, JUMP_WORD};
use second::tester::jumps::{jump_kind, JUMP_KINDS};
use second::tester::script::{read_line, Command, Machine, Report};
use second::words::{Bundle, Kind, NONE};

/// A call of the script: n of its module before the call, the words that it is given to judge, and
/// what it left.
struct Call {
    command: Command,
    n: u32,
    given: Vec<u32>,
    report: Report,
}

fn all_calls() -> Vec<Call> {
    let (script, _) = script();
    let mut machine = Machine::default();
    let mut calls = Vec::new();
    for line in script.lines().filter(|line| !line.starts_with('#')) {
        let command = read_line(line).expect("a command");
        let size = |m: usize| machine.modules[m][8];
        let words = |b: usize| machine.buffers[b].seen().to_vec();
        let (n, given) = match command {
            Command::Make(_, _, n, _) => (n, Vec::new()),
            Command::Check(m, b) | Command::Plain(m, b) | Command::Toss(m, b, _) => {
                (size(m), words(b))
            }
            Command::Give(m, _, b, ..) => (size(m), words(b)),
            Command::Open(m, ..) => (size(m), Vec::new()),
            _ => (0, Vec::new()),
        };
        if let Some(report) = machine.carry_out(&command) {
            calls.push(Call {
                command,
                n,
                given,
                report,
            });
        }
    }
    calls
}

fn keyword(command: &Command) -> String {
    let line = command.line();
    line.split(' ').next().expect("a keyword").to_string()
}

/// How often each call returns each number.
fn returned(calls: &[Call]) -> BTreeMap<String, BTreeMap<u32, usize>> {
    let mut counts: BTreeMap<String, BTreeMap<u32, usize>> = BTreeMap::new();
    for call in calls {
        let of_call = counts.entry(keyword(&call.command)).or_default();
        *of_call.entry(call.report.number).or_default() += 1;
    }
    counts
}

/// Every number of the table of returns, for each call that can return it.
#[test]
fn every_number_is_returned() {
    let calls = all_calls();
    let counts = returned(&calls);
    for (call, of_call) in &counts {
        let total: usize = of_call.values().sum();
        println!("{call}: {total} calls, by number {of_call:?}");
    }
    let wanted: [(&str, &[u32]); 6] = [
        ("check", &[0, 2, 3, 4, 5, 6]),
        (
            "give",
            &[0, 1, 2, 3, 4, 5, 6, 7, 8, 9, 10, 11, 12, 20, 21, 22, 23],
        ),
        ("make", &[0, 2]),
        ("open", &[1, 2, 12, 20]),
        ("plain", &[0, 2, 3, 5, 12]),
        ("toss", &[0, 2, 3, 5, 12]),
    ];
    for (call, numbers) in wanted {
        let found: Vec<u32> = counts[call].keys().copied().collect();
        assert_eq!(found, numbers, "{call}");
    }
    assert_eq!(counts.len(), wanted.len());
}

/// "thousands of calls at n 2 to 7 and 31", and n 1 and 32 in each call.
#[test]
fn every_size_is_called() {
    let calls = all_calls();
    let mut sizes: BTreeMap<(String, u32), usize> = BTreeMap::new();
    let mut all: BTreeMap<u32, usize> = BTreeMap::new();
    for call in &calls {
        *sizes.entry((keyword(&call.command), call.n)).or_default() += 1;
        *all.entry(call.n).or_default() += 1;
    }
    let gives: Vec<_> = sizes
        .iter()
        .filter(|((call, _), _)| call == "give")
        .collect();
    println!("calls by n: {all:?}; gives: {gives:?}");
    for n in [2, 3, 4, 5, 6, 7, 31] {
        assert!(all[&n] >= 1_000, "n {n}: {}", all[&n]);
    }
    for n in [1, 32] {
        for call in ["check", "give", "make", "open", "plain", "toss"] {
            assert!(sizes.contains_key(&(call.to_string(), n)), "{call} at {n}");
        }
    }
}

/// 330 and 331 words lent; bundles of 0 words, of count 32 and of count 33; the closing with and
/// without a decision; the shortest and the longest bundle written.
#[test]
fn every_edge_is_called() {
    let calls = all_calls();
    let has = |wanted: &dyn Fn(&Call) -> bool| calls.iter().any(wanted);
    for keyword_wanted in ["open", "give"] {
        for (lent, refused) in [(330, true), (331, false)] {
            assert!(has(&|call| keyword(&call.command) == keyword_wanted
                && call.report.lent.0.len() == lent
                && (call.report.number == 1) == refused));
        }
    }
    for keyword_wanted in ["check", "give"] {
        for (words, malformed) in [(0, true), (331, false), (341, true)] {
            assert!(has(&|call| keyword(&call.command) == keyword_wanted
                && call.given.len() == words
                && (call.report.number == 3) == malformed));
        }
    }
    for decision in [0, 1, 2] {
        assert!(has(
            &|call| call.report.number == 22 && call.report.station.1[7] == decision
        ));
    }
    for count in [11, 331] {
        assert!(has(&|call| call.report.count == count));
    }
}

/// First proposals of both values at every n, each with its backing.
#[test]
fn every_first_proposal_is_made() {
    let calls = all_calls();
    for n in 2..=31 {
        let of_n = calls.iter().filter(|call| call.n == n);
        let written = of_n.filter_map(|c| Bundle::read(&c.report.lent.1[..c.report.count], n));
        let first: Vec<Bundle> = written
            .filter(|b| (b.main.kind, b.main.round) == (Kind::P, 1))
            .collect();
        for value in [0, 1] {
            let mut made = first.iter().filter(|b| b.main.value == value).peekable();
            assert!(made.peek().is_some(), "n {n}, value {value}");
            assert!(made.all(|b| b.certificate.len() == backing(n, value)));
        }
    }
}

/// A vote of round 1 for this value.
fn is_first_vote(bundle: &Bundle, value: u32) -> bool {
    let main = &bundle.main;
    (main.kind, main.round, main.value) == (Kind::V, 1, value)
}

/// First votes for both values at every n, each with its proposals and the backing in INITs.
#[test]
fn every_first_vote_is_made() {
    let calls = all_calls();
    for n in 2..=31 {
        let of_n = calls.iter().filter(|call| call.n == n);
        let written = of_n.filter_map(|c| Bundle::read(&c.report.lent.1[..c.report.count], n));
        let written: Vec<Bundle> = written.collect();
        for value in [0, 1] {
            let mut made = written
                .iter()
                .filter(|b| is_first_vote(b, value))
                .peekable();
            assert!(made.peek().is_some(), "n {n}, value {value}");
            for one in made {
                let (first, inits) = one.certificate.split_at(quorum(n));
                assert!(first.iter().all(|s| s.kind == Kind::P && s.value == value));
                assert!(inits
                    .iter()
                    .all(|s| s.kind == Kind::Init && s.value == value));
                assert_eq!(inits.len(), backing(n, value));
            }
        }
    }
}

/// "Bundles without the group are refused by 6": q good proposals alone, at every n in a check and at
/// several in a giving. With the group a first vote is taken by both.
#[test]
fn every_first_vote_without_inits_is_refused() {
    let calls = all_calls();
    for (command, sizes) in [
        ("check", (2..=31).collect::<Vec<u32>>()),
        ("give", vec![2, 3, 4, 5, 6, 7, 31]),
    ] {
        for (n, value) in sizes.into_iter().flat_map(|n| [(n, 0), (n, 1)]) {
            let judged = calls
                .iter()
                .filter(|c| c.n == n && keyword(&c.command) == command);
            let bundles = judged.filter_map(|c| Some((c, Bundle::read(&c.given, n)?)));
            let mut returned: [BTreeMap<u32, usize>; 2] = Default::default();
            for (call, bundle) in bundles.filter(|(_, b)| is_first_vote(b, value)) {
                let with_inits = bundle.certificate.len() == quorum(n) + backing(n, value);
                let counts = &mut returned[usize::from(with_inits)];
                if bundle.certificate.len() == quorum(n) || with_inits {
                    *counts.entry(call.report.number).or_default() += 1;
                }
            }
            let [without, with] = &returned;
            assert!(without.contains_key(&6), "{command}, n {n}, {value}");
            assert!(!without.contains_key(&0) && !without.contains_key(&20));
            let taken = [0, 20, 21].iter().any(|number| with.contains_key(number));
            assert!(taken, "{command}, n {n}, {value}: {with:?}");
        }
    }
}

/// "At a refusal station, module and lent words keep their values." An opening that is refused
/// returns the station that is none, a making the module of zeros.
#[test]
fn refusals_change_nothing() {
    let same = |pair: &(Vec<u32>, Vec<u32>)| pair.0 == pair.1;
    for Call {
        command, report, ..
    } in all_calls()
    {
        if !(1..=12).contains(&report.number) {
            continue;
        }
        assert_eq!(report.count, 0, "{command:?}");
        assert!(same(&report.lent), "{command:?}");
        match command {
            Command::Make(..) => assert!(report.module.1.iter().all(|word| *word == 0)),
            _ => assert!(same(&report.module), "{command:?}"),
        }
        match command {
            Command::Open(..) => {
                let front = [0, 0, 0, 0, 0, 0, 1, NONE];
                assert_eq!(report.station.1[..8], front);
                assert!(report.station.1[8..].iter().all(|word| *word == 0));
            }
            _ => assert!(same(&report.station), "{command:?}"),
        }
    }
}

/// The stage that a call found its station in: 0 gathering, 1 proposing, 2 voting.
fn stage_before(call: &Call) -> u32 {
    call.report.station.0[3]
}

/// Job 3 of 02: every kind of statement is jumped onto at every n of 2 to 7 and 31, and at n 4 from every
/// stage; in the first round, a later one and the last; by R-GETs of both values with both coins.
#[test]
fn every_jump_is_made() {
    let calls = all_calls();
    let jumps: Vec<(&Call, Bundle)> = calls
        .iter()
        .filter(|call| call.report.number == 23)
        .map(|call| (call, Bundle::read(&call.given, call.n).expect("a bundle")))
        .collect();
    println!("{} jumps", jumps.len());
    let found: BTreeSet<(u32, usize)> = jumps
        .iter()
        .map(|(call, given)| (call.n, jump_kind(&given.main)))
        .collect();
    for n in [2, 3, 4, 5, 6, 7, 31] {
        for (kind, name) in JUMP_KINDS.iter().enumerate() {
            assert!(found.contains(&(n, kind)), "n {n}, {name}");
        }
    }
    let from: BTreeSet<(u32, usize)> = jumps
        .iter()
        .filter(|(call, _)| call.n == 4)
        .map(|(call, given)| (stage_before(call), jump_kind(&given.main)))
        .collect();
    // onto a first proposal there is no other way than from the INITs
    assert_eq!(from.len(), 3 * JUMP_KINDS.len() - 2);
    for kind in [Kind::P, Kind::V] {
        for round in [1, 2, 3, 65_535] {
            let of = |given: &Bundle| (given.main.kind, given.main.round) == (kind, round);
            assert!(jumps.iter().any(|(_, given)| of(given)));
        }
    }
    let tosses: BTreeSet<(u32, u32)> = jumps
        .iter()
        .filter(|(_, given)| jump_kind(&given.main) == 2)
        .map(|(call, given)| match call.command {
            Command::Give(_, _, _, coin, _) => (given.main.value, coin),
            _ => unreachable!("only a giving jumps"),
        })
        .collect();
    assert_eq!(tosses.len(), 4);
}

/// Both settings at openings and at givings, settings out of range, and what is answered with each.
#[test]
fn every_setting_is_tried() {
    let calls = all_calls();
    let mut opened: BTreeMap<u32, BTreeSet<u32>> = BTreeMap::new();
    let mut given: BTreeMap<u32, BTreeSet<u32>> = BTreeMap::new();
    for call in &calls {
        let number = call.report.number;
        match call.command {
            Command::Open(_, _, _, _, jump, _) => {
                opened.entry(jump).or_default().insert(number);
            }
            Command::Give(..) => {
                let jump = call.report.station.0[JUMP_WORD];
                given.entry(jump).or_default().insert(number);
            }
            _ => {}
        }
    }
    for (jump, numbers) in &opened {
        let expected: &[u32] = match *jump {
            JUMP_OFF | JUMP_ON => &[1, 2, 12, 20],
            _ => &[1, 2],
        };
        assert_eq!(numbers.iter().copied().collect::<Vec<u32>>(), expected);
    }
    assert!(opened.contains_key(&2) && opened.contains_key(&u32::MAX));
    let all = |without: u32| -> BTreeSet<u32> {
        let refusals = 0..=12;
        let all = refusals.chain([20, 21, 22, 23]);
        all.filter(|number| *number != without).collect()
    };
    assert_eq!(given[&JUMP_OFF], all(23));
    assert_eq!(given[&JUMP_ON], all(8));
    // a closing sets it back
    let closed_on = calls.iter().any(|call| {
        call.report.number == 22
            && call.report.station.0[JUMP_WORD] == JUMP_ON
            && call.report.station.1[JUMP_WORD] == JUMP_OFF
    });
    assert!(closed_on);
}
