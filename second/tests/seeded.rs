//! Scripts from a seed: that they are scripts, that the seed fixes them, and which numbers their calls
//! return.

use std::collections::{BTreeMap, BTreeSet};

use second::returns::{JUMPED, TABLE};
use second::station::{step_and_decision, JUMP_OFF, JUMP_ON, JUMP_WORD};
use second::tester::jumps::{jump_kind, JUMP_KINDS};
use second::tester::script::{is_call, read_line, run, Command, Machine};
use second::tester::seeded::seeded_script;
use second::words::Bundle;

/// The number that a printed line starts with.
fn returned(line: &str) -> u32 {
    let number = line.split(' ').next().expect("a number");
    u32::from_str_radix(number, 16).expect("a hex number")
}

/// The numbers that each call of a script returns.
fn numbers(script: &str, printed: &str) -> BTreeMap<char, BTreeSet<u32>> {
    let mut numbers: BTreeMap<char, BTreeSet<u32>> = BTreeMap::new();
    let calls = script.lines().filter(|line| is_call(line));
    for (call, line) in calls.zip(printed.lines()) {
        let letter = call.chars().next().expect("a keyword");
        numbers.entry(letter).or_default().insert(returned(line));
    }
    numbers
}

/// The jump settings of a script's openings.
fn settings(script: &str) -> BTreeSet<u32> {
    let commands = script.lines().filter_map(read_line);
    commands
        .filter_map(|command| match command {
            Command::Open(_, _, _, _, jump, _) => Some(jump),
            _ => None,
        })
        .collect()
}

/// Every number of the table in 5,000 calls, of giving alone, 23 among them; and all that the other calls
/// return. Openings with jump off, on, and with settings out of range.
#[test]
fn every_number_is_returned() {
    for seed in [0, 1, 0xfeed_0042, u64::MAX] {
        let (script, printed) = seeded_script(seed, 5_000).unwrap();
        let numbers = numbers(&script, &printed);
        assert!(numbers[&'g'].contains(&JUMPED));
        assert_eq!(settings(&script), BTreeSet::from([0, 1, 2, 3, u32::MAX]));
        let wanted: [(char, &[u32]); 6] = [
            ('c', &[0, 2, 3, 4, 5, 6]),
            ('g', &TABLE),
            ('m', &[0, 2]),
            ('o', &[1, 2, 12, 20]),
            ('p', &[0, 2, 3, 5, 12]),
            ('t', &[0, 2, 3, 5, 12]),
        ];
        for (letter, wanted) in wanted {
            let wanted: BTreeSet<u32> = wanted.iter().copied().collect();
            assert_eq!(numbers[&letter], wanted, "{letter}, seed {seed}");
        }
    }
}

/// Each line is a command within docs/SCRIPT.md's limits or a comment, and what the script prints
/// when it is run from its text alone is what was recorded.
#[test]
fn they_are_scripts() {
    let (script, printed) = seeded_script(7, 5_000).unwrap();
    for line in script.lines() {
        assert!(line.len() <= 800);
        assert!(line.split(' ').count() <= 80);
        assert!(line.starts_with('#') || read_line(line).is_some(), "{line}");
    }
    assert_eq!(printed.lines().count(), 5_000);
    assert!(run(&script) == printed);
}

/// The same seed gives the same bytes, fewer calls their beginning, another seed others.
#[test]
fn the_seed_fixes_them() {
    let long = seeded_script(7, 3_000).unwrap();
    assert!(long == seeded_script(7, 3_000).unwrap());
    assert!(long != seeded_script(8, 3_000).unwrap());
    for calls in [0, 1, 100, 2_999] {
        let short = seeded_script(7, calls).unwrap();
        assert!(long.0.starts_with(&short.0) && long.1.starts_with(&short.1));
        let made = short.0.lines().filter(|line| is_call(line)).count();
        assert_eq!((made, short.1.lines().count()), (calls, calls));
    }
}

/// Stations jump onto every kind of statement, and are refused by 8 with jump off and by 12 with jump on.
#[test]
fn stations_jump() {
    let (script, _) = seeded_script(7, 5_000).unwrap();
    let mut machine = Machine::default();
    let (mut kinds, mut refused) = (BTreeSet::new(), BTreeSet::new());
    for command in script.lines().filter_map(read_line) {
        let given = match command {
            Command::Give(m, _, b, ..) => {
                Bundle::read(machine.buffers[b].seen(), machine.modules[m][8])
            }
            _ => None,
        };
        let (Some(report), Some(given)) = (machine.carry_out(&command), given) else {
            continue;
        };
        let setting = report.station.0[JUMP_WORD];
        let station = &report.station.0[..].try_into().expect("a station's words");
        let later = given.main.step() > step_and_decision(station).0;
        match report.number {
            23 => {
                kinds.insert(jump_kind(&given.main));
            }
            number if later => {
                refused.insert((setting, number));
            }
            _ => {}
        }
    }
    assert_eq!(kinds.len(), JUMP_KINDS.len());
    assert!(refused.contains(&(JUMP_OFF, 8)) && !refused.contains(&(JUMP_OFF, 12)));
    assert!(refused.contains(&(JUMP_ON, 12)) && !refused.contains(&(JUMP_ON, 8)));
}
