//! The second implementation as a program.

use std::io::{Read, Write};
use std::path::{Path, PathBuf};
use std::process::ExitCode;

use second::group::LAST_ROUND;
use second::returns::TABLE;
use second::tester::counts::Counts;
use second::tester::jumps::JUMP_KINDS;
use second::tester::random::{many_lists, missing};

const USAGE: &str = "second run FILE | valley | random [--seed S] [--runs N] | generate [DIR] \
                     | script --seed S --calls N DIR | script --against ROUNDS DIR";

/// The fixed seed and number of lists of the random tester.
const SEED: u64 = 20_181_217;
const RUNS: u64 = 4_200;

fn run_script(path: &str) -> Result<(), String> {
    let bytes = std::fs::read(path).map_err(|error| format!("{path}: {error}"))?;
    let script = String::from_utf8(bytes).map_err(|_| format!("{path}: not a script"))?;
    print!("{}", second::tester::script::run(&script));
    Ok(())
}

fn run_valley() -> Result<(), String> {
    let mut input = Vec::new();
    let mut stdin = std::io::stdin();
    stdin.read_to_end(&mut input).map_err(|e| e.to_string())?;
    let output = second::valley::run(&input);
    std::io::stdout()
        .write_all(&output)
        .map_err(|e| e.to_string())
}

/// The repository that this crate stands in.
fn repository() -> PathBuf {
    Path::new(env!("CARGO_MANIFEST_DIR")).join("..")
}

/// The number behind an option, or what is taken without it.
fn option(arguments: &[String], name: &str, default: u64) -> Result<u64, String> {
    match arguments.iter().position(|argument| argument == name) {
        None => Ok(default),
        Some(at) => {
            let number = arguments.get(at + 1).and_then(|text| text.parse().ok());
            number.ok_or(format!("{name} needs a number"))
        }
    }
}

fn run_random(arguments: &[String]) -> Result<(), String> {
    let seed = option(arguments, "--seed", SEED)?;
    let runs = option(arguments, "--runs", RUNS)?;
    let counts = many_lists(seed, runs)?;
    println!("seed {seed}, {runs} lists, {} calls", counts.calls);
    print_counts(&counts);
    let (missing, never) = (missing(&counts), counts.never_jumped_onto());
    if !missing.is_empty() || counts.forged_conflicts == 0 {
        return Err(format!("never returned: {missing:?}"));
    }
    if !never.is_empty() {
        return Err(format!("no sound site jumped onto: {never:?}"));
    }
    match counts.looked_at_first_votes() {
        true => Ok(()),
        false => Err("no first votes to look at".to_string()),
    }
}

fn print_counts(counts: &Counts) {
    for number in TABLE {
        let count = counts.returned.get(&number).unwrap_or(&0);
        println!("returned {number:2}: {count}");
    }
    for (kind, count) in JUMP_KINDS.iter().zip(counts.jumps) {
        println!("23 at sound sites, onto {kind}: {count}");
    }
    println!("10 at a forged station: {}", counts.forged_conflicts);
    println!("bundles of sound sites: {}", counts.sound_bundles);
    println!("R-GET proposals of sound sites: {}", counts.tosses);
    println!("decisions of sound sites: {}", counts.decisions);
    println!("with jump off, and so backed: {}", counts.backed_decisions);
    println!("with jump on and not backed: {}", counts.unbacked_decisions);
    println!("deepest round of a sound site: {}", counts.deepest_round);
    println!("valid first votes for 0 or 1: {}", counts.first_votes);
    println!("those that sound sites wrote: {}", counts.sound_first_votes);
    println!("refused without their INITs: {}", counts.without_inits);
}

fn write_seeded(seed: &str, calls: &str, directory: &str) -> Result<(), String> {
    let seed = seed.parse().map_err(|_| "--seed needs a number")?;
    let calls = calls.parse().map_err(|_| "--calls needs a number")?;
    let script = second::tester::seeded::seeded_script(seed, calls)?;
    second::tester::seeded::write(script, Path::new(directory))
}

fn write_against(rounds: &str, directory: &str) -> Result<(), String> {
    let rounds = match rounds.parse() {
        Ok(rounds) if (1..LAST_ROUND).contains(&rounds) => rounds,
        _ => {
            return Err(format!(
                "--against needs a number of 1 to {}",
                LAST_ROUND - 1
            ))
        }
    };
    second::tester::seeded::write(
        second::tester::against::script(rounds),
        Path::new(directory),
    )
}

fn main() -> ExitCode {
    let arguments: Vec<String> = std::env::args().skip(1).collect();
    let words: Vec<&str> = arguments.iter().map(String::as_str).collect();
    let result = match words[..] {
        ["run", file] => run_script(file),
        ["valley"] => run_valley(),
        ["random", ..] => run_random(&arguments[1..]),
        ["script", "--seed", seed, "--calls", calls, directory] => {
            write_seeded(seed, calls, directory)
        }
        ["script", "--against", rounds, directory] => write_against(rounds, directory),
        ["generate"] => second::cases::generate::generate(&repository()),
        ["generate", directory] => second::cases::generate::generate(Path::new(directory)),
        _ => Err(USAGE.to_string()),
    };
    match result {
        Ok(()) => ExitCode::SUCCESS,
        Err(message) => {
            eprintln!("{message}");
            ExitCode::FAILURE
        }
    }
}
