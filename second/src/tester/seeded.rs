//! Seeded scripts: new cases of any number from a seed, for the proved program to be run on. The script
//! of the repository is always the same; these differ from seed to seed.

use std::fs;
use std::path::Path;

use crate::tester::author::Author;
use crate::tester::jumps::JUMPS;
use crate::tester::list::List;
use crate::tester::random::one_list;
use crate::tester::rng::Rng;
use crate::tester::script::is_call;

/// The sizes of the groups, in turn; 0 stands for any other.
const SIZES: [u32; 8] = [2, 3, 4, 5, 6, 7, 31, 0];

/// A random list at the next size: sound and faulty sites, or faulty ones alone, with jump off, on or
/// both, and with calls beside them.
fn any_list(rng: &mut Rng, place: usize) -> List {
    let n = match SIZES[place % SIZES.len()] {
        0 => 8 + rng.below(23) as u32,
        n => n,
    };
    List {
        n,
        seed: rng.draw(),
        all_faulty: rng.percent(25),
        jumps: rng.pick(&JUMPS),
        turns: (10 + rng.below(90)) * (n as usize).min(10),
        asides: 45,
    }
}

/// A script from a seed, of so many calls, and what it prints; or what did not hold while it was
/// made. A shorter one from the same seed is the beginning of it.
pub fn seeded_script(seed: u64, calls: usize) -> Result<(String, String), String> {
    let mut rng = Rng::new(seed);
    let mut author = Author::recording();
    let mut made = 0;
    for place in 0.. {
        if made >= calls as u64 {
            break;
        }
        let list = any_list(&mut rng, place);
        author.comment(&format!("list {place}, n {}, seed {}", list.n, list.seed));
        let (recorded, counts) = one_list(list, author)
            .map_err(|failure| format!("list {place} of seed {seed}: {failure}"))?;
        author = recorded;
        made += counts.calls;
    }
    let (script, printed) = author.record.expect("it was recorded");
    Ok(first_calls(&script, &printed, calls))
}

/// A script up to one of its calls, and what that prints.
fn first_calls(script: &str, printed: &str, calls: usize) -> (String, String) {
    let mut left = calls;
    let until = |line: &&str| {
        let goes_on = left > 0;
        left -= usize::from(goes_on && is_call(line));
        goes_on
    };
    let script = script.split_inclusive('\n').take_while(until).collect();
    let printed = printed.split_inclusive('\n').take(calls).collect();
    (script, printed)
}

/// Writes a script and what it prints as `stdin` and `stdout` of a directory.
pub fn write(script: (String, String), directory: &Path) -> Result<(), String> {
    let (script, printed) = script;
    fs::create_dir_all(directory)
        .and_then(|()| fs::write(directory.join("stdin"), script))
        .and_then(|()| fs::write(directory.join("stdout"), printed))
        .map_err(|error| format!("{}: {error}", directory.display()))
}
