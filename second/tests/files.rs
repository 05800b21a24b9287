//! The script runner, and the files in the repository against what is generated.

use std::path::Path;

use second::cases::generate::{files, script};
use second::tester::script::{read_line, run};

#[test]
fn settings_print_nothing_and_calls_a_line() {
    let script = "# a comment\n\
                  make 0 0 0 0 0 0 0 0 0 3 1\n\
                  fill 0 14b a5\n\
                  open 0 0 1 0 0 0\n\
                  length 0 b\n\
                  check 0 0\n\
                  words 0 0 0\n\
                  check 0 0\n";
    let output = run(script);
    let lines: Vec<&str> = output.lines().collect();
    assert_eq!(lines.len(), 4);
    assert_eq!(lines[0], "0 0 m @8 3 1 s = w =");
    assert!(lines[1].starts_with("14 b m @a 1 1 s @0 3 1 1 @7 2 1 10000 1 "));
    assert!(lines[1].contains(" w @0 c0000000 10000 1 "));
    assert_eq!(lines[2], "0 0 m = s = w =");
    assert_eq!(lines[3], "3 0 m = s = w =");
}

/// The setting is a station's last word, and 23 is printed in hex as all numbers are.
#[test]
fn a_jump_in_a_script() {
    let script = "make 0 0 0 0 0 0 0 0 0 2 1\n\
                  make 1 0 0 0 0 0 0 0 0 2 2\n\
                  fill 0 14b 0\n\
                  fill 1 14b 0\n\
                  open 0 0 1 1 1 0\n\
                  open 1 1 1 1 0 1\n\
                  length 0 b\n\
                  fill 2 14b 0\n\
                  give 1 1 0 0 2\n\
                  length 2 15\n\
                  fill 3 14b 0\n\
                  give 0 0 2 0 3\n";
    let output = run(script);
    let lines: Vec<&str> = output.lines().collect();
    assert_eq!(lines.len(), 6);
    assert!(lines[2].contains(" @27f 1 w @0 c0000000 "));
    assert!(!lines[3].contains("@27f"));
    assert!(lines[4].starts_with("14 15 m @c 2 s @3 1 1 "));
    // station 1 goes from its INIT to the proposal of round 1 that station 2 made
    assert!(lines[5].starts_with("17 15 m @c 2 s @3 1 1 "));
    assert!(lines[5].contains(" w @0 c0000001 50010001 1 "));
    assert!(
        run(&script.replace("open 0 0 1 1 1 0", "open 0 0 1 1 0 0")).ends_with("8 0 m = s = w =\n")
    );
}

/// The example of docs/SCRIPT.md, whose dots stand for the eight words of the code.
#[test]
fn the_documented_example() {
    let page = Path::new(env!("CARGO_MANIFEST_DIR")).join("../docs/SCRIPT.md");
    let page = std::fs::read_to_string(page).unwrap();
    let blocks: Vec<&str> = page.split("```\n").collect();
    let script = blocks
        .iter()
        .find(|block| block.starts_with("make "))
        .unwrap();
    let at = blocks.iter().position(|block| block == script).unwrap();
    let code = second::hmac::code(&[0; 8], 0x10000, 1);
    let code: Vec<String> = code.iter().map(|word| format!("{word:x}")).collect();
    let expected = blocks[at + 2].replace("...", &code.join(" "));
    assert_eq!(run(script), expected);
}

#[test]
fn a_malformed_line_stops_the_run() {
    for line in [
        "",
        " ",
        "chec 0 0",
        "check 0",
        "check 0 0 0",
        "check 0  0",
        "check 0 0 ",
        "check 20 0",
        "check 0 80",
        "check 0 G",
        "check 0 A",
        "check 0 000000000",
        "fill 0 191 0",
        "words 0 18f 1 2",
        "words 0 0",
        "station 0 27f 1 2",
        "station 0 280 1",
        "open 0 0 1 0 0",
        "open 0 0 1 0 0 0 0",
        "open 0 0 1 0 0 80",
        "raw 0 0",
        "give 0 0 1 0 1",
    ] {
        assert_eq!(read_line(line), None, "{line:?}");
        let script = format!("fill 0 0 0\n{line}\ncheck 0 0\n");
        assert_eq!(run(&script), "stop 2\n", "{line:?}");
    }
    assert_eq!(run("check 0 0"), "stop 1\n");
}

/// Lines have at most 80 tokens, and come back as they are written.
#[test]
fn scripts_are_as_described() {
    for (place, content) in files() {
        if place != "crates/call_cases/stdin" {
            continue;
        }
        let script = String::from_utf8(content).unwrap();
        for line in script.lines().filter(|line| !line.starts_with('#')) {
            assert!(line.split(' ').count() <= 80);
            let command = read_line(line).expect("a command");
            assert_eq!(command.line().trim_end(), line);
        }
    }
}

/// What the script prints when it is run from its text alone.
#[test]
fn the_script_prints_what_was_recorded() {
    let (script, results) = script();
    assert!(run(&script) == results);
}

/// A call whose module or station has words that are none stops the run; other lines may set them.
#[test]
fn a_call_on_words_that_are_none_stops_the_run() {
    let key = "0 0 0 0 0 0 0 0";
    for last in ["2 0 0", "0 1 0", "0 0 1", "1 0 20000", "ffffffff 0 0"] {
        for call in [
            "plain 0 0",
            "toss 0 0 0",
            "open 0 0 0 0 0 0",
            "give 0 0 0 0 1",
        ] {
            let script = format!("raw 0 {key} 2 1 {last}\ncheck 0 0\n{call}\n");
            assert_eq!(run(&script), "3 0 m = s = w =\nstop 3\n", "{script}");
        }
    }
    let no_stations = [
        "3 0 1 0",
        "3 0 0 1",
        "3 1 0 2",
        "3 2 0 1",
        "3 3 0 0",
        "6 2",
        "6 ffffffff",
        "27f 2",
        "27f ffffffff",
    ];
    for words in no_stations {
        let script = format!("raw 0 {key} 2 1 1 0 1ffff\nstation 0 {words}\ngive 0 0 0 0 1\n");
        assert_eq!(run(&script), "stop 3\n", "{script}");
    }
}

/// The files in the repository are the generated ones.
#[test]
fn files_are_up_to_date() {
    let repository = Path::new(env!("CARGO_MANIFEST_DIR")).join("..");
    for (place, content) in files() {
        let kept = std::fs::read(repository.join(place)).unwrap_or_default();
        assert!(kept == content, "{place} is not what is generated");
    }
}
