//! The cases of valley: their frame, and that each reading of its lines is among them.

use std::collections::{HashMap, HashSet};
use std::sync::OnceLock;

use second::cases::valley_cases::{cases, valleys, LIMIT};
use second::valley::run;

/// The inputs with what valley prints for them.
fn outputs() -> &'static HashMap<String, String> {
    static OUTPUTS: OnceLock<HashMap<String, String>> = OnceLock::new();
    let text = |bytes: &[u8]| String::from_utf8_lossy(bytes).into_owned();
    OUTPUTS.get_or_init(|| {
        let inputs = cases().into_iter().map(|case| case.input());
        inputs
            .map(|input| (text(&input), text(&run(&input))))
            .collect()
    })
}

/// What a line prints behind an opening of station 1 at n 3, with another opening behind it.
fn printed(all: &HashMap<String, String>, line: &str) -> String {
    let input = format!("n 3\nopen 1 1\n{line}\nopen 3 0\n");
    let events = format!("n 3\nopen 1 1\n{line}\nopen 3 0\ngive 1 2 0\n{line}\n");
    let found = all.get(&input).or_else(|| all.get(&events));
    found
        .unwrap_or_else(|| panic!("no case of {line:?}"))
        .clone()
}

/// The numbers of an event's line.
fn numbers(line: &str) -> Option<Vec<u32>> {
    line.split(' ').map(|word| word.parse().ok()).collect()
}

/// A line up to its newline, and what stands behind it.
fn cut_line(text: &[u8]) -> (&str, &[u8]) {
    let end = text.iter().position(|byte| *byte == b'\n').unwrap();
    (std::str::from_utf8(&text[..end]).unwrap(), &text[end + 1..])
}

#[test]
fn frames_are_as_described() {
    let (stdin, stdout) = valleys();
    let (mut given, mut printed) = (&stdin[..], &stdout[..]);
    for case in cases() {
        let (line, rest) = cut_line(given);
        let words: Vec<&str> = line.split(' ').collect();
        let [head, body, times, piece] = [1, 2, 3, 4].map(|i| words[i].parse::<usize>().unwrap());
        assert_eq!((words[0], words.len()), ("case", 5));
        assert!(head <= LIMIT && body <= LIMIT && times < 1_000_000);
        assert!((1..1_000_000).contains(&piece));
        assert_eq!((times, piece), (case.times, case.piece));
        let copies = rest[head..head + body].repeat(times);
        assert!([&rest[..head], &copies].concat() == case.input());
        assert_eq!(rest[head + body], b'\n');
        given = &rest[head + body + 1..];
        let output = run(&case.input());
        assert!(printed.starts_with(&[b"case\n", &output[..], b"end\n"].concat()));
        printed = &printed[output.len() + 9..];
    }
    assert!(given.is_empty() && printed.is_empty());
}

#[test]
fn each_input_is_cut_in_two_ways() {
    let mut sizes: HashMap<Vec<u8>, HashSet<usize>> = HashMap::new();
    for case in cases().iter().filter(|case| case.times < 2) {
        sizes.entry(case.input()).or_default().insert(case.piece);
    }
    assert!(sizes.values().all(|found| found.len() >= 2));
    let all: HashSet<usize> = sizes.into_values().flatten().collect();
    for size in [1, 2, 3, 5, 7, 64, 4_000] {
        assert!(all.contains(&size), "{size}");
    }
}

#[test]
fn first_lines() {
    let all = outputs();
    for input in [
        "",
        "\n",
        "n",
        "n\n",
        "n \n",
        " n 3\n",
        "n 3 \n",
        "n  3\n",
        "n\t3\n",
        "n 3\r\n",
        "N 3\n",
        "n 000003\n",
        "n 3 3\n",
        "open 1 0\n",
        "\nn 3\n",
    ] {
        assert_eq!(all[input], "bad line 1\n", "{input:?}");
    }
    assert_eq!(all["n 3"], "");
    assert_eq!(all["n 00003\nopen 3 1\n"], "1 20 0 2\n");
    assert_eq!(all["n 3\nn 3\n"], "bad line 2\n");
    assert_eq!(all["n 3\nn 4\n"], "bad line 2\n");
    assert_eq!(all["n 3\n\n"], "bad line 2\n");
    for n in [0, 1, 8, 9] {
        let input = format!("n {n}\nopen 1 0\nopen 2 1\nopen {n} 1\n");
        assert_eq!(all[&input], "bad line 1\n", "{n}");
    }
    for n in 2..=7 {
        let input = format!("n {n}\nopen 1 0\nopen 2 1\nopen {n} 1\n");
        assert_eq!(all[&input].lines().count(), 3, "{n}");
    }
}

#[test]
fn bad_lines() {
    let all = outputs();
    for line in [
        "",
        " ",
        "n 3",
        "open",
        "open 1",
        "open 1 0 0",
        "open 1 0 ",
        " open 1 0",
        "open  1 0",
        "open\t1 0",
        "open 1 0\r",
        "Open 1 0",
        "open 1 000000",
        "open 000001 0",
        "give 1 1",
        "give 1 1 0 0",
        "give 1 1 000000",
        "give 2 1 0",
        "give 0 1 0",
        "give 4 1 0",
        "give 1 0 0",
        "give 1 2 0",
        "give 1 2 2",
        "give 2 1 2",
        "give 2 2 2",
    ] {
        assert_eq!(printed(all, line), "1 20 0 2\nbad line 3\n", "{line:?}");
        let last = format!("n 3\nopen 1 1\n{line}");
        assert!(
            all.contains_key(&last),
            "{line:?} with no newline behind it"
        );
    }
}

#[test]
fn returned_numbers() {
    let all = outputs();
    for (line, event) in [
        ("open 0 0", "2 2 0 2"),
        ("open 4 0", "2 2 0 2"),
        ("open 99999 1", "2 2 0 2"),
        ("open 2 2", "2 2 0 2"),
        ("open 1 2", "2 2 0 2"),
        ("open 1 0", "2 12 0 2"),
        ("open 1 1", "2 12 0 2"),
        ("open 00001 00000", "2 12 0 2"),
        ("open 00002 00001", "2 20 0 2"),
        ("give 1 1 2", "2 2 0 2"),
        ("give 1 1 99999", "2 2 0 2"),
        ("give 1 1 0", "2 9 0 2"),
        ("give 00001 00001 00000", "2 9 0 2"),
    ] {
        assert_eq!(printed(all, line).lines().nth(1), Some(event), "{line:?}");
        let last = &all[&format!("n 3\nopen 1 1\n{line}")];
        assert_eq!(last.lines().nth(1), Some(event), "{line:?}");
    }
    // an open station that has gone on and decided prints its step and decision
    let as_it_was = |line| numbers(line).is_some_and(|n| n[1] == 12 && n[2] > 3 && n[3] < 2);
    assert!(all.values().any(|output| output.lines().any(as_it_was)));
}

#[test]
fn long_lines() {
    let all = outputs();
    for length in [22, 23, 24, 1_000] {
        let first = |input: &String| input.lines().next().map(str::len) == Some(length);
        let third = |input: &String| input.lines().nth(2).map(str::len) == Some(length);
        assert!(all.keys().filter(|input| first(input)).count() > 5);
        let behind: Vec<_> = all.iter().filter(|(input, _)| third(input)).collect();
        assert!(behind.len() > 10);
        let bad = |output: &String| output == "1 20 0 2\nbad line 3\n";
        assert!(behind.iter().any(|(_, output)| bad(output)));
        let read = behind.iter().filter(|(_, output)| !bad(output)).count();
        assert_eq!(read > 0, length == 22, "{length}");
    }
}

#[test]
fn votes_that_decide() {
    let all = outputs();
    for n in 2..=7 {
        for value in [0, 1] {
            let group = format!("n {n}\n");
            let decides = |line: &str| numbers(line).is_some_and(|n| n[1] == 21 && n[3] == value);
            let found = |input: &String, output: &String| {
                input.starts_with(&group) && output.lines().any(decides)
            };
            assert!(
                all.iter().any(|(input, output)| found(input, output)),
                "{n} {value}"
            );
        }
    }
}

/// Which of 0 and 1 a coin is matters only where a station tosses it, behind votes for none.
#[test]
fn votes_for_none_and_coins() {
    let all = outputs();
    for n in 4..=7 {
        let group = format!("n {n}\n");
        let decided = |input: &String, value: u32| {
            let last = all
                .get(input)
                .and_then(|output| output.lines().last().and_then(numbers));
            last.is_some_and(|last| last[3] == value)
        };
        let other = |input: &String| {
            let turn = |line: &str| match line.strip_prefix("give") {
                Some(_) => line[..line.len() - 1].to_string() + "1\n",
                None => line.to_string() + "\n",
            };
            input.lines().map(turn).collect::<String>()
        };
        let tossed = |input: &&String| {
            input.starts_with(&group) && decided(input, 0) && decided(&other(input), 1)
        };
        assert!(all.keys().any(|input| tossed(&input)), "{n}");
    }
}

/// Whether a line names only a station that the input opens and a bundle of the 40.
fn names_what_is_there(input: &str, line: &str) -> bool {
    let words: Vec<&str> = line.split(' ').collect();
    match words[..] {
        ["open", _, "0" | "1"] => true,
        ["give", s, k, "0" | "1"] => {
            let number: usize = k.parse().unwrap();
            (1..=40).contains(&number) && input.contains(&format!("\nopen {s} "))
        }
        _ => false,
    }
}

/// 40 bundles and then the line that would write one more, at once and behind events that write
/// nothing; and no 41st anywhere.
#[test]
fn forty_bundles() {
    let (mut at_once, mut later) = (0, 0);
    for (input, output) in outputs() {
        let events: Vec<Vec<u32>> = output.lines().filter_map(numbers).collect();
        let written = events.iter().filter(|event| event[1] >= 20).count();
        assert!(written <= 40);
        let ended = output.lines().any(|line| line.starts_with("bad line"));
        let bad = input.lines().nth(events.len() + 1).filter(|_| ended);
        if written == 40 && bad.is_some_and(|line| names_what_is_there(input, line)) {
            match events[events.len() - 1][1] >= 20 {
                true => at_once += 1,
                false => later += 1,
            }
        }
    }
    assert!(at_once > 0 && later > 0);
}

#[test]
fn long_inputs() {
    let lines = |text: &[u8]| text.iter().filter(|byte| **byte == b'\n').count();
    let long = |case: &second::cases::valley_cases::Case| {
        let input = case.input();
        case.piece == 7 && lines(&input) >= 100_000 && lines(&run(&input)) >= 100_000
    };
    assert!(cases().iter().any(long));
}
