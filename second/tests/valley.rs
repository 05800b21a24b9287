//! The program valley: 01's worked example, and each reading of a line.

use second::valley::run;

fn output(input: &str) -> String {
    String::from_utf8(run(input.as_bytes())).unwrap()
}

#[test]
fn worked_example() {
    let input = "n 3\nopen 1 0\nopen 2 0\ngive 1 2 0\ngive 2 1 0\ngive 1 4 0\ngive 2 3 0\n\
                 give 1 6 0\ngive 2 6 0\ngive 2 7 0\n";
    let expected = "1 20 0 2\n2 20 0 2\n3 20 2 2\n4 20 2 2\n5 20 3 2\n6 20 3 2\n7 21 4 0\n\
                    8 9 3 2\n9 8 3 2\n";
    assert_eq!(output(input), expected);
    assert_eq!(output(input.trim_end()), expected);
}

#[test]
fn first_line() {
    for input in [
        "",
        "\n",
        "n",
        "n \n",
        "n 1\n",
        "n 8\n",
        "n 000003\n",
        " n 3\n",
        "n 3 \n",
        "n  3\n",
        "N 3\n",
        "n 3\r\n",
        "n\t3\n",
        "n 3 3\n",
        "open 1 0\n",
        "n +3\n",
        "\u{0}",
    ] {
        assert_eq!(output(input), "bad line 1\n", "{input:?}");
    }
    for input in ["n 2", "n 7\n", "n 00003", "n 02\n"] {
        assert_eq!(output(input), "", "{input:?}");
    }
}

#[test]
fn lines_that_cannot_be_read() {
    for line in [
        "",
        " ",
        "n 3",
        "n 4",
        "open",
        "open 1",
        "open 1 0 0",
        "Open 1 0",
        "open 1 000000",
        "open  1 0",
        "open 1 0 ",
        " open 1 0",
        "open\t1 0",
        "open 1 0\r",
        "open -1 0",
        "open 1 a",
        "give 1 1",
        "give 1 1 0 0",
        "give 1 1 000000",
        "close 1",
        "opens 1 0",
        "ope 1 0",
    ] {
        let input = format!("n 3\nopen 1 1\n{line}\nopen 2 0\n");
        assert_eq!(output(&input), "1 20 0 2\nbad line 3\n", "{line:?}");
    }
}

#[test]
fn events_that_return_refusals() {
    let with = |line: &str| output(&format!("n 3\nopen 1 1\n{line}"));
    for line in [
        "open 0 0",
        "open 4 0",
        "open 99999 0",
        "open 2 2",
        "open 2 99999",
        "open 0 9",
    ] {
        assert_eq!(with(line), "1 20 0 2\n2 2 0 2\n", "{line:?}");
    }
    assert_eq!(with("open 1 0"), "1 20 0 2\n2 12 0 2\n");
    assert_eq!(with("open 1 2"), "1 20 0 2\n2 2 0 2\n");
    assert_eq!(with("give 1 1 2"), "1 20 0 2\n2 2 0 2\n");
    assert_eq!(with("give 1 1 0"), "1 20 0 2\n2 9 0 2\n");
    assert_eq!(with("give 00001 00001 00000"), "1 20 0 2\n2 9 0 2\n");
}

#[test]
fn stations_and_bundles_that_are_not_there() {
    for line in [
        "give 2 1 0",
        "give 0 1 0",
        "give 4 1 0",
        "give 1 0 0",
        "give 1 2 0",
        "give 1 2 9",
    ] {
        let input = format!("n 3\nopen 1 1\n{line}\nopen 2 0\n");
        assert_eq!(output(&input), "1 20 0 2\nbad line 3\n", "{line:?}");
    }
}
