//! The example of docs/WIRE.md: its words are those that the calls write, and they are valid.

use std::path::Path;

use second::check::check;
use second::group::{backing, most_faulty, quorum, BUNDLE_WORDS};
use second::returns::{KEPT, SENT};
use second::sealed::make;
use second::station::{give, open, JUMP_OFF};

fn page() -> String {
    let page = Path::new(env!("CARGO_MANIFEST_DIR")).join("../docs/WIRE.md");
    std::fs::read_to_string(page).unwrap()
}

#[test]
fn the_documented_bundle() {
    let page = page();
    let shown = page
        .split("```\n")
        .find(|block| block.starts_with("c0000002"));
    let word = |word| u32::from_str_radix(word, 16).unwrap();
    let words: Vec<u32> = shown.unwrap().split_whitespace().map(word).collect();

    let (mut one, mut two) = (make(&[0; 8], 3, 1).1, make(&[0; 8], 3, 2).1);
    let mut lent = [0; BUNDLE_WORDS];
    let (answer, mut station) = open(&mut one, 1, 0, JUMP_OFF, &mut lent);
    assert_eq!(answer.number, SENT);
    let (answer, _) = open(&mut two, 1, 0, JUMP_OFF, &mut lent);
    let init = lent[..answer.count].to_vec();
    let answer = give(&mut one, &mut station, &init, 0, &mut lent);
    assert_eq!((answer.number, answer.count), (SENT, words.len()));
    assert_eq!(lent[..answer.count], words);
    assert_eq!(check(&[0; 8], 3, &words), KEPT);
}

#[test]
fn the_documented_group_numbers() {
    let page = page();
    let row = |name: &str| -> Vec<String> {
        let line = page.lines().find(|line| line.starts_with(name)).unwrap();
        let cells = line.split('|').skip(2).map(|cell| cell.trim().to_string());
        cells.filter(|cell| !cell.is_empty()).collect()
    };
    let sizes: Vec<u32> = row("| n |").iter().map(|n| n.parse().unwrap()).collect();
    assert_eq!(sizes, [2, 3, 4, 5, 6, 7, 31]);
    for (at, n) in sizes.into_iter().enumerate() {
        assert_eq!(row("| faulty")[at], most_faulty(n).to_string());
        assert_eq!(row("| q |")[at], quorum(n).to_string());
        let backings = format!("{}, {}", backing(n, 0), backing(n, 1));
        assert_eq!(row("| backing")[at], backings);
    }
}
