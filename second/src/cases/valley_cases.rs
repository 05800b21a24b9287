//! Inputs of the program valley, each with the size of the pieces in which it is fed, and what
//! valley prints for them (docs/SCRIPT.md, "Valley").

use crate::group::quorum;
use crate::tester::rng::Rng;
use crate::valley::run;

/// No head and no body of a case is longer.
pub const LIMIT: usize = 4_000;

/// The sizes of pieces that inputs are cut into, in turn.
const PIECES: [usize; 7] = [1, 2, 3, 5, 7, 64, 4_000];

/// An input: the head, followed by the body so many times; and the size of its pieces.
pub struct Case {
    pub head: Vec<u8>,
    pub body: Vec<u8>,
    pub times: usize,
    pub piece: usize,
}

impl Case {
    pub fn input(&self) -> Vec<u8> {
        let mut input = self.head.clone();
        input.extend(self.body.repeat(self.times));
        input
    }

    fn framed(&self) -> Vec<u8> {
        let (head, body) = (self.head.len(), self.body.len());
        assert!(head <= LIMIT && body <= LIMIT && self.piece > 0);
        let line = format!("case {head} {body} {} {}\n", self.times, self.piece);
        [line.as_bytes(), &self.head, &self.body, b"\n"].concat()
    }
}

/// 01's worked example.
const EXAMPLE: &str = "n 3\nopen 1 0\nopen 2 0\ngive 1 2 0\ngive 2 1 0\ngive 1 4 0\n\
                       give 2 3 0\ngive 1 6 0\ngive 2 6 0\ngive 2 7 0\n";

/// Inputs about the first line, and what may follow it.
#[rustfmt::skip]
const FIRST_LINES: &[&str] = &[
    "", "\n", "\n\n", " ", "n", "n\n", "n ", "n \n", "n  3\n", " n 3\n", "n 3 \n", "n 3", "N 3\n",
    "n\t3\n", "n 3\r\n", "n 3\n\n", "n 3\n\nopen 1 0\n", "\nn 3\n", "n 3 3\n", "n a\n", "n -3\n",
    "n +3\n", "n 3.\n", "n 0x3\n", "m 3\n", "nn 3\n", "n3\n", "n 000003\n", "n 00003\nopen 3 1\n",
    "n 99999\n", "n 100000\n", "n 65539\n", "open 1 0\n", "give 1 1 0\n", "n 3\nn 3\n",
    "n 3\nn 4\n", "n 3\nn 9\n", "n 3\nn\n", "open 1 0\nn 3\n", "\u{0}", "n 3\u{0}\n",
    "\u{feff}n 3\n",
];

/// Lines that are bad behind an opening of station 1 at n 3.
#[rustfmt::skip]
const BAD_LINES: &[&str] = &[
    "", " ", "n 3", "open", "open ", "open 1", "open 1 ", "open 1 0 ", " open 1 0", "open  1 0",
    "open 1  0", "open 1 0 0", "Open 1 0", "OPEN 1 0", "open\t1 0", "open 1\t0", "open 1 0\r",
    "open 1 0\t", "open 1 000000", "open 000001 0", "open -1 0", "open +1 0", "open 1 a",
    "open a 1", "open 1 0x1", "open 1 1.", "open 1,0", "opens 1 0", "ope 1 0", "give", "give 1",
    "give 1 1", "give 1 1 0 0", "give 1 1 000000", "give 1 000001 0", "give  1 1 0", "give 1 1 0 ",
    "Give 1 1 0", "give 1 1 a", "gives 1 1 0", "close 1", "#", "# open 1 0", "0", "give 2 1 0",
    "give 0 1 0", "give 4 1 0", "give 99999 1 0", "give 1 0 0", "give 1 2 0", "give 1 99999 0",
    "give 1 2 2", "give 2 1 2", "give 2 2 2", "give 1 0 9", "\u{0}", "open 1 0\u{0}", "\u{7f}",
];

/// Lines that are events behind it, most of them refused.
#[rustfmt::skip]
const EVENTS: &[&str] = &[
    "open 0 0", "open 4 0", "open 99999 1", "open 2 2", "open 2 99999", "open 0 2", "open 1 0",
    "open 1 1", "open 1 2", "open 00001 00000", "give 1 1 0", "give 1 1 1", "give 1 1 2",
    "give 1 1 99999", "give 00001 00001 00000", "open 00002 00001",
];

fn first_lines() -> Vec<Vec<u8>> {
    let mut all: Vec<Vec<u8>> = Vec::new();
    all.extend(FIRST_LINES.iter().map(|text| text.as_bytes().to_vec()));
    for n in 0..=11 {
        all.push(format!("n {n}\nopen 1 0\nopen 2 1\nopen {n} 1\n").into_bytes());
        all.push(format!("n 0000{n}\nopen 2 0").into_bytes());
    }
    all.push(vec![0xff, 0xfe, b'\n']);
    all.push(b"n 3\nopen 1 \xff\n".to_vec());
    all
}

fn bad_lines() -> Vec<Vec<u8>> {
    let mut all = Vec::new();
    for line in BAD_LINES {
        all.push(format!("n 3\nopen 1 1\n{line}\nopen 3 0\n").into_bytes());
        all.push(format!("n 3\nopen 1 1\n{line}").into_bytes());
    }
    all
}

fn events() -> Vec<Vec<u8>> {
    let mut all = Vec::new();
    for line in EVENTS {
        all.push(format!("n 3\nopen 1 1\n{line}\nopen 3 0\ngive 1 2 0\n{line}\n").into_bytes());
        all.push(format!("n 3\n{line}\n").into_bytes());
        all.push(format!("n 3\nopen 1 1\n{line}").into_bytes());
    }
    all
}

/// The longest line that can be read has 22 bytes: lines around it, and a long one.
fn long_lines() -> Vec<Vec<u8>> {
    let longest = "give 00001 00001 00000";
    let mut lines = vec![longest.to_string()];
    for length in [22, 23, 24, 1_000] {
        let fill = |short: &str, with: &str| short.to_string() + &with.repeat(length - short.len());
        lines.extend(["open 1 0", "n 3", "open 1 ", "give"].map(|short| fill(short, " ")));
        lines.extend(["open 1 0", "n 3", "open 1 ", "give 1 1 "].map(|short| fill(short, "0")));
        lines.extend([fill(longest, " "), fill(longest, "0"), fill(longest, "\r")]);
        lines.extend([fill("", " "), fill("", "give "), fill("", "n 3 open 1 0 ")]);
    }
    let mut all = Vec::new();
    for mut line in lines {
        line.truncate(1_000);
        all.push(format!("n 3\nopen 1 1\n{line}\nopen 3 0\n").into_bytes());
        all.push(format!("n 3\nopen 1 1\n{line}").into_bytes());
        all.push(format!("{line}\nn 3\n").into_bytes());
    }
    all
}

/// A script of events that goes on while the host likes it: a station is given what others sent,
/// told by what the run printed so far.
struct Host {
    rng: Rng,
    n: u32,
    input: String,
    /// The station that wrote each bundle, and its step.
    bundles: Vec<(u32, u32)>,
    steps: Vec<Option<u32>>,
}

impl Host {
    fn new(seed: u64, n: u32) -> Host {
        Host {
            rng: Rng::new(seed),
            n,
            input: format!("n {n}\n"),
            bundles: Vec::new(),
            steps: vec![None; n as usize + 1],
        }
    }

    /// Adds a line, and looks at what it printed; false where the run ended.
    fn say(&mut self, station: u32, line: &str) -> bool {
        self.input.push_str(line);
        self.input.push('\n');
        let output = String::from_utf8(run(self.input.as_bytes())).expect("it prints text");
        let last = output.lines().last().unwrap_or("");
        let numbers: Vec<u32> = last.split(' ').filter_map(|w| w.parse().ok()).collect();
        let [_, returned, step, _] = numbers[..] else {
            return false;
        };
        if returned >= 20 {
            self.bundles.push((station, step));
            self.steps[station as usize] = Some(step);
        }
        true
    }

    /// A bundle of the station's step from another station, mostly a late one.
    fn choose(&mut self, station: u32) -> usize {
        let step = self.steps[station as usize];
        let fit: Vec<usize> = (0..self.bundles.len())
            .filter(|k| Some(self.bundles[*k].1) == step && self.bundles[*k].0 != station)
            .collect();
        match fit.is_empty() || self.rng.percent(15) {
            true => self.rng.below(self.bundles.len()) + 1,
            false => self.rng.pick(&fit) + 1,
        }
    }

    fn go(mut self, events: usize, coins: bool) -> String {
        for station in 1..=self.n {
            let value = self.rng.bit();
            if station <= 2 || !self.rng.percent(20) {
                self.say(station, &format!("open {station} {value}"));
            }
        }
        for _ in 0..events {
            let open: Vec<u32> = (1..=self.n)
                .filter(|s| self.steps[*s as usize].is_some())
                .collect();
            let station = self.rng.pick(&open);
            let k = self.choose(station);
            let coin = if coins { station & 1 } else { self.rng.bit() };
            if !self.say(station, &format!("give {station} {k} {coin}")) {
                break;
            }
        }
        self.input
    }
}

/// Two stations of 3 with both values that toss different coins: votes none, round after round.
fn tossing() -> String {
    let mut input = String::from("n 3\nopen 1 0\nopen 2 1\nopen 3 1\ngive 1 2 0\ngive 2 3 0\n");
    let (mut one, mut two) = (4, 5);
    for _ in 0..20 {
        input.push_str(&format!("give 1 {two} 0\ngive 2 {one} 1\n"));
        one += 2;
        two += 2;
    }
    input
}

/// Two stations of 3 that decide and go on, the third not open, until 40 bundles are written.
fn marching() -> String {
    let mut input = String::from("n 3\nopen 1 0\nopen 2 0\n");
    for k in (1..39).step_by(2) {
        input.push_str(&format!("give 1 {} 0\ngive 2 {k} 1\n", k + 1));
    }
    input
}

/// Bundles 40 and 41: events that write nothing go on behind 40, the one that would write ends.
fn forty() -> Vec<Vec<u8>> {
    let full = tossing();
    let lines: Vec<&str> = full.lines().collect();
    let mut all = Vec::new();
    for count in 38..=lines.len() {
        let mut input = lines[..count].join("\n");
        all.push(input.clone().into_bytes());
        input.push_str(
            "\ngive 1 1 0\ngive 2 2 2\nopen 1 0\nopen 9 0\nopen 3 7\ngive 3 40 1\ngive 3 41 1\n",
        );
        all.push(input.into_bytes());
    }
    for line in [
        "open 3 2",
        "open 3 0",
        "open 3 0\nopen 3 1",
        "give 1 40 0",
        "give 3 1 0",
    ] {
        all.push(format!("{}open 1 1\n{line}\nopen 2 2\n", marching()).into_bytes());
    }
    all
}

/// A quorum of stations that speak only to each other, in the order of their numbers: in each
/// phase each of them is given what the others wrote in the phase before, of which the first
/// bundle has a number, and writes at the last.
fn phases(n: u32, first: usize, count: usize, coin: fn(usize) -> usize) -> String {
    let q = quorum(n);
    let mut text = String::new();
    for phase in 0..count {
        for s in 1..=q {
            for other in (1..=q).filter(|other| *other != s) {
                let k = first + phase * q + other - 1;
                text.push_str(&format!("give {s} {k} {}\n", coin(s)));
            }
        }
    }
    text
}

/// A quorum with one value, which decides it; the bundles of the next round follow.
fn agreeing(n: u32, value: u32) -> String {
    let mut input = format!("n {n}\n");
    for s in 1..=quorum(n) {
        input.push_str(&format!("open {s} {value}\n"));
    }
    input + &phases(n, 1, 4, |_| 0)
}

/// At n of 4 or more: stations 1 to q - 1 propose 0 and station q proposes 1. So all vote none,
/// and toss their coins.
fn disagreeing(n: u32, count: usize, coin: fn(usize) -> usize) -> String {
    let q = quorum(n);
    let n_all = n as usize;
    let mut input = format!("n {n}\n");
    for s in 1..=n_all {
        input.push_str(&format!("open {s} {}\n", u32::from(s >= q)));
    }
    for s in 1..q {
        for k in (1..=q).filter(|k| *k != s) {
            input.push_str(&format!("give {s} {k} {}\n", coin(s)));
        }
    }
    let ones = q + 1..=n_all;
    for k in ones.chain(1..q).take(q - 1) {
        input.push_str(&format!("give {q} {k} {}\n", coin(q)));
    }
    input + &phases(n, n_all + 1, count, coin)
}

fn votes() -> Vec<Vec<u8>> {
    let mut all = Vec::new();
    for n in 2..=7 {
        all.extend([0, 1].map(|value| agreeing(n, value).into_bytes()));
    }
    for n in 4..=7 {
        all.push(disagreeing(n, 4, |_| 0).into_bytes());
        all.push(disagreeing(n, 4, |_| 1).into_bytes());
        all.push(disagreeing(n, 12, |s| s & 1).into_bytes());
    }
    all
}

fn inputs() -> Vec<Vec<u8>> {
    let mut all = vec![
        EXAMPLE.as_bytes().to_vec(),
        EXAMPLE.trim_end().as_bytes().to_vec(),
    ];
    all.extend(first_lines());
    all.extend(bad_lines());
    all.extend(events());
    all.extend(long_lines());
    all.extend(votes());
    all.push(tossing().into_bytes());
    all.extend(forty());
    for n in 2..=7 {
        for seed in 0..6 {
            let host = Host::new(100 * n as u64 + seed, n);
            all.push(host.go(90 + 10 * n as usize, seed % 2 == 0).into_bytes());
        }
    }
    all
}

/// An input in two cuttings: as a head alone, and in pieces of another size as a head and a body,
/// parted at a place that moves on with the number of the input.
fn cuttings((i, input): (usize, Vec<u8>)) -> [Case; 2] {
    let (head, body) = input.split_at(i % (input.len() + 1));
    let whole = Case {
        head: input.clone(),
        body: Vec::new(),
        times: 0,
        piece: PIECES[i % PIECES.len()],
    };
    let parted = Case {
        head: head.to_vec(),
        body: body.to_vec(),
        times: 1,
        piece: PIECES[(i + 3) % PIECES.len()],
    };
    [whole, parted]
}

/// Inputs that are long by the repetition of their body: 100,000 lines in odd pieces, events of
/// one kind, and a line of a million bytes.
fn repeated() -> Vec<Case> {
    let case = |head: &str, body: &str, times: usize, piece: usize| Case {
        head: head.as_bytes().to_vec(),
        body: body.as_bytes().to_vec(),
        times,
        piece,
    };
    let mixed = "open 1 0\ngive 1 1 0\ngive 2 7 2\nopen 9 1\n";
    let opened = "n 3\nopen 1 0\nopen 2 0\n";
    vec![
        case(EXAMPLE, mixed, 25_000, 7),
        case(opened, "give 2 2 1\n", 2_000, 3),
        case(opened, "open 00000 99999\n", 2_000, 64),
        case(opened, "open 3 1\n", 500, 1),
        case(opened, "give 3 1 0\n", 1_000, 5),
        case("n 3\nopen 1 0\n", &"0".repeat(LIMIT), 250, 64),
        case("", &" ".repeat(LIMIT), 250, LIMIT),
        case("", "\n", 999_999, 1),
        case("n 2\n", "", 9, 999_999),
    ]
}

pub fn cases() -> Vec<Case> {
    let mut all: Vec<Case> = inputs()
        .into_iter()
        .enumerate()
        .flat_map(cuttings)
        .collect();
    all.extend(repeated());
    all
}

/// The cases in their frames, and what is printed: for each case what valley prints for its input,
/// between a line `case` and a line `end`.
pub fn valleys() -> (Vec<u8>, Vec<u8>) {
    let mut stdin = Vec::new();
    let mut stdout = Vec::new();
    for case in cases() {
        stdin.extend(case.framed());
        stdout.extend([b"case\n", &run(&case.input())[..], b"end\n"].concat());
    }
    (stdin, stdout)
}
