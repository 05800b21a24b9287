//! What the lossy host prints (crates/lossy_host): three sites with jump on vote on question 1 over a
//! radio that loses packets, and send nothing but their last bundles. A site that fell behind jumps.

use crate::group::BUNDLE_WORDS;
use crate::hmac::Key;
use crate::returns::{DECIDED, JUMPED, SENT};
use crate::sealed::{make, Module};
use crate::station::{give, open, StationWords, JUMP_ON};
use crate::status::status;
use crate::words::{Bundle, Statement};

const N: u32 = 3;
const KEY: Key = [0x0707_0707; 8];
const QUESTION: u32 = 1;
/// What sites 1, 2 and 3 propose.
const PROPOSALS: [u32; 3] = [1, 1, 0];
/// From which site to which the packets of a turn go, by their places.
const PACKETS: [(usize, usize); 6] = [(0, 1), (0, 2), (1, 0), (1, 2), (2, 0), (2, 1)];
/// The packets of a turn: `x` one that is lost, else the coin of the giving.
pub type Turn = &'static [u8; 6];
pub const TURNS: [Turn; 8] = [
    b"x10001", b"1011x0", b"01xxxx", b"10x1x1", b"x11xx1", b"x1x010", b"x010x0", b"0x0xx1",
];

struct Site {
    own: Module,
    station: StationWords,
    last: Vec<u32>,
}

/// What a vote printed, and the statements that the sites jumped to.
pub struct Vote {
    pub text: String,
    pub jumps: Vec<Statement>,
}

/// Makes a site's module and opens its station: the site, and what the two calls returned.
fn start(number: u32, proposal: u32, jump: u32) -> (Site, u32, u32) {
    let (made, mut own) = make(&KEY, N, number);
    let mut lent = [0; BUNDLE_WORDS];
    let (answer, station) = open(&mut own, QUESTION, proposal, jump, &mut lent);
    let site = Site {
        own,
        station,
        last: lent[..answer.count].to_vec(),
    };
    (site, made, answer.number)
}

impl Site {
    /// Gives the station a bundle: the number that this returned. A bundle that it writes is the one to
    /// send from then on.
    fn hear(&mut self, words: &[u32], coin: u32) -> u32 {
        let mut lent = [0; BUNDLE_WORDS];
        let answer = give(&mut self.own, &mut self.station, words, coin, &mut lent);
        if [SENT, DECIDED, JUMPED].contains(&answer.number) {
            self.last = lent[..answer.count].to_vec();
        }
        answer.number
    }
}

/// A vote with this jump setting over these turns.
pub fn vote(jump: u32, turns: &[Turn]) -> Vote {
    let (mut text, mut jumps, mut sites) = (String::new(), Vec::new(), Vec::new());
    for (number, proposal) in (1..).zip(PROPOSALS) {
        let (site, made, opened) = start(number, proposal, jump);
        text += &format!("site {number}: made {made}, opened {opened}\n");
        sites.push(site);
    }
    for turn in turns {
        text += "given";
        for ((from, to), packet) in PACKETS.into_iter().zip(*turn) {
            let coin = match packet {
                b'0' => 0,
                b'1' => 1,
                _ => {
                    text += " -";
                    continue;
                }
            };
            let words = sites[from].last.clone();
            let number = sites[to].hear(&words, coin);
            text += &format!(" {number}");
            if number == JUMPED {
                let written = Bundle::read(&sites[to].last, N).expect("a bundle");
                jumps.push(written.main);
            }
        }
        text += "\n";
    }
    for (number, site) in (1..).zip(&sites) {
        let told = status(&site.own, &site.station, QUESTION);
        text += &format!(
            "site {number}: read {}, decision {}\n",
            told.number, told.decision
        );
    }
    Vote { text, jumps }
}

/// The whole output.
pub fn run() -> String {
    vote(JUMP_ON, &TURNS).text
}
