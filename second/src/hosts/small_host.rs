//! What the small host prints (crates/small_host), from the description at its head: three sites
//! vote on question 1 over a radio that loses packets, with n 3 and then with n 1, which refuses every
//! call.

use crate::group::BUNDLE_WORDS;
use crate::hmac::Key;
use crate::returns::{DECIDED, KEPT, SENT, STEP_BELOW};
use crate::sealed::{make, Module};
use crate::station::{give, open, StationWords, JUMP_OFF};
use crate::status::status;
use crate::words::{Bundle, Step, NONE};

const KEY: Key = [0x0707_0707; 8];
const QUESTION: u32 = 1;
const COIN: u32 = 0;
/// What sites 1, 2 and 3 propose.
const PROPOSALS: [u32; 3] = [1, 1, 0];
/// From which site to which the packets of an exchange go, by their places.
const PACKETS: [(usize, usize); 6] = [(0, 1), (0, 2), (1, 0), (1, 2), (2, 0), (2, 1)];
/// The packets of each exchange, `x` where one is lost.
const EXCHANGES: [&[u8; 6]; 5] = [b".x.xxx", b".x.xxx", b"......", b"......", b"......"];

struct Site {
    own: Module,
    station: StationWords,
    /// The own bundles, one a step.
    bundles: Vec<Vec<u32>>,
}

/// The step of a bundle that a station of this group wrote.
fn step_of(words: &[u32]) -> Step {
    Bundle::read(words, PROPOSALS.len() as u32)
        .expect("a bundle")
        .main
        .step()
}

/// Makes a site's module and opens its station: the site, and what the two calls returned.
fn start(n: u32, number: u32, proposal: u32) -> (Site, u32, u32) {
    let (made, mut own) = make(&KEY, n, number);
    let mut lent = [0; BUNDLE_WORDS];
    let (answer, station) = open(&mut own, QUESTION, proposal, JUMP_OFF, &mut lent);
    let bundles = vec![lent[..answer.count].to_vec()];
    let site = Site {
        own,
        station,
        bundles,
    };
    (site, made, answer.number)
}

impl Site {
    fn last(&self) -> Vec<u32> {
        self.bundles.last().expect("opened").clone()
    }

    /// Gives the station a bundle: the number that this returned.
    fn hear(&mut self, words: &[u32]) -> u32 {
        let mut lent = [0; BUNDLE_WORDS];
        let answer = give(&mut self.own, &mut self.station, words, COIN, &mut lent);
        if [SENT, DECIDED].contains(&answer.number) {
            self.bundles.push(lent[..answer.count].to_vec());
        }
        answer.number
    }

    /// The own bundle of a step.
    fn of_step(&self, step: Step) -> Vec<u32> {
        let found = self.bundles.iter().find(|words| step_of(words) == step);
        found
            .expect("a station writes a bundle in each step")
            .clone()
    }
}

/// A packet with a site's last bundle, and the answer to it: what is printed.
fn packet(sites: &mut [Site], from: usize, to: usize) -> String {
    let words = sites[from].last();
    let number = sites[to].hear(&words);
    if number != STEP_BELOW {
        return format!(" {number}");
    }
    let own = sites[to].of_step(step_of(&words));
    let back = sites[from].hear(&own);
    format!(" {number} back {back}")
}

/// What the vote with this n prints.
fn vote(n: u32) -> String {
    let mut text = format!("n {n}\n");
    let mut sites = Vec::new();
    for (number, proposal) in (1..).zip(PROPOSALS) {
        let (site, made, opened) = start(n, number, proposal);
        text += &format!("site {number}: made {made}, opened {opened}\n");
        sites.push(site);
    }
    for exchange in EXCHANGES {
        text += "given";
        for ((from, to), lost) in PACKETS.into_iter().zip(exchange) {
            text += &match lost {
                b'x' => " -".to_string(),
                _ => packet(&mut sites, from, to),
            };
        }
        text += "\n";
    }
    for (number, site) in (1..).zip(&sites) {
        let told = status(&site.own, &site.station, QUESTION);
        text += &format!("site {number}: read {}", told.number);
        if told.number == KEPT && told.decision != NONE {
            text += &format!(", decided {}", told.decision);
        }
        text += "\n";
    }
    text
}

/// The whole output.
pub fn run() -> String {
    vote(3) + &vote(1)
}
