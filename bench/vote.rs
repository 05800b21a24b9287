//! Times whole votes without loss: the proved group simulation (`crates/group_simulation/out/group_simulation`, its path is the argument) beside the second implementation,
//! which votes on the same questions in the same order and has to print the same.

use std::io::Write;
use std::process::{Command, Stdio};

use second::hosts::group_simulation::{votes, Counts, BEST};

const ROUNDS: usize = 7;

#[repr(C)]
#[derive(Default)]
struct Usage {
    user: [i64; 2],
    system: [i64; 2],
    rest: [i64; 14],
}

extern "C" {
    fn getrusage(who: i32, usage: *mut Usage) -> i32;
}

/// Seconds of processor time, of this process (0) or of its children that ended (-1).
fn used(who: i32) -> f64 {
    let mut usage = Usage::default();
    unsafe { getrusage(who, &mut usage) };
    let seconds = |time: [i64; 2]| time[0] as f64 + time[1] as f64 / 1e6;
    seconds(usage.user) + seconds(usage.system)
}

fn proved(program: &str, input: &[u8]) -> String {
    let mut child = Command::new(program)
        .stdin(Stdio::piped())
        .stdout(Stdio::piped())
        .spawn()
        .expect("the proved program is built");
    child.stdin.take().expect("a pipe").write_all(input).expect("it reads");
    let output = child.wait_with_output().expect("it ends");
    String::from_utf8(output.stdout).expect("it prints text")
}

fn main() {
    let program = std::env::args().nth(1).expect("the path of the proved program");
    println!("| n | questions | bundles given | ours, us a bundle | Rust, us a bundle | ours, us a decision | Rust, us a decision | Rust's time / ours |");
    println!("|---|---|---|---|---|---|---|---|");
    for (byte, n, questions) in [(b'4', 4, 1200), (b'7', 7, 700), (b'3', 31, 30)] {
        let kinds: Vec<u8> = (0..questions).map(|i| b"01m"[i % 3]).collect();
        let mut input = vec![byte, b'.'];
        input.extend(&kinds);
        let (mut ours, mut rust) = (f64::MAX, f64::MAX);
        let mut counts = Counts::default();
        for _ in 0..ROUNDS {
            let before = used(-1);
            let printed = proved(&program, &input);
            ours = ours.min(used(-1) - before);
            counts = Counts::default();
            let before = used(0);
            let expected = votes(n, &kinds, BEST, &mut counts);
            rust = rust.min(used(0) - before);
            assert_eq!(printed, expected);
        }
        let (all, decisions) = (counts.given as f64, questions as f64 * f64::from(n));
        println!(
            "| {n} | {questions} | {} | {:.2} | {:.2} | {:.1} | {:.1} | {:.2} |",
            counts.given,
            ours / all * 1e6,
            rust / all * 1e6,
            ours / decisions * 1e6,
            rust / decisions * 1e6,
            rust / ours
        );
    }
}
