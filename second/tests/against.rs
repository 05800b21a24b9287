//! Coins against a group: no sound site decides for thousands of rounds, and then all do.

use second::returns::{DECIDED, SENT};
use second::tester::against::{script, Against, COIN};
use second::tester::script::{read_line, run, Command, Machine};
use second::words::{Bundle, Flag, Kind, NONE};

const ROUNDS: u32 = 3_000;

#[test]
fn nobody_decides_for_3000_rounds_and_then_all_do() {
    let mut calls = Against::rounds(ROUNDS);
    // the INITs, and the proposals and votes of each round
    assert_eq!(calls.answered.len(), 1 + 2 * ROUNDS as usize);
    assert!(calls.answered.iter().all(|step| *step == [SENT; 3]));
    assert_eq!(calls.decisions(), [NONE; 3]);
    calls.good_round();
    assert_eq!(
        calls.answered[2 * ROUNDS as usize + 1..],
        [[SENT; 3], [DECIDED; 3]]
    );
    assert_eq!(calls.decisions(), [0; 3]);
}

/// Each giving has the coin 1; the second site tosses it in each round from the second on; every other
/// proposal behind the first round is 0.
#[test]
fn every_coin_is_1() {
    let rounds = 100;
    let (script, _) = script(rounds);
    let mut machine = Machine::default();
    let (mut givings, mut tossed) = (0, Vec::new());
    for command in script
        .lines()
        .map(|line| read_line(line).expect("a command"))
    {
        let report = machine.carry_out(&command);
        let Command::Give(_, _, _, coin, _) = command else {
            continue;
        };
        assert_eq!(coin, COIN);
        givings += 1;
        let report = report.expect("a giving is a call");
        let main = Bundle::read(&report.lent.1[..report.count], 3)
            .expect("a bundle")
            .main;
        match (main.kind, main.flag) {
            (Kind::P, Flag::RGet) => tossed.push((main.station, main.round, main.value)),
            (Kind::P, Flag::DGet) if main.round > 1 => assert_eq!(main.value, 0),
            _ => (),
        }
    }
    assert_eq!(givings, 3 * (1 + 2 * rounds + 2));
    let second_site: Vec<_> = (2..=rounds).map(|round| (2, round, COIN)).collect();
    assert_eq!(tossed, second_site);
}

/// The script alone prints what was recorded with it.
#[test]
fn the_script_prints_what_was_recorded() {
    let (script, printed) = script(50);
    assert!(run(&script) == printed);
}
