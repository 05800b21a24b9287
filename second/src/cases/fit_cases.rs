//! Stations that fit and stations that do not: from stations of every stage, each with one part
//! changed.

use crate::cases::calls::Calls;
use crate::cases::sample_setups::{first_rounds, setups};
use crate::station::{refused_station, HEARD_WORD};
use crate::tester::changes::changes;
use crate::tester::setup::Setup;

/// Stations of every stage at n 2, 4 and 31, changed, given a bundle that would be kept; and some
/// more that are proposing in round 1, at n 6 too.
pub fn fit_cases(calls: &mut Calls) {
    for n in [2, 4, 31] {
        let all = setups(n);
        let chosen = all.iter().enumerate().filter(|(i, (_, _, number))| {
            let some = match n {
                2 => i % 5 == 0,
                4 => i % 2 == 0,
                _ => i % 12 == 4,
            };
            some && *number != 10
        });
        for (_, (name, setup, number)) in chosen {
            fit_cases_of(calls, name, setup, *number, true);
        }
    }
    let chosen: [(u32, &[usize]); 4] = [(2, &[0, 6]), (4, &[2, 5, 18]), (6, &[0, 10]), (31, &[2])];
    for (n, places) in chosen {
        let all = first_rounds(n);
        for one in places.iter().map(|i| &all[*i]) {
            fit_cases_of(calls, &one.name, &one.setup, 20, true);
        }
    }
}

/// One station with each of the changes.
pub fn fit_cases_of(calls: &mut Calls, name: &str, setup: &Setup, number: u32, every_bit: bool) {
    calls.base(&format!("fit, {name}"), setup);
    for (station, expected) in changes(setup, number, every_bit) {
        let mut changed = setup.clone();
        changed.station = station;
        calls.give(&changed, expected);
    }
    closed_cases(calls, setup);
}

/// "A station fits if, unless closed, ...": a closed one fits whatever else it holds, but its n
/// and number are compared.
fn closed_cases(calls: &mut Calls, setup: &Setup) {
    let mut closed = setup.clone();
    closed.station[6] = 1;
    calls.give(&closed, Some(11));
    closed.station[HEARD_WORD] = u32::MAX;
    closed.station[7] = 9;
    calls.give(&closed, Some(11));
    closed.station[1] = 1;
    calls.give(&closed, Some(2));
    closed.station[1] = 2;
    closed.station[0] += 1;
    calls.give(&closed, Some(2));
    closed.station = refused_station();
    calls.give(&closed, Some(2));
}
