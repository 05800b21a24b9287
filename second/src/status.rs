//! Reading a station: a call that changes nothing.

use crate::returns::{KEPT, OUT_OF_RANGE};
use crate::sealed::Module;
use crate::station::{fits, StationWords};
use crate::words::NONE;

/// What reading a station tells: the returned number, the decision on the question asked for (or
/// none), the stage's three words and whether the station is closed.
#[derive(Clone, Copy, Debug, PartialEq, Eq)]
pub struct Status {
    pub number: u32,
    pub decision: u32,
    pub stage: [u32; 3],
    pub closed: bool,
}

/// "Calls added later test 2 on any module or station lent to them, straight after 1." Nothing is
/// told of a station that does not fit, and no decision of another question.
pub fn status(module: &Module, station: &StationWords, question: u32) -> Status {
    if !fits(station, module) {
        return Status {
            number: OUT_OF_RANGE,
            decision: NONE,
            stage: [0; 3],
            closed: true,
        };
    }
    let asked = station[2] == question;
    Status {
        number: KEPT,
        decision: if asked { station[7] } else { NONE },
        stage: [station[3], station[4], station[5]],
        closed: station[6] == 1,
    }
}
