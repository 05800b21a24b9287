//! All that a giving takes, put together before it is made.

use crate::sealed::Module;
use crate::station::StationWords;

/// All that a giving takes.
#[derive(Clone)]
pub struct Setup {
    pub module: Module,
    pub station: StationWords,
    pub given: Vec<u32>,
    pub coin: u32,
    pub output: usize,
}
