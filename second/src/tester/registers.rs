//! Which registers the calls of a list use, and a bundle on the air in one of them.

use crate::words::Statement;

/// Buffers that hold bundles on the air, used again in turn; the others are for one call.
pub const AIR_BUFFERS: usize = 118;
pub const DAMAGED: usize = 127;
pub const SHORT: usize = 126;
pub const SPARE_OUTPUT: usize = 125;
/// Station registers: lineages from 0 on, then one for calls beside the list, copies of earlier
/// stations, and one for forging.
pub const LINEAGE_REGISTERS: usize = 49;
pub const ASIDE: usize = 49;
pub const COPIES: std::ops::Range<usize> = 50..63;
pub const FORGED: usize = 63;

/// A well-formed bundle on the air.
#[derive(Clone, Copy)]
pub struct Message {
    pub buffer: usize,
    pub main: Statement,
}
