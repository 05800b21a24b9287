//! The table of returns, in the order of document 01.

/// "kept, step not ended; also valid, coded, or module made"
pub const KEPT: u32 = 0;
/// "sent: bundle written, its word count with it"
pub const SENT: u32 = 20;
/// "sent, and first decided in this call"
pub const DECIDED: u32 = 21;
/// "closed in this call; a decision may have been made"
pub const CLOSED_NOW: u32 = 22;
/// Job 3 of 02: "a valid bundle of a later step makes the station enter that step and return 23"
pub const JUMPED: u32 = 23;
/// "lent output below 331 words"
pub const SHORT_OUTPUT: u32 = 1;
/// "n, station number, proposal or coin out of range; a station whose n or number isn't the given
/// module's, or whose stage, set and held statements don't fit one another"; Job 3 of 02: "a jump
/// setting outside 0 and 1 is 2"
pub const OUT_OF_RANGE: u32 = 2;
/// "words, kinds, fields or lengths not as above, a station over n included; or the wrong way to
/// code"
pub const ILL_FORMED: u32 = 3;
/// "a question differs from the main statement's, or that from the station's"
pub const OTHER_QUESTION: u32 = 4;
/// "a code that doesn't verify, or a statement of another station to code"
pub const BAD_CODE: u32 = 5;
/// "certificate not as rules 1 to 7"
pub const NOT_BACKED: u32 = 6;
/// "step below the station's"
pub const STEP_BELOW: u32 = 7;
/// "step above it"; Job 3 of 02: "8 is given only with jump off"
pub const STEP_ABOVE: u32 = 8;
/// "that station is held in this step"
pub const HEARD: u32 = 9;
/// "the held and the new would have votes for both 0 and 1, or, in a round over 1, D-GET of both
/// values"
pub const CONFLICT: u32 = 10;
/// "station closed"
pub const CLOSED: u32 = 11;
/// "the pair isn't above the module's last"
pub const NOT_ABOVE: u32 = 12;

/// Every number of the table, in its order, that of Job 3 behind the others that refuse nothing.
pub const TABLE: [u32; 17] = [0, 20, 21, 22, 23, 1, 2, 3, 4, 5, 6, 7, 8, 9, 10, 11, 12];

/// The numbers that refuse: the table's lines 1 to 12.
pub fn is_refusal(number: u32) -> bool {
    (SHORT_OUTPUT..=NOT_ABOVE).contains(&number)
}
