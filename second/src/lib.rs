//! A second implementation of Trusted Ben-Or stations for relay sites.
//!
//! It is written from document 01, the landed requests of 02 and the paper (004) alone, to be held
//! against them sentence by sentence. Their sentences stand in quotes at the code that renders them.
//! One file follows the proved code: the loop of `hosts/group_simulation.rs`, which holds no rule of
//! 01.

// the ten files that render 01 and 02
pub mod check;
pub mod group;
pub mod hmac;
pub mod returns;
pub mod sealed;
pub mod sha256;
pub mod station;
pub mod status;
pub mod valley;
pub mod words;

// what stands on them, in three rooms
pub mod cases;
pub mod hosts;
pub mod tester;
