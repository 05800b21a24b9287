//! The random tester and scripts of calls: what carries one out, what records one, scripts from a
//! seed. It stands on the ten files above it alone.

pub mod adversary;
pub mod against;
pub mod asides;
pub mod author;
pub mod changes;
pub mod counts;
pub mod faulty_turns;
pub mod jumps;
pub mod list;
pub mod loose;
pub mod must_hold;
pub mod random;
pub mod registers;
pub mod rng;
pub mod script;
pub mod seeded;
pub mod setup;
pub mod site_calls;
pub mod sound_turns;
pub mod thresholds;
pub mod world;
