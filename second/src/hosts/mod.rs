//! What the proved hosts print, computed again: whole votes over a radio, with or without loss.

pub mod group_simulation;
pub mod lossy_host;
pub mod small_host;
