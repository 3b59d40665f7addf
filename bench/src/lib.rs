//! Benchmarks of the proved planner, run by hand: docs/SPEED.md has the commands and the figures.

pub mod native;
pub mod rooms;
