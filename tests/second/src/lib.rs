//! Document 01, with the change requests that have landed, written again from the paper alone: stored tables and
//! sheets, plans and runs. Plain before fast.
//!
//! The run is written over true instants, 64-bit numbers that never come round, and holds no lapse marks. What a 32-bit
//! run must show is derived from them in `states`.

#![forbid(unsafe_code)]

pub mod classic;
pub mod converting;
pub mod form_numbers;
pub mod forms;
pub mod held_numbers;
pub mod numbers;
pub mod planning;
pub mod reading;
pub mod running;
pub mod sheet;
pub mod starting;
pub mod states;
pub mod tables;
pub mod writing;
