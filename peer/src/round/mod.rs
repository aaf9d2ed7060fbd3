//! T-09 of document 02, "Round of the cable": a driver above document 01's machine, and what compares a library
//! with it.

pub mod bound;
pub mod bytes;
pub mod compare;
pub mod corners;
pub mod driver;
pub mod fuzzing;
pub mod schedules;
pub mod tables;
