//! T-13 of document 02, "It comes to rest": a number read off a table that every accepted deliver, lose, expire, tick
//! or finish lowers, the program that runs a list and then the round until no message waits, and what compares
//! others with them.

pub mod check;
pub mod compare;
pub mod corners;
pub mod every;
pub mod fuzzing;
pub mod lists;
pub mod potential;
pub mod reading;
pub mod runs;
pub mod search;
pub mod text;
