//! T-07 of document 02, "The Bully Algorithm for short cables": a machine of its own beside document 01's,
//! and what compares a library with it.

pub mod bytes;
pub mod claims;
pub mod compare;
pub mod corners;
pub mod example;
pub mod fuzzing;
pub mod machine;
pub mod runs;
pub mod tables;
pub mod words;
