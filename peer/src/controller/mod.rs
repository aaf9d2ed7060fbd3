//! T-11 of document 02, "The controller in the cabinet": one cabinet's share of document 01's machine, its messages
//! in bytes, and what compares a library with it.

pub mod bytes;
pub mod calls;
pub mod compare;
pub mod corners;
pub mod damage;
pub mod fuzzing;
pub mod message;
pub mod queue;
pub mod reading;
pub mod records;
pub mod share;
