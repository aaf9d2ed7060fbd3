//! A second implementation of document 01 (coordinator election among cabinets) and of T-01 to T-13 of
//! document 02, written from the papers alone, so that other implementations can be compared with it.
//! Document 01's cabinet is called node here, and its book history.

#![forbid(unsafe_code)]

pub mod aldebaran;
pub mod aldebaran_reading;
pub mod aut;
pub mod bully;
pub mod calls;
pub mod check_corners;
pub mod compare;
pub mod controller;
pub mod corners;
pub mod damage;
pub mod drive;
pub mod ending;
pub mod fuzz_loop;
pub mod fuzzing;
pub mod history;
pub mod left_members;
pub mod limit_corners;
pub mod limit_tables;
pub mod list;
pub mod list_text;
pub mod machine;
pub mod majority_corners;
pub mod numbers;
pub mod print;
pub mod proved;
pub mod recovery_corners;
pub mod rest;
pub mod round;
pub mod rows;
pub mod sha256;
pub mod short;
pub mod shortest;
pub mod slow_invitation;
pub mod spread;
pub mod tables;
pub mod tally;
pub mod trace;
pub mod traffic_corners;
pub mod traffic_tables;
pub mod tuned;
pub mod two_bytes;
pub mod vectors;
