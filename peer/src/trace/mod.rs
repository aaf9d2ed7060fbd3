//! A run step by step: the trace of a list, the bench program's text read off it, and what compares others with them. What
//! no document has of its form was given to this program and to the proved one.

pub mod check;
pub mod compare;
pub mod corners;
pub mod lists;
pub mod reading;
pub mod text;
pub mod words;
