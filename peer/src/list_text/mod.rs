//! Lists as text, both ways: a list printed as text, the list of a text, and what compares others with them. The form of
//! the text is T-01's of document 02; what no document has of it was given to this program and to the proved one.

pub mod check;
pub mod compare;
pub mod corners;
pub mod limits;
pub mod list_of_text;
pub mod reading;
pub mod text_of_list;
pub mod texts;

use crate::machine::{Limits, STAND, TOWER};

/// The word before n, and the limits that it stands for.
pub const FIRST_WORDS: [(&str, Limits); 2] = [("cabinets", TOWER), ("stand", STAND)];
