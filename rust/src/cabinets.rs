//! Sets of cabinets, and ordered pairs of them.

use std::fmt;

/// A set of the cabinets 1 to 16.
///
/// ```
/// use nevraspu::Cabinets;
///
/// let set = Cabinets::from_bits(0b101);
/// assert_eq!(set.len(), 2);
/// assert!(set.contains(3) && !set.contains(2) && !set.contains(17));
/// assert_eq!(set.iter().collect::<Vec<u8>>(), [1, 3]);
/// assert_eq!(format!("{set:?}"), "{1, 3}");
/// ```
#[derive(Clone, Copy, Default, PartialEq, Eq, Hash)]
pub struct Cabinets(u16);

impl Cabinets {
    /// The set in a record's form: the lowest bit is cabinet 1.
    pub fn from_bits(bits: u16) -> Cabinets {
        Cabinets(bits)
    }

    /// The set in a record's form.
    pub fn bits(self) -> u16 {
        self.0
    }

    /// Whether this cabinet is in it; no set has one outside 1 to 16.
    pub fn contains(self, cabinet: u8) -> bool {
        (1..=16).contains(&cabinet) && self.0 >> (cabinet - 1) & 1 == 1
    }

    /// How many cabinets are in it.
    pub fn len(self) -> usize {
        self.0.count_ones() as usize
    }

    /// Whether it has none.
    pub fn is_empty(self) -> bool {
        self.0 == 0
    }

    /// Its cabinets, from the lowest up.
    pub fn iter(self) -> impl Iterator<Item = u8> {
        (1..=16).filter(move |&cabinet| self.contains(cabinet))
    }
}

/// As in `{1, 3}`.
impl fmt::Debug for Cabinets {
    fn fmt(&self, f: &mut fmt::Formatter) -> fmt::Result {
        f.debug_set().entries(self.iter()).finish()
    }
}

/// An ordered pair of cabinets, and a place in the round of [`Table::turn`](crate::Table::turn).
#[derive(Clone, Copy, Debug, PartialEq, Eq, Hash)]
#[allow(missing_docs)]
pub struct Pair {
    pub sender: u8,
    pub receiver: u8,
}

impl Pair {
    /// The pair of these two.
    pub fn new(sender: u8, receiver: u8) -> Pair {
        Pair { sender, receiver }
    }
}
