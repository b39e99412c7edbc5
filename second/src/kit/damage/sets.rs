//! What can be wrong with a packed set (02, Paper 4): each fault made, and found again.

use std::fmt;

use crate::kit::generate::rng::Rng;
use crate::kit::generate::sets::marks;
use crate::lengths::edge_count;
use crate::packed::{packed_size, put_mark};

#[derive(Clone, Copy, Debug, PartialEq, Eq)]
pub enum SetFault {
    Shorter,
    Longer,
    /// A mark of 3 at this place of a byte before the last.
    Three(usize),
    /// A mark of 3 at this place of a last byte with so many marks.
    LastThree {
        marks: usize,
        place: usize,
    },
    /// This bit, in a last byte with so many marks.
    Unused {
        marks: usize,
        bit: usize,
    },
}

use SetFault::*;

/// How many marks the last byte has.
fn last_marks(n: u16) -> usize {
    edge_count(n) - 4 * (packed_size(n) - 1)
}

impl SetFault {
    /// Every fault there is.
    pub fn all() -> Vec<SetFault> {
        let mut all = vec![Shorter, Longer];
        all.extend((0..4).map(Three));
        for marks in 1..=4 {
            all.extend((0..marks).map(|place| LastThree { marks, place }));
            all.extend((2 * marks..8).map(|bit| Unused { marks, bit }));
        }
        all
    }

    /// Those that a set for n points can have.
    pub fn with(n: u16) -> Vec<SetFault> {
        let can_have = |fault: &SetFault| match *fault {
            LastThree { marks, .. } | Unused { marks, .. } => marks == last_marks(n),
            _ => true,
        };
        SetFault::all().into_iter().filter(can_have).collect()
    }

    /// Gives the fault to a good set for n points.
    pub fn make(self, rng: &mut Rng, n: u16, set: &mut Vec<u8>) {
        let last = packed_size(n) - 1;
        match self {
            Shorter => drop(set.pop()),
            Longer => set.push(0),
            Three(place) => put_mark(set, 4 * rng.below(last) + place, 3),
            LastThree { place, .. } => put_mark(set, 4 * last + place, 3),
            Unused { bit, .. } => set[last] |= 1 << bit,
        }
    }

    /// All faults of a set for n points, if its size is one off at most.
    fn found(n: u16, set: &[u8]) -> Vec<SetFault> {
        let (last, edges) = (packed_size(n) - 1, edge_count(n));
        match set.len().wrapping_sub(last) {
            0 => return vec![Shorter],
            2 => return vec![Longer],
            1 => {}
            _ => return vec![],
        }
        let threes = marks(set).take(edges).enumerate().filter(|&(_, mark)| mark == 3);
        let three = |(place, _)| match place / 4 == last {
            true => LastThree { marks: last_marks(n), place: place % 4 },
            false => Three(place % 4),
        };
        let unused = (2 * last_marks(n)..8).filter(|bit| set[last] >> bit & 1 == 1);
        threes.map(three).chain(unused.map(|bit| Unused { marks: last_marks(n), bit })).collect()
    }

    /// Whether a set for n points has none.
    pub fn good(n: u16, set: &[u8]) -> bool {
        set.len() == packed_size(n) && SetFault::found(n, set).is_empty()
    }

    /// The fault of a set that has just one.
    pub fn sole(n: u16, set: &[u8]) -> Option<SetFault> {
        match SetFault::found(n, set)[..] {
            [fault] => Some(fault),
            _ => None,
        }
    }
}

impl fmt::Display for SetFault {
    fn fmt(&self, f: &mut fmt::Formatter) -> fmt::Result {
        match self {
            Shorter => write!(f, "a byte too few"),
            Longer => write!(f, "a byte too many"),
            Three(place) => write!(f, "a mark of 3 at place {place} of a byte"),
            LastThree { marks, place } => write!(f, "a mark of 3 at place {place} of a last byte with {marks}"),
            Unused { marks, bit } => write!(f, "bit {bit} of a last byte with {marks}"),
        }
    }
}
