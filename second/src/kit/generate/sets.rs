//! Packed sets, made and looked at mark by mark.

use crate::kit::generate::rng::Rng;
use crate::lengths::edge_count;
use crate::marks::{OPEN, PENDING};
use crate::packed::{mark, put_mark};

/// The packed set of a byte set.
pub fn packed(bytes: &[u8]) -> Vec<u8> {
    let mut set = vec![0; bytes.len().div_ceil(4)];
    bytes.iter().enumerate().for_each(|(place, &mark)| put_mark(&mut set, place, mark));
    set
}

/// All marks open.
pub fn fresh(n: u16) -> Vec<u8> {
    packed(&vec![OPEN; edge_count(n)])
}

/// The marks of a set, four a byte: those of unused bits come last.
pub fn marks(set: &[u8]) -> impl Iterator<Item = u8> + '_ {
    (0..4 * set.len()).map(|place| mark(set, place))
}

/// Whether the mark of this edge is pending.
pub fn pending_at(set: &[u8], place: usize) -> bool {
    mark(set, place) == PENDING
}

/// Whether a mark is pending.
pub fn pending(set: &[u8]) -> bool {
    marks(set).any(|mark| mark == PENDING)
}

/// Random bytes: what a buffer holds before it is written.
pub fn old_bytes(rng: &mut Rng, size: usize) -> Vec<u8> {
    (0..size).map(|_| rng.word() as u8).collect()
}
