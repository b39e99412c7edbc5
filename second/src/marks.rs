//! Marks as operations read them, in a packed set, and the operations on marks alone (01, Points, lengths, marks; 02,
//! Papers 3 and 4).

use crate::instance::Instance;
use crate::packed::{last_byte, mark, packed_size, some_pending, HIGH, LOW};
use crate::refusal::Refusal;

pub const STRUCK: u8 = 0;
pub const OPEN: u8 = 1;
/// Struck by a sheet that was asked and is neither confirmed nor withdrawn.
pub const PENDING: u8 = 2;

/// A packed set that has passed test 6, as an operation reads it.
#[derive(Clone, Copy)]
pub struct Marks<'a> {
    set: &'a [u8],
    /// The bits that make a mark count as open.
    open: u8,
}

impl<'a> Marks<'a> {
    /// As sheets read them: "within the asked sheet a pending edge counts as struck".
    pub fn in_sheet(set: &'a [u8]) -> Self {
        Marks { set, open: OPEN }
    }

    /// As "the pair list and the tour check" read them: a pending edge counts as open.
    pub fn in_look(set: &'a [u8]) -> Self {
        Marks { set, open: OPEN | PENDING }
    }

    #[inline]
    pub fn open(&self, place: usize) -> bool {
        mark(self.set, place) & self.open != 0
    }
}

/// *Fresh marks*: 1, then 6, the size alone; all marks become open.
pub fn fresh_marks(n: u32, set: &mut [u8]) -> Result<(), Refusal> {
    let n = Instance::point_count(n)?;
    if set.len() != packed_size(n) {
        return Err(Refusal::Marks);
    }
    set.fill(LOW);
    set[packed_size(n) - 1] &= last_byte(n);
    Ok(())
}

/// *Confirm*: pending marks become struck.
pub fn confirm(n: u32, set: &mut [u8]) -> Result<(), Refusal> {
    settle(n, set, |byte| byte & LOW)
}

/// *Withdraw*: pending marks become open.
pub fn withdraw(n: u32, set: &mut [u8]) -> Result<(), Refusal> {
    settle(n, set, |byte| byte & LOW | (byte & HIGH) >> 1)
}

/// 1, 6, 21; then the four marks of each byte are `settled`.
fn settle(n: u32, set: &mut [u8], settled: impl Fn(u8) -> u8) -> Result<(), Refusal> {
    if !some_pending(Instance::point_count(n)?, set)? {
        return Err(Refusal::NothingPending);
    }
    set.iter_mut().for_each(|byte| *byte = settled(*byte));
    Ok(())
}
