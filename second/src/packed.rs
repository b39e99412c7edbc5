//! A packed set: a mark in two bits, four edges a byte, the first edge in the lowest bits, unused bits 0; and the byte
//! set of before, one byte an edge, from which and to which it is converted (02, Paper 4).

use crate::instance::Instance;
use crate::lengths::edge_count;
use crate::marks::PENDING;
use crate::refusal::Refusal;

/// The lower bit of each mark of a byte, and the upper one.
pub const LOW: u8 = 0b0101_0101;
pub const HIGH: u8 = !LOW;

/// The bytes of a packed set.
pub fn packed_size(n: u16) -> usize {
    edge_count(n).div_ceil(4)
}

/// The bits of the last byte that hold marks.
pub fn last_byte(n: u16) -> u8 {
    0xff >> (2 * (4 * packed_size(n) - edge_count(n)))
}

#[inline]
fn shift(place: usize) -> usize {
    2 * (place % 4)
}

#[inline]
pub fn mark(set: &[u8], place: usize) -> u8 {
    set[place / 4] >> shift(place) & 3
}

#[inline]
pub fn put_mark(set: &mut [u8], place: usize, mark: u8) {
    let byte = &mut set[place / 4];
    *byte = *byte & !(3 << shift(place)) | mark << shift(place);
}

/// Test 6: the size, no mark of 3, no unused bit. Answers whether a mark is pending.
pub fn some_pending(n: u16, set: &[u8]) -> Result<bool, Refusal> {
    demand(set.len() == packed_size(n))?;
    let (both, any) = set.iter().fold((0, 0), |(both, any), &byte| (both | byte & byte >> 1, any | byte));
    demand(both & LOW == 0 && set[set.len() - 1] & !last_byte(n) == 0)?;
    Ok(any & HIGH != 0)
}

fn demand(holds: bool) -> Result<(), Refusal> {
    if holds {
        Ok(())
    } else {
        Err(Refusal::Marks)
    }
}

/// Packs a byte set: 1; 6, the byte set's size and bytes; 6, the size of the packed set alone.
pub fn pack_marks(n: u32, bytes: &[u8], packed: &mut [u8]) -> Result<(), Refusal> {
    let n = Instance::point_count(n)?;
    demand(bytes.len() == edge_count(n) && bytes.iter().all(|&mark| mark <= PENDING))?;
    demand(packed.len() == packed_size(n))?;
    for (byte, marks) in packed.iter_mut().zip(bytes.chunks(4)) {
        *byte = marks.iter().rev().fold(0, |byte, mark| byte << 2 | mark);
    }
    Ok(())
}

/// Unpacks a packed set: 1; 6, the packed set; 6, the size of the byte set alone.
pub fn unpack_marks(n: u32, packed: &[u8], bytes: &mut [u8]) -> Result<(), Refusal> {
    let n = Instance::point_count(n)?;
    some_pending(n, packed)?;
    demand(bytes.len() == edge_count(n))?;
    for (marks, &byte) in bytes.chunks_mut(4).zip(packed) {
        marks.iter_mut().enumerate().for_each(|(i, mark)| *mark = byte >> (2 * i) & 3);
    }
    Ok(())
}
