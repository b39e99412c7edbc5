//! A packed set read into a byte set, and written back.

use super::mistake::Mistake;

/// The four marks of a byte.
fn four(mistake: Option<Mistake>, byte: u8) -> [u8; 4] {
    let mut marks = [byte % 4, byte / 4 % 4, byte / 16 % 4, byte / 64];
    if mistake == Some(Mistake::FirstHighest) {
        marks.reverse();
    }
    marks
}

pub fn packed_size(edges: usize) -> usize {
    edges.div_ceil(4)
}

/// The byte set of a packed one, or 6.
pub fn byte_set(mistake: Option<Mistake>, edges: usize, set: &[u8]) -> Result<Vec<u8>, u64> {
    let longer = mistake == Some(Mistake::LongerSet) && set.len() == packed_size(edges) + 1;
    if set.len() != packed_size(edges) && !longer {
        return Err(6);
    }
    let mut marks: Vec<u8> = set.iter().flat_map(|&byte| four(mistake, byte)).collect();
    let unused = marks.split_off(edges);
    let tested = if mistake == Some(Mistake::LastByteUntested) { 4 * (edges / 4) } else { edges };
    let known: &[u8] = if mistake == Some(Mistake::MarkThree) { &[0, 1, 2, 3] } else { &[0, 1, 2] };
    if !marks[..tested].iter().all(|mark| known.contains(mark)) {
        return Err(6);
    }
    if unused.iter().any(|&mark| mark != 0) && mistake != Some(Mistake::UnusedPassed) {
        return Err(6);
    }
    Ok(marks)
}

/// Writes the packed set of a byte set over one of its size; bytes past it stay.
pub fn write(mistake: Option<Mistake>, bytes: &[u8], set: &mut [u8]) {
    for (byte, marks) in set.iter_mut().zip(bytes.chunks(4)) {
        let mut four = [0; 4];
        four[..marks.len()].copy_from_slice(marks);
        if mistake == Some(Mistake::FirstHighest) {
            four.reverse();
        }
        *byte = four[0] + 4 * four[1] + 16 * four[2] + 64 * four[3];
    }
}
