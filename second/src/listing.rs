//! *List pairs* for K = {ab} and split c, over one table or two.

use crate::edge_set::EdgeSet;
use crate::instance::Instance;
use crate::intervals::Intervals;
use crate::marks::Marks;
use crate::packed::some_pending;
use crate::pairs::Split;
use crate::refusal::Refusal;
use crate::sheet::points;

type Edge = (u16, u16);

/// Writes x then y for each feasible pair and answers their number. 1, 2, 5, 6; 11; 12; 18.
/// On a refusal the list keeps its numbers.
pub fn list_pairs(n: u32, table: &[u32], marks: &[u8], ab: Edge, c: u16, list: &mut [u16]) -> Result<usize, Refusal> {
    let n = Instance::table_tests(n, table)?;
    write_pairs(&Intervals::exact(n, table), marks, ab, c, list)
}

/// The same over two tables (02, Paper 11). 1, 2, 5, 25, 6; 11; 12; 18.
pub fn list_between(
    n: u32,
    (low, high): (&[u32], &[u32]),
    marks: &[u8],
    ab: Edge,
    c: u16,
    list: &mut [u16],
) -> Result<usize, Refusal> {
    let n = Instance::limit_tests(n, low, high)?;
    write_pairs(&Intervals::new(n, low, high), marks, ab, c, list)
}

/// From 6 on.
fn write_pairs(lengths: &Intervals, marks: &[u8], (a, b): Edge, c: u16, list: &mut [u16]) -> Result<usize, Refusal> {
    some_pending(lengths.order.n, marks)?;
    if !points(lengths.order.n, a, b, &[c]) {
        return Err(Refusal::PointField);
    }
    let marks = Marks::in_look(marks);
    if !marks.open(lengths.order.place(a, b)) {
        return Err(Refusal::EdgeStruck);
    }
    let pairs = all_pairs(Split::new(lengths, marks, &EdgeSet::one(a, b), c));
    if list.len() < pairs.len() {
        return Err(Refusal::ListSize);
    }
    list[..pairs.len()].copy_from_slice(&pairs);
    Ok(pairs.len() / 2)
}

/// x then y for each pair of the split.
fn all_pairs(mut split: Split) -> Vec<u16> {
    let mut pairs = Vec::with_capacity(256);
    while let Some((x, y)) = split.next_pair() {
        pairs.extend([x, y]);
    }
    pairs
}
