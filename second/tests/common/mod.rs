//! Small inputs that several tests use.
#![allow(dead_code)]

use second::lengths::{edge_count, measure, EdgeOrder};
use second::marking::{mark_sheet, Marked};
use second::marks::fresh_marks;
use second::packed::packed_size;
use second::refusal::{Fault, Refusal};
use second::sheet::Record;

/// 01's square: 1 (0,0), 2 (10,0), 3 (10,10), 4 (0,10).
pub const SQUARE: [u32; 8] = [0, 0, 10, 0, 10, 10, 0, 10];

pub fn square() -> Vec<u32> {
    let mut table = vec![0; 6];
    measure(4, 1, &SQUARE, &mut table).unwrap();
    table
}

/// 01's crossing: p, q, r, s, x, y, z, w are 1 to 8; every length that it does not tell is 50.
pub fn crossing_board(rs: u32) -> Vec<u32> {
    let [p, q, r, s, x, y, z, w] = [1, 2, 3, 4, 5, 6, 7, 8];
    let mut table = vec![50; edge_count(8)];
    let order = EdgeOrder::new(8);
    let lengths = [
        (10, vec![(p, q), (r, x), (r, y), (s, z), (s, w)]),
        (9, vec![(p, x), (q, w), (p, z), (q, y)]),
        (20, vec![(p, y), (q, x), (p, w), (q, z)]),
        (rs, vec![(r, s)]),
    ];
    for (length, edges) in lengths {
        edges.into_iter().for_each(|(a, b)| table[order.place(a, b)] = length);
    }
    table
}

pub fn fresh(n: u32) -> Vec<u8> {
    let mut marks = vec![9; packed_size(n as u16)];
    fresh_marks(n, &mut marks).unwrap();
    marks
}

/// Number, record, lines accepted.
pub fn figures(marked: Marked) -> (u8, u16, u32) {
    let (number, record) = marked.fault.map_or((0, 0), |Fault { refusal, record }| (refusal.number(), record));
    (number, record, marked.lines)
}

/// Marks the records from fresh marks: number, record, lines accepted.
pub fn verdict(n: u32, table: &[u32], records: &[Record]) -> (u8, u16, u32) {
    figures(mark_sheet(n, table, &mut fresh(n), &records.concat()))
}

pub fn on_square(records: &[Record]) -> (u8, u16, u32) {
    verdict(4, &square(), records)
}

pub fn refusal<T>(answer: Result<T, Refusal>) -> u8 {
    answer.err().map_or(0, Refusal::number)
}

/// A file for the program.
pub fn file(rule: u32, n: u32, coordinates: &[u32], records: &[Record]) -> Vec<u8> {
    let mut file: Vec<u8> = [rule, n].iter().chain(coordinates).flat_map(|v| v.to_le_bytes()).collect();
    file.extend(records.concat().iter().flat_map(|v| v.to_le_bytes()));
    file
}
