//! The text of the program `mark` (01, Layers and program).

use std::fmt::Write;

use crate::bytes;
use crate::instance::Instance;
use crate::lengths::{edge_count, measure};
use crate::marking::{mark_sheet, Marked};
use crate::marks::{fresh_marks, OPEN, STRUCK};
use crate::packed::{mark, packed_size};
use crate::refusal::Refusal;
use crate::sheet::Sheet;

const HEADER: usize = 8;
/// "At most 65,448 bytes": the header, 180 points and 4,000 records.
const MOST_BYTES: usize = HEADER + 8 * Instance::MOST_POINTS as usize + 2 * Sheet::FIELDS * Sheet::MOST_RECORDS;

/// What the program prints for a file.
pub fn mark_text(file: &[u8]) -> String {
    match read_file(file) {
        Ok((n, table, records)) => marked_text(n, &table, records),
        Err(refusal) => format!("verdict {} record 0 open 0\n", refusal.number()),
    }
}

/// n, the measured table and the bytes of the records. 7; 1; 7; then *measure*.
fn read_file(file: &[u8]) -> Result<(u16, Vec<u32>, &[u8]), Refusal> {
    if file.len() < HEADER {
        return Err(Refusal::Records);
    }
    let (header, rest) = file.split_at(HEADER);
    let header = bytes::entries(header);
    let (rule, n) = (header[0], Instance::point_count(header[1])?);
    let coordinates = 8 * usize::from(n);
    if rest.len() < coordinates || file.len() > MOST_BYTES {
        return Err(Refusal::Records);
    }
    let (coordinates, records) = rest.split_at(coordinates);
    let mut table = vec![0; edge_count(n)];
    measure(u32::from(n), rule, &bytes::entries(coordinates), &mut table)?;
    Ok((n, table, records))
}

/// Marks the records from fresh marks and prints all lines.
fn marked_text(n: u16, table: &[u32], records: &[u8]) -> String {
    let mut marks = vec![0; packed_size(n)];
    fresh_marks(u32::from(n), &mut marks).unwrap();
    let marked = mark_sheet(u32::from(n), table, &mut marks, &bytes::numbers(records));
    let mut text = format!("points {} edges {}\n", n, edge_count(n));
    strikes(n, &marks, &mut text);
    let open = (0..edge_count(n)).filter(|&place| mark(&marks, place) == OPEN).count();
    text + &verdict(marked, open)
}

/// One line for each struck edge, in edge order.
fn strikes(n: u16, marks: &[u8], text: &mut String) {
    let edges = (1..=n).flat_map(|a| (a + 1..=n).map(move |b| (a, b)));
    for (_, (a, b)) in edges.enumerate().filter(|&(place, _)| mark(marks, place) == STRUCK) {
        writeln!(text, "struck {a} {b}").unwrap();
    }
}

fn verdict(marked: Marked, open: usize) -> String {
    let (number, record) = marked.fault.map_or((0, 0), |f| (f.refusal.number(), f.record));
    format!("verdict {number} record {record} open {open}\n")
}
