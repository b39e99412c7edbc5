//! Calls with wrong sizes and wrong numbers.

use crate::kit::generate::boards::{self, Board, Measured};
use crate::kit::generate::rng::Rng;
use crate::packed::put_mark;

/// Numbers that are no rule: beside 1 to 5, 1 by its lowest byte or two bytes, and the largest.
const NO_RULES: [u32; 5] = [0, 6, 257, 65_537, u32::MAX];

/// What a call for C is lent.
#[derive(Clone, Debug)]
pub struct Lent {
    pub n: u32,
    pub table: Vec<u8>,
    pub marks: Vec<u8>,
}

impl Lent {
    pub fn new(board: &Board, marks: &[u8]) -> Lent {
        let table = board.table.iter().flat_map(|l| l.to_le_bytes()).collect();
        Lent { n: u32::from(board.n), table, marks: marks.to_vec() }
    }
}

/// Makes one or two things wrong, or leaves them at their limit.
pub fn call(rng: &mut Rng, lent: &mut Lent) {
    for _ in 0..rng.between(1, 2) {
        match rng.below(6) {
            0 => lent.n = wrong_count(rng, lent.n),
            1 => resize(rng, &mut lent.table, &[1, 2, 4, 8, 64]),
            2 | 3 => entry(rng, &mut lent.table),
            4 => set_size(rng, lent),
            _ => set(rng, &mut lent.marks),
        }
    }
}

/// Another n: out of range, also by multiples of 256 and 65,536, or another board's.
pub fn wrong_count(rng: &mut Rng, n: u32) -> u32 {
    let others = [1, 256, 65_536, u32::MAX].map(|step| n.wrapping_add(step));
    let fixed = [0, 1, 3, 4, 180, 181, u32::MAX];
    if rng.chance(50) {
        rng.pick(&others)
    } else {
        rng.pick(&fixed)
    }
}

/// Another n, out of range.
pub fn no_count(rng: &mut Rng, n: u32) -> u32 {
    rng.pick(&[0, 1, 3, 181, n + 256, n + 65_536, u32::MAX])
}

/// Another size of the packed set; that of the byte set, too.
fn set_size(rng: &mut Rng, lent: &mut Lent) {
    if rng.chance(20) {
        lent.marks.resize(lent.table.len() / 4, 1);
    } else {
        resize(rng, &mut lent.marks, &[1, 1, 2, 5]);
    }
}

fn resize(rng: &mut Rng, bytes: &mut Vec<u8>, steps: &[usize]) {
    let step = rng.pick(steps);
    match rng.below(5) {
        0 | 1 => bytes.truncate(bytes.len().saturating_sub(step)),
        2 | 3 => bytes.resize(bytes.len() + step, 0),
        _ => bytes.clear(),
    }
}

/// An entry at or above its limit.
fn entry(rng: &mut Rng, table: &mut [u8]) {
    some_entry(rng, table, &[2_000_000, 2_000_001, 2_000_001, 1 << 31, u32::MAX]);
}

/// One of the values at some whole entry.
pub fn some_entry(rng: &mut Rng, bytes: &mut [u8], values: &[u32]) {
    let value = rng.pick(values);
    if bytes.len() >= 4 {
        put(bytes, 4 * rng.below(bytes.len() / 4), value);
    }
}

/// A mark of 2 or 3 anywhere, a last one that may lie in unused bits, or any byte.
fn set(rng: &mut Rng, set: &mut [u8]) {
    if set.is_empty() {
        return;
    }
    let places = 4 * set.len();
    match rng.below(4) {
        0 | 1 => put_mark(set, rng.below(places), rng.pick(&[2, 3])),
        2 => put_mark(set, places - 1, rng.pick(&[1, 2, 3])),
        _ => set[rng.below(places / 4)] = rng.word() as u8,
    }
}

/// An n for *fresh marks*.
pub fn point_count(rng: &mut Rng) -> u32 {
    let n = rng.between(4, 180) as u32;
    if rng.chance(20) {
        wrong_count(rng, n)
    } else {
        n
    }
}

/// A size of a packed set for n, mostly right.
pub fn mark_size(rng: &mut Rng, n: u32) -> usize {
    let n = (n as usize).min(200);
    let edges = n * n.saturating_sub(1) / 2;
    let right = edges.div_ceil(4);
    match rng.below(10) {
        0 => right + 1,
        1 => right.saturating_sub(1),
        2 => rng.below(40),
        3 => edges,
        _ => right,
    }
}

/// A call of *measure*; its table holds old numbers.
#[derive(Clone, Debug)]
pub struct Measuring {
    pub n: u32,
    pub rule: u32,
    pub coordinates: Vec<u8>,
    pub table: Vec<u8>,
}

impl Measuring {
    /// The board's points, or others for a free table.
    pub fn new(rng: &mut Rng, board: &Board) -> Measuring {
        let measured = board.measured.clone().unwrap_or_else(|| other_points(rng, usize::from(board.n)));
        let coordinates = measured.coordinates.iter().flat_map(|c| c.to_le_bytes()).collect();
        let table = (0..4 * board.table.len()).map(|_| rng.word() as u8).collect();
        Measuring { n: u32::from(board.n), rule: measured.rule, coordinates, table }
    }
}

/// n points anywhere on the largest square, or at its corners.
fn other_points(rng: &mut Rng, n: usize) -> Measured {
    let at_corners = rng.chance(50);
    let coordinates =
        if at_corners { boards::corner_coordinates(rng, n) } else { boards::random_coordinates(rng, n, 1_000_000) };
    Measured { rule: boards::rule(rng), coordinates }
}

/// Makes one to three things wrong.
pub fn measuring(rng: &mut Rng, call: &mut Measuring) {
    for _ in 0..rng.between(1, 3) {
        match rng.below(5) {
            0 => call.n = wrong_count(rng, call.n),
            1 => resize(rng, &mut call.coordinates, &[1, 2, 4, 8]),
            2 => resize(rng, &mut call.table, &[1, 2, 4, 8]),
            3 => call.rule = rng.pick(&NO_RULES),
            _ => some_entry(rng, &mut call.coordinates, &[1_000_000, 1_000_001, 1_000_001, u32::MAX]),
        }
    }
}

/// a, b and c for a listing, mostly points and a ≠ b.
pub fn three_points(rng: &mut Rng, n: u16) -> [u16; 3] {
    let mut abc: [u16; 3] = std::array::from_fn(|_| rng.point(n));
    if abc[0] == abc[1] && rng.chance(80) {
        abc[1] = abc[0] % n + 1;
    }
    if rng.chance(10) {
        abc[rng.below(3)] = rng.pick(&[0, n + 1, 256, 65_535]);
    }
    abc
}

/// Room in a list for so many numbers: less, just enough, more.
pub fn list_size(rng: &mut Rng, need: usize) -> usize {
    match rng.below(8) {
        0 | 1 => need.saturating_sub(1),
        2 => need.saturating_sub(2),
        3 => rng.below(need + 1),
        4 => need + rng.between(1, 9),
        5 => need + 300,
        _ => need,
    }
}

/// The bytes of a tour, often a wrong one.
pub fn tour(rng: &mut Rng, n: u16) -> Vec<u8> {
    let mut points: Vec<u16> = (1..=n).collect();
    if rng.chance(70) {
        rng.shuffle(&mut points);
    }
    let at = rng.below(points.len());
    match rng.below(12) {
        0 => points[at] = rng.pick(&[0, n + 1, 256, 65_535]),
        1 => points[at] = rng.point(n),
        2 => drop(points.pop()),
        3 => points.push(1),
        4 => points.clear(),
        _ => {}
    }
    let mut bytes: Vec<u8> = points.iter().flat_map(|v| v.to_le_bytes()).collect();
    match rng.below(24) {
        0 => drop(bytes.pop()),
        1 => bytes.push(0),
        _ => {}
    }
    bytes
}

/// The bytes of a tour with this edge.
pub fn tour_with(rng: &mut Rng, n: u16, (a, b): (u16, u16)) -> Vec<u8> {
    let mut points: Vec<u16> = (1..=n).filter(|&v| v != a && v != b).collect();
    rng.shuffle(&mut points);
    points.extend([a, b]);
    points.iter().flat_map(|v| v.to_le_bytes()).collect()
}

/// Spoils a file for the program in one to three ways.
pub fn file(rng: &mut Rng, n: u16, file: &mut Vec<u8>) {
    for _ in 0..rng.between(1, 3) {
        let coordinates = 8 + 8 * usize::from(n);
        match rng.below(7) {
            0 => file.truncate(rng.below(9)),
            1 => file.truncate(rng.between(8, coordinates)),
            2 => put(file, 0, rng.pick(&NO_RULES)),
            3 => put(file, 4, wrong_count(rng, u32::from(n))),
            4 => put(file, 8 + 4 * rng.below(2 * usize::from(n)), rng.pick(&[1_000_000, 1_000_001, u32::MAX])),
            5 => file.resize(rng.pick(&[65_447, 65_448, 65_449, 65_464, 80_000]), 0),
            _ => file.truncate(file.len() - rng.below(16).min(file.len())),
        }
    }
}

fn put(file: &mut [u8], at: usize, value: u32) {
    if at + 4 <= file.len() {
        file[at..at + 4].copy_from_slice(&value.to_le_bytes());
    }
}
