//! Paper 14 by hand, on the square: turns in the round, the order of tests, what ends a sheet, and states of any bytes.

mod common;

use common::{fresh, square};
use second::bytes::{hand_in, mark_sheet, next_desk, open_desks, turn, DESKS_BYTES};
use second::sheet::Record;

/// Two lines: strike 1-3 by a split at 2, then 2-4 by a split at 1.
const TWO_LINES: [Record; 2] = [[1, 1, 3, 0, 0, 2, 0, 2], [1, 2, 4, 0, 0, 1, 0, 0]];

fn table() -> Vec<u8> {
    square().iter().flat_map(|length| length.to_le_bytes()).collect()
}

fn sheet(records: &[Record]) -> Vec<u8> {
    records.concat().iter().flat_map(|number| number.to_le_bytes()).collect()
}

/// The state of these numbers, with three bytes past it.
fn state(numbers: &[u16]) -> Vec<u8> {
    let mut bytes: Vec<u8> = numbers.iter().flat_map(|number| number.to_le_bytes()).collect();
    bytes.resize(DESKS_BYTES, 0);
    bytes.extend([7; 3]);
    bytes
}

/// A turn's answer: refusal, record, lines, desk, and 1 if it has a line left.
fn told(answer: u64) -> [u64; 5] {
    assert_eq!([answer >> 40 & 0xff, answer >> 57], [0; 2]);
    [answer & 0xff, answer >> 8 & 0xffff, answer >> 24 & 0xffff, answer >> 48 & 0xff, answer >> 56]
}

/// Eight desks with a table, and for each desk marks and a sheet.
struct Hall {
    state: Vec<u8>,
    marks: Vec<Vec<u8>>,
    sheets: Vec<Vec<u8>>,
}

impl Hall {
    fn new() -> Hall {
        let mut state = vec![7; DESKS_BYTES + 3];
        assert_eq!(open_desks(&mut state), 0);
        assert_eq!(state[DESKS_BYTES..], [7; 3]);
        Hall { state, marks: vec![fresh(4); 8], sheets: vec![vec![]; 8] }
    }

    fn hand_in(&mut self, desk: usize, records: &[Record]) -> u64 {
        let sheet = sheet(records);
        let answer = hand_in(&mut self.state, desk as u32, 4, &table(), &self.marks[desk - 1], &sheet);
        if answer == 0 {
            self.sheets[desk - 1] = sheet;
        }
        answer
    }

    fn turn(&mut self) -> [u64; 5] {
        let desk = (next_desk(&self.state) / 65_536) as usize;
        let at = desk.max(1) - 1;
        let answer = turn(&mut self.state, 4, &table(), &mut self.marks[at], &self.sheets[at]);
        assert_eq!(answer >> 48 & 0xff, desk as u64);
        told(answer)
    }
}

#[test]
fn nothing_left() {
    let mut hall = Hall::new();
    let before = hall.state.clone();
    assert_eq!(next_desk(&hall.state), 0);
    assert_eq!(hall.turn(), [0; 5]);
    assert_eq!(hall.state, before);
}

#[test]
fn in_the_round() {
    let mut hall = Hall::new();
    for desk in [1, 3, 8] {
        assert_eq!(hall.hand_in(desk, &TWO_LINES), 0);
    }
    assert_eq!(hall.turn(), [0, 0, 1, 1, 1]);
    assert_eq!(hall.turn(), [0, 0, 1, 3, 1]);
    assert_eq!(hall.hand_in(2, &TWO_LINES), 0);
    assert_eq!(hall.turn(), [0, 0, 1, 8, 1]);
    assert_eq!(hall.turn(), [0, 0, 2, 1, 0]);
    assert_eq!(hall.turn(), [0, 0, 1, 2, 1]);
    assert_eq!(hall.turn(), [0, 0, 2, 3, 0]);
    assert_eq!(hall.turn(), [0, 0, 2, 8, 0]);
    assert_eq!(hall.turn(), [0, 0, 2, 2, 0]);
    assert_eq!(hall.turn(), [0; 5]);
    assert_eq!(hall.state, state(&[2]));
    let mut alone = fresh(4);
    assert_eq!(mark_sheet(4, &table(), &mut alone, &sheet(&TWO_LINES)), 2 << 24);
    assert!([1, 2, 3, 8].iter().all(|&desk: &usize| hall.marks[desk - 1] == alone));
    assert_eq!(hall.marks[3], fresh(4));
}

/// A desk is served by the eighth turn where all have a line left.
#[test]
fn within_eight() {
    let mut hall = Hall::new();
    (1..=8).for_each(|desk| assert_eq!(hall.hand_in(desk, &TWO_LINES), 0));
    let desks: Vec<u64> = (0..16).map(|_| hall.turn()[3]).collect();
    assert_eq!(desks, [1, 2, 3, 4, 5, 6, 7, 8, 1, 2, 3, 4, 5, 6, 7, 8]);
}

#[test]
fn next_index_in_its_turn() {
    for (next, told) in [(1, [9, 1, 1, 5, 0]), (2, [8, 1, 1, 5, 0]), (65_535, [8, 1, 1, 5, 0])] {
        let mut hall = Hall::new();
        assert_eq!(hall.hand_in(5, &[[1, 1, 3, 0, 0, 2, 0, next]]), 0);
        assert_eq!(hall.turn(), told);
        assert_eq!(hall.state, state(&[5]));
        assert_ne!(hall.marks[4], fresh(4));
    }
}

#[test]
fn stopped_and_again() {
    let mut hall = Hall::new();
    assert_eq!(hall.hand_in(7, &[[1, 1, 2, 0, 0, 3, 0, 0]]), 0);
    assert_eq!(hall.hand_in(7, &TWO_LINES), 29);
    assert_eq!(hall.hand_in(7, &[]), 29);
    assert_eq!(hall.turn(), [14, 1, 0, 7, 0]);
    assert_eq!(hall.marks[6], fresh(4));
    assert_eq!(hall.hand_in(7, &[]), 7);
    assert_eq!(hall.hand_in(7, &TWO_LINES), 0);
    assert_eq!(hall.turn(), [0, 0, 1, 7, 1]);
    assert_eq!(hall.turn(), [0, 0, 2, 7, 0]);
    assert_eq!(hall.hand_in(7, &TWO_LINES), 0);
    assert_eq!(hall.turn(), [12, 1, 0, 7, 0]);
}

/// 22, 28, 29, 1, 2, 5, 6, 20, 7: each before the later ones, and nothing is written.
#[test]
fn order_of_tests() {
    let busy = state(&[0, 1]);
    let free = state(&[]);
    let high: Vec<u8> = [2_000_001u32; 6].iter().flat_map(|length| length.to_le_bytes()).collect();
    for (desks, desk, n, table, marks, due) in [
        (&busy[..49], 0, 3, &high[..20], vec![3, 0], 22),
        (&busy[..], 0, 3, &high[..20], vec![3, 0], 28),
        (&busy[..], 9, 3, &high[..20], vec![3, 0], 28),
        (&busy[..], 257, 3, &high[..20], vec![3, 0], 28),
        (&busy[..], 1, 3, &high[..20], vec![3, 0], 29),
        (&busy[..], 2, 3, &high[..20], vec![3, 0], 1),
        (&free[..], 1, 3, &high[..20], vec![3, 0], 1),
        (&free[..], 1, 4, &high[..20], vec![3, 0], 2),
        (&free[..], 1, 4, &high[..], vec![3, 0], 5),
        (&free[..], 1, 4, &table(), vec![3, 0], 6),
        (&free[..], 1, 4, &table(), vec![2, 0], 20),
        (&free[..], 1, 4, &table(), vec![1, 0], 7),
    ] {
        let mut left = desks.to_vec();
        assert_eq!(hand_in(&mut left, desk, n, table, &marks, &[]), due);
        assert_eq!(left, desks);
    }
}

#[test]
fn too_short() {
    for size in [0, 1, 49] {
        let (mut desks, mut marks) = (vec![1; size], fresh(4));
        assert_eq!(open_desks(&mut desks), 22);
        assert_eq!(next_desk(&desks), 22);
        assert_eq!(turn(&mut desks, 4, &table(), &mut marks, &sheet(&TWO_LINES)), 22);
        assert_eq!((desks, marks), (vec![1; size], fresh(4)));
    }
}

/// A turn repeats the tests: a failure ends the sheet, with its number, record 0 and the lines kept.
#[test]
fn tests_repeated() {
    let high: Vec<u8> = [2_000_001u32; 6].iter().flat_map(|length| length.to_le_bytes()).collect();
    let good = sheet(&TWO_LINES);
    for (n, table, marks, sheet, due) in [
        (3, &high[..20], vec![3, 0], &good[..31], 1),
        (4, &high[..20], vec![3, 0], &good[..31], 2),
        (4, &high[..], vec![3, 0], &good[..31], 5),
        (4, &table()[..], vec![3, 0], &good[..31], 6),
        (4, &table()[..], vec![2, 0], &good[..31], 20),
        (4, &table()[..], vec![1, 0], &good[..31], 7),
    ] {
        let (mut desks, mut left) = (state(&[3, 0, 0, 0, 0, 0, 0, 0, 0, 0, 2, 1, 1]), marks.clone());
        assert_eq!(told(turn(&mut desks, n, table, &mut left, sheet)), [due, 0, 1, 4, 0]);
        assert_eq!((desks, left), (state(&[4]), marks));
    }
}

/// Any bytes are a state: the last desk served counts modulo 8, a line is left where the lines are below the next
/// index, and an index above the record count names its owner.
#[test]
fn any_bytes() {
    let mut marks = fresh(4);
    let mut desks = state(&[9, 2, 1, 2, 2, 9, 1, 300, 4, 299]);
    assert_eq!(next_desk(&desks), 2 * 65_536);
    assert_eq!(told(turn(&mut desks, 4, &table(), &mut marks, &sheet(&TWO_LINES))), [0, 0, 2, 2, 0]);
    assert_eq!(desks, state(&[2, 2, 1, 2, 0, 0, 0, 300, 4, 299]));
    let struck = marks.clone();
    assert_eq!(told(turn(&mut desks, 4, &table(), &mut marks, &sheet(&TWO_LINES))), [8, 4, 299, 3, 0]);
    assert_eq!((desks, marks), (state(&[3, 2, 1, 2]), struck));
}
