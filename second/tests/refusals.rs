//! Each refusal by its smallest input.

mod common;

use common::*;
use second::lengths::measure;
use second::listing::list_pairs;
use second::marking::mark_sheet;
use second::marks::fresh_marks;
use second::tour::check_tour;

const GOOD: [u16; 8] = [1, 1, 3, 0, 0, 2, 0, 0];

/// *Mark a sheet* on four points: number, record, lines.
fn mark(n: u32, table: &[u32], marks: &mut [u8], sheet: &[u16]) -> (u8, u16, u32) {
    figures(mark_sheet(n, table, marks, sheet))
}

#[test]
fn measuring() {
    let measured = |n, rule, coordinates: &[u32], places| {
        let mut table = vec![7; places];
        let answer = refusal(measure(n, rule, coordinates, &mut table));
        assert!(answer == 0 || table.iter().all(|&l| l == 7), "a refusal leaves the table");
        answer
    };
    assert_eq!(measured(4, 1, &SQUARE, 6), 0);
    assert_eq!(measured(3, 1, &SQUARE[..6], 3), 1);
    assert_eq!(measured(181, 1, &[0; 362], 181 * 90), 1);
    assert_eq!(measured(180, 1, &[0; 360], 16_110), 0);
    assert_eq!(measured(4, 1, &SQUARE[..7], 6), 2);
    assert_eq!(measured(4, 1, &SQUARE, 5), 2);
    for rule in 1..=5 {
        assert_eq!(measured(4, rule, &SQUARE, 6), 0);
    }
    for rule in [0, 6, 257, 65_541, u32::MAX] {
        assert_eq!(measured(4, rule, &SQUARE, 6), 3);
    }
    assert_eq!(measured(4, 2, &[0, 0, 0, 0, 0, 0, 0, 1_000_001], 6), 4);
    assert_eq!(measured(4, 2, &[0, 0, 0, 0, 0, 0, 0, 1_000_000], 6), 0);
}

#[test]
fn fresh_marking() {
    assert_eq!(refusal(fresh_marks(3, &mut [5; 1])), 1);
    assert_eq!(refusal(fresh_marks(4, &mut [5; 1])), 6);
    assert_eq!(refusal(fresh_marks(4, &mut [5; 3])), 6);
    assert_eq!(refusal(fresh_marks(4, &mut [5; 6])), 6, "the size of the byte set");
    assert_eq!(refusal(fresh_marks(4, &mut [5; 2])), 0);
}

#[test]
fn marking_before_the_records() {
    let table = square();
    assert_eq!(mark(3, &table, &mut fresh(4), &GOOD), (1, 0, 0));
    assert_eq!(mark(181, &table, &mut fresh(4), &GOOD), (1, 0, 0));
    assert_eq!(mark(65_540, &table, &mut fresh(4), &GOOD), (1, 0, 0));
    assert_eq!(mark(4, &table[..5], &mut fresh(4), &GOOD), (2, 0, 0));
    assert_eq!(mark(5, &table, &mut fresh(4), &GOOD), (2, 0, 0));
    assert_eq!(mark(4, &[10, 14, 10, 10, 14, 2_000_001], &mut fresh(4), &GOOD), (5, 0, 0));
    assert_eq!(mark(4, &[10, 14, 10, 10, 14, 2_000_000], &mut fresh(4), &[1; 0]), (7, 0, 0));
    assert_eq!(mark(4, &table, &mut [85], &GOOD), (6, 0, 0));
    assert_eq!(mark(4, &table, &mut [85, 5, 0], &GOOD), (6, 0, 0));
    assert_eq!(mark(4, &table, &mut [1; 6], &GOOD), (6, 0, 0), "a byte set");
    assert_eq!(mark(4, &table, &mut [85, 0b11_01], &GOOD), (6, 0, 0));
    assert_eq!(mark(4, &table, &mut [85, 0b01_01_01], &GOOD), (6, 0, 0));
    assert_eq!(mark(4, &table, &mut [85, 0b10_01], &GOOD), (20, 0, 0));
    assert_eq!(mark(4, &table, &mut fresh(4), &[]), (7, 0, 0));
    assert_eq!(mark(4, &table, &mut fresh(4), &GOOD[..7]), (7, 0, 0));
    assert_eq!(mark(4, &table, &mut fresh(4), &GOOD.repeat(4_001)), (7, 0, 0));
    assert_eq!(mark(4, &table, &mut fresh(4), &GOOD.repeat(4_000)), (0, 0, 1));
}

#[test]
fn indices() {
    assert_eq!(on_square(&[[1, 1, 3, 0, 0, 2, 0, 2]]), (8, 1, 1));
    assert_eq!(on_square(&[[1, 1, 3, 0, 0, 2, 2, 0]]), (8, 1, 0));
    assert_eq!(on_square(&[[1, 1, 3, 0, 0, 2, 1, 0]]), (9, 1, 0));
    let case_back = [[1, 1, 2, 0, 0, 3, 2, 0], [2, 1, 4, 0, 0, 4, 2, 0]];
    assert_eq!(on_square(&case_back), (9, 2, 0));
    let line_into_cases = [[1, 1, 3, 0, 0, 2, 0, 3], GOOD, [1, 2, 4, 0, 0, 1, 0, 2]];
    assert_eq!(on_square(&line_into_cases), (9, 3, 2));
}

#[test]
fn kinds() {
    for wrong in
        [[0, 1, 3, 0, 0, 2, 0, 0], [2, 1, 3, 0, 0, 2, 0, 0], [1, 1, 3, 1, 0, 2, 0, 0], [1, 1, 3, 0, 1, 2, 0, 0]]
    {
        assert_eq!(on_square(&[wrong]), (10, 1, 0));
    }
    for wrong in [[1, 1, 4, 0, 0, 4, 0, 0], [4, 1, 4, 0, 0, 4, 0, 0], [2, 1, 4, 0, 9, 4, 0, 0]] {
        assert_eq!(on_square(&[[1, 1, 2, 0, 0, 3, 2, 0], wrong]), (10, 2, 0));
    }
}

#[test]
fn point_fields() {
    for (field, value) in [(1, 0), (1, 5), (2, 0), (2, 5), (5, 0), (5, 5), (2, 1)] {
        let mut record = GOOD;
        record[field] = value;
        assert_eq!(on_square(&[record]), (11, 1, 0), "field {field}");
    }
    for field in 1..7 {
        let mut record = [3, 1, 4, 1, 2, 3, 4, 0];
        record[field] = 5;
        assert_eq!(on_square(&[[1, 1, 2, 0, 0, 3, 2, 0], record]), (11, 2, 0), "field {field}");
    }
    // u = v and c = d are no matter for 11.
    assert_eq!(on_square(&[[1, 1, 2, 0, 0, 3, 2, 0], [3, 1, 4, 2, 2, 3, 3, 0]]), (15, 2, 0));
}

#[test]
fn struck_already() {
    assert_eq!(on_square(&[[1, 1, 3, 0, 0, 2, 0, 2], [1, 3, 1, 0, 0, 2, 0, 0]]), (12, 2, 1));
    assert_eq!(mark(4, &square(), &mut [0b01_01_00_01, 0b01_01], &GOOD), (12, 1, 0));
}

/// Splits at point 1 again and again; K = {12, 13} has one pair there.
fn nested(splits: u16) -> Vec<[u16; 8]> {
    let mut records = vec![[1, 1, 2, 0, 0, 1, 2, 0]];
    records.extend((2..=splits).map(|i| [2, 2, 3, 0, 0, 1, i + 1, 0]));
    records
}

#[test]
fn seventh_split() {
    assert_eq!(on_square(&nested(7)), (13, 7, 0));
    assert_eq!(on_square(&nested(6)), (8, 6, 0));
}

#[test]
fn pairs() {
    let line = [1, 1, 2, 0, 0, 3, 2, 0];
    let closed = [2, 1, 4, 0, 0, 4, 0, 0];
    assert_eq!(on_square(&[[1, 1, 2, 0, 0, 3, 0, 0]]), (14, 1, 0), "an empty chain names the owner");
    assert_eq!(on_square(&[line, [2, 2, 4, 0, 0, 4, 0, 0]]), (14, 2, 0), "the second pair first");
    assert_eq!(on_square(&[line, [2, 4, 1, 0, 0, 4, 0, 0]]), (14, 2, 0), "the higher point first");
    assert_eq!(on_square(&[line, closed]), (14, 2, 0), "a pair is left, after the last record");
    let again = [[2, 1, 4, 0, 0, 4, 0, 3], closed];
    assert_eq!(on_square(&[line, again[0], again[1]]), (14, 3, 0), "a pair twice");
    let surplus = [[1, 1, 3, 0, 0, 2, 2, 0], closed];
    assert_eq!(on_square(&surplus), (14, 2, 0), "a case where no pair stands");
    let inner = [line, [2, 1, 4, 0, 0, 2, 0, 0]];
    assert_eq!(on_square(&inner), (14, 2, 0), "an empty chain inside names its owner");
}

#[test]
fn crossing_places() {
    let line = [1, 1, 2, 0, 0, 3, 2, 0];
    // K is the path 2-1-3-4.
    let wrong = [[1, 4, 3, 2], [1, 2, 3, 3], [1, 2, 1, 3], [1, 2, 3, 2], [1, 2, 3, 4], [3, 4, 1, 3], [2, 2, 1, 3]];
    for [u, v, c, d] in wrong {
        assert_eq!(on_square(&[line, [3, 1, 4, u, v, c, d, 0]]), (15, 2, 0));
    }
}

/// Five points, all lengths 10: K becomes the tour 2-1-3-4-5.
const EVEN: [[u16; 8]; 3] = [[1, 1, 2, 0, 0, 3, 2, 0], [2, 1, 4, 0, 0, 5, 3, 0], [3, 2, 4, 1, 2, 3, 5, 0]];

#[test]
fn no_saving() {
    assert_eq!(verdict(5, &[10; 10], &EVEN), (16, 3, 0));
    let [line, split, mut centres] = EVEN;
    (centres[5], centres[6]) = (3, 4);
    assert_eq!(verdict(5, &[10; 10], &[line, split, centres]), (15, 3, 0), "neighbours in K");
}

#[test]
fn listing() {
    let list = |n, table: &[u32], marks: &[u8], ab, c, places| {
        let mut list = vec![77; places];
        let answer = refusal(list_pairs(n, table, marks, ab, c, &mut list));
        assert!(answer == 0 || list.iter().all(|&v| v == 77), "a refusal leaves the list");
        answer
    };
    let (table, marks) = (square(), fresh(4));
    assert_eq!(list(3, &table, &marks, (1, 2), 3, 4), 1);
    assert_eq!(list(4, &table[1..], &marks, (1, 2), 3, 4), 2);
    assert_eq!(list(4, &[2_000_001; 6], &marks, (1, 2), 3, 4), 5);
    assert_eq!(list(4, &table, &marks[1..], (1, 2), 3, 4), 6);
    for (ab, c) in [((0, 2), 3), ((1, 5), 3), ((1, 2), 0), ((1, 2), 5), ((2, 2), 3)] {
        assert_eq!(list(4, &table, &marks, ab, c, 4), 11);
    }
    assert_eq!(list(4, &table, &[0b01_01_01_00, 0b01_01], (2, 1), 3, 4), 12);
    assert_eq!(list(4, &table, &marks, (1, 2), 3, 3), 18);
    assert_eq!(list(4, &table, &marks, (1, 2), 3, 4), 0);
    assert_eq!(list(4, &table, &marks, (1, 3), 2, 0), 0);
}

#[test]
fn tours() {
    let (table, marks) = (square(), fresh(4));
    let tour = |n, table: &[u32], marks: &[u8], points: &[u16]| refusal(check_tour(n, table, marks, points));
    assert_eq!(tour(4, &table, &marks, &[1, 2, 3, 4]), 0);
    assert_eq!(tour(3, &table, &marks, &[1, 2, 3]), 1);
    assert_eq!(tour(5, &table, &marks, &[1, 2, 3, 4]), 2);
    assert_eq!(tour(4, &[2_000_001; 6], &marks, &[1, 2, 3, 4]), 5);
    assert_eq!(tour(4, &table, &[0b11_01_01_01, 0b01_01], &[1, 2, 3, 4]), 6);
    for wrong in [&[1, 2, 3][..], &[1, 2, 3, 4, 1], &[], &[1, 2, 3, 3], &[0, 1, 2, 3], &[2, 3, 4, 5]] {
        assert_eq!(tour(4, &table, &marks, wrong), 17);
    }
}

/// A length that is no whole number of entries is a wrong size: 2, 7, 17.
#[test]
fn broken_bytes() {
    let table: Vec<u8> = square().iter().flat_map(|l| l.to_le_bytes()).collect();
    let sheet: Vec<u8> = GOOD.iter().flat_map(|v| v.to_le_bytes()).collect();
    let tour = [1, 0, 2, 0, 3, 0, 4, 0];
    let longer = |bytes: &[u8]| [bytes, &[0]].concat();
    assert_eq!(second::bytes::mark_sheet(4, &longer(&table), &mut fresh(4), &sheet), 2);
    assert_eq!(second::bytes::mark_sheet(4, &table, &mut fresh(4), &longer(&sheet)), 7);
    assert_eq!(second::bytes::mark_sheet(4, &table, &mut fresh(4), &sheet), 16_777_216);
    assert_eq!(second::bytes::check_tour(4, &longer(&table), &fresh(4), &tour), 2);
    assert_eq!(second::bytes::check_tour(4, &table, &fresh(4), &longer(&tour)), 17);
    assert_eq!(second::bytes::check_tour(4, &table, &fresh(4), &tour), 65_536 * 40 + 256);
}

/// The same for what is written: 2 for coordinates and table. A list may have any length: its places are the whole
/// entries.
#[test]
fn broken_bytes_written() {
    let table: Vec<u8> = square().iter().flat_map(|l| l.to_le_bytes()).collect();
    let coordinates: Vec<u8> = [0u32, 0, 10, 0, 10, 10, 0, 10].iter().flat_map(|c| c.to_le_bytes()).collect();
    let measure = |coordinates: &[u8], size| {
        let mut table = vec![77; size];
        (second::bytes::measure(4, 1, coordinates, &mut table), table)
    };
    assert_eq!(measure(&coordinates[1..], 24), (2, vec![77; 24]));
    assert_eq!(measure(&coordinates, 25), (2, vec![77; 25]));
    assert_eq!(measure(&coordinates, 24), (0, table.clone()));
    let list = |size| {
        let mut list = vec![77; size];
        (second::bytes::list_pairs(4, &table, &fresh(4), [1, 2, 3], &mut list), list)
    };
    assert_eq!(list(7), (18, vec![77; 7]));
    assert_eq!(list(9), (2 * 65_536, vec![1, 0, 4, 0, 2, 0, 4, 0, 77]));
}
