//! Two faults at once: the test that is written first decides.

mod common;

use common::*;
use second::lengths::measure;
use second::listing::list_pairs;
use second::marking::{ask_sheet, mark_sheet, Marked};
use second::marks::{confirm, withdraw};
use second::packed::put_mark;
use second::program::mark_text;
use second::tour::check_tour;

const LONG: u32 = 2_000_001;

/// *Mark a sheet*, directly or asked.
type HandIn = fn(u32, &[u32], &mut [u8], &[u16]) -> Marked;

/// One fault a letter: n, table size, table entry, a mark of 3, a pending mark, sheet size.
fn hand_in_with(hand_in: HandIn, faults: &str) -> u8 {
    let has = |fault| faults.contains(fault);
    let n = if has('n') { 181 } else { 4 };
    let mut table = square();
    if has('e') {
        table[0] = LONG;
    }
    if has('t') {
        table.push(1);
    }
    let mut marks = fresh(4);
    if has('m') {
        put_mark(&mut marks, 5, 3);
    }
    if has('p') {
        put_mark(&mut marks, 0, 2);
    }
    let before = marks.clone();
    let sheet: &[u16] = if has('s') { &[] } else { &[0; 8] };
    let number = figures(hand_in(n, &table, &mut marks, sheet)).0;
    assert_eq!(marks, before, "{faults}");
    number
}

#[test]
fn marking_and_asking() {
    let order = [('n', 1), ('t', 2), ('e', 5), ('m', 6), ('p', 20), ('s', 7)];
    for hand_in in [mark_sheet as HandIn, ask_sheet] {
        for (i, &(first, number)) in order.iter().enumerate() {
            assert_eq!(hand_in_with(hand_in, &first.to_string()), number);
            for &(second, _) in &order[i + 1..] {
                assert_eq!(hand_in_with(hand_in, &format!("{first}{second}")), number, "{first} with {second}");
            }
        }
        assert_eq!(hand_in_with(hand_in, ""), 10);
    }
}

/// 1, 6, 21; neither a table nor a sheet is there to be tested.
#[test]
fn settling() {
    for settle in [confirm, withdraw] {
        let number = |n, mut marks: Vec<u8>| {
            let before = marks.clone();
            let number = refusal(settle(n, &mut marks));
            assert!(number == 0 || marks == before, "a refusal leaves the marks");
            number
        };
        assert_eq!(number(3, vec![0xff; 1]), 1);
        assert_eq!(number(181, vec![0b10_10_10_10, 0b10_10]), 1);
        assert_eq!(number(4, vec![0b01_01_01_01]), 6, "6 before 21");
        assert_eq!(number(4, vec![0b10_10_10_10]), 6);
        assert_eq!(number(5, vec![0b10_10_10_10, 0b10_10]), 6);
        assert_eq!(number(4, vec![0b01_01_01_01, 0b11_01]), 6, "6 before 21");
        assert_eq!(number(4, vec![0b10_10_10_10, 0b11_10]), 6);
        assert_eq!(number(4, vec![0b01_01_01_01, 0b01_01_01]), 6, "6 before 21");
        assert_eq!(number(4, vec![0b10_10_10_10, 0b10_10_10]), 6);
        assert_eq!(number(4, vec![0b01_01_01_01, 0b01_01]), 21);
        assert_eq!(number(4, vec![0, 0]), 21);
        assert_eq!(number(4, vec![0b01_10_01_00, 0b01_01]), 0);
    }
}

#[test]
fn measuring() {
    let numbers = |n, rule, coordinates: &[u32]| refusal(measure(n, rule, coordinates, &mut [0; 6]));
    let above = [1_000_001; 8];
    assert_eq!(numbers(3, 0, &above[..7]), 1);
    assert_eq!(numbers(4, 0, &above[..7]), 2);
    assert_eq!(numbers(4, 0, &above), 3);
    assert_eq!(numbers(4, 6, &above), 3);
    assert_eq!(numbers(4, 5, &above), 4);
}

#[test]
fn listing() {
    let list = |n, table: &[u32], marks: &[u8], a| refusal(list_pairs(n, table, marks, (a, 2), 3, &mut []));
    assert_eq!(list(3, &[LONG; 5], &[2; 1], 0), 1);
    assert_eq!(list(4, &[LONG; 5], &[2; 1], 0), 2);
    assert_eq!(list(4, &[LONG; 6], &[2; 1], 0), 5);
    assert_eq!(list(4, &square(), &[2; 1], 0), 6);
    assert_eq!(list(4, &square(), &[0, 0b11_00], 0), 6);
    assert_eq!(list(4, &square(), &[0, 0], 0), 11);
    assert_eq!(list(4, &square(), &[0, 0], 1), 12);
    assert_eq!(list(4, &square(), &[0b01_01_01_01, 0b01_01], 1), 18);
    assert_eq!(list(4, &square(), &[0b10_10_10_10, 0b10_10], 1), 18, "pending marks are no fault");
}

#[test]
fn tours() {
    let tour = |n, table: &[u32], marks: &[u8]| refusal(check_tour(n, table, marks, &[0]));
    assert_eq!(tour(181, &[LONG; 5], &[2; 1]), 1);
    assert_eq!(tour(4, &[LONG; 5], &[2; 1]), 2);
    assert_eq!(tour(4, &[LONG; 6], &[2; 1]), 5);
    assert_eq!(tour(4, &square(), &[2; 1]), 6);
    assert_eq!(tour(4, &square(), &[0, 0b11_00]), 6);
    assert_eq!(tour(4, &square(), &[0b01_01_01_01, 0b01_01]), 17);
    assert_eq!(tour(4, &square(), &[0b10_10_10_10, 0b10_10]), 17, "pending marks are no fault");
}

#[test]
fn records() {
    let struck_first = |record| on_square(&[[1, 1, 3, 0, 0, 2, 0, 2], record]);
    assert_eq!(struck_first([1, 1, 9, 7, 0, 2, 9, 9]), (10, 2, 1), "10 before 11");
    assert_eq!(struck_first([1, 1, 3, 0, 0, 9, 9, 9]), (11, 2, 1), "11 before 12");
    assert_eq!(struck_first([1, 1, 3, 0, 0, 2, 9, 9]), (12, 2, 1), "12 before the split's index");
    assert_eq!(on_square(&[[1, 1, 2, 0, 0, 3, 9, 9]]), (8, 1, 0), "8 before a pair is missed");
    let line = [1, 1, 2, 0, 0, 3, 2, 9];
    assert_eq!(on_square(&[line, [3, 2, 4, 0, 2, 3, 3, 9]]), (11, 2, 0), "11 before 14");
    assert_eq!(on_square(&[line, [3, 2, 4, 2, 2, 3, 3, 9]]), (14, 2, 0), "14 before 15");
    assert_eq!(on_square(&[line, [3, 1, 4, 2, 2, 3, 3, 9]]), (15, 2, 0), "15 before the next index");
    assert_eq!(on_square(&[line, [2, 1, 4, 0, 0, 4, 0, 9]]), (8, 2, 0), "a closed case, then its next index");
    assert_eq!(on_square(&[line, [2, 1, 4, 0, 0, 4, 9, 2]]), (8, 2, 0), "the split's chain before the next index");
}

/// The seventh split with a wrong pair, and with a wrong index.
#[test]
fn seventh_split() {
    let mut records = vec![[1, 1, 2, 0, 0, 1, 2, 0]];
    records.extend((2..=7).map(|i| [2, 2, 3, 0, 0, 1, i + 1, 0]));
    records[6] = [2, 2, 4, 0, 0, 1, 9, 9];
    assert_eq!(on_square(&records), (14, 7, 0), "14 before 13");
    records[6] = [2, 2, 3, 0, 0, 1, 9, 9];
    assert_eq!(on_square(&records), (13, 7, 0), "13 before 8");
}

/// 7 for a short header; 1; 7 for a wrong length; 3; 4; then the records.
#[test]
fn program() {
    let last = |file: &[u8]| mark_text(file).lines().last().unwrap().to_string();
    let only = |number| format!("verdict {number} record 0 open 0");
    assert_eq!(last(&[0; 7]), only(7));
    let long = |mut file: Vec<u8>| {
        file.resize(65_449, 0);
        file
    };
    assert_eq!(last(&long(file(6, 3, &[1_000_001; 8], &[]))), only(1));
    assert_eq!(last(&long(file(6, 4, &[1_000_001; 8], &[]))), only(7));
    assert_eq!(last(&file(6, 4, &[1_000_001; 7], &[])), only(7));
    assert_eq!(last(&file(6, 4, &[1_000_001; 8], &[])), only(3));
    assert_eq!(last(&file(5, 4, &[1_000_001; 8], &[])), only(4));
    assert_eq!(last(&file(1, 4, &SQUARE, &[])), "verdict 7 record 0 open 6");
}
