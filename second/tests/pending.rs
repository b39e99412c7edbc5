//! Paper 3 by hand, on the square: ask, then confirm or withdraw.

mod common;

use common::*;
use second::bytes;
use second::listing::list_pairs;
use second::marking::{ask_sheet, mark_sheet};
use second::marks::{confirm, fresh_marks, withdraw};
use second::sheet::Record;
use second::tour::{check_tour, TourAnswer};

/// The two diagonals, each by a split without a pair.
const DIAGONALS: [Record; 2] = [[1, 1, 3, 0, 0, 2, 0, 2], [1, 2, 4, 0, 0, 1, 0, 0]];

/// Marks of 2-3, 1-4, 1-3, 1-2, then of 3-4, 2-4: the first edge of a byte stands lowest.
const PENDING: [u8; 2] = [0b01_01_10_01, 0b01_10];
const STRUCK: [u8; 2] = [0b01_01_00_01, 0b01_00];
/// Of the diagonals only 1-3 is pending.
const ONE_PENDING: [u8; 2] = [0b01_01_10_01, 0b01_01];

/// Asks the records from fresh marks: number, record, lines accepted, and the marks left.
fn asked(records: &[Record]) -> ((u8, u16, u32), Vec<u8>) {
    let mut marks = fresh(4);
    let answer = ask_sheet(4, &square(), &mut marks, &records.concat());
    (figures(answer), marks)
}

#[test]
fn strikes_of_an_asked_sheet_are_pending() {
    assert_eq!(asked(&DIAGONALS), ((0, 0, 2), PENDING.to_vec()));
}

#[test]
fn confirming_strikes() {
    let mut marks = PENDING;
    assert_eq!((refusal(confirm(4, &mut marks)), marks), (0, STRUCK));
    assert_eq!((refusal(confirm(4, &mut marks)), marks), (21, STRUCK));
}

#[test]
fn withdrawing_opens() {
    let (mut marks, open) = ([0b01_01_10_00, 0b01_10], [0b01_01_01_00, 0b01_01]);
    assert_eq!((refusal(withdraw(4, &mut marks)), marks), (0, open));
    assert_eq!((refusal(withdraw(4, &mut marks)), marks), (21, open));
}

#[test]
fn an_asked_sheet_that_stops_keeps_its_strikes_pending() {
    assert_eq!(asked(&[[1, 1, 3, 0, 0, 2, 0, 1]]), ((9, 1, 1), ONE_PENDING.to_vec()));
}

/// A sheet that strikes nothing leaves nothing to confirm.
#[test]
fn asked_for_nothing() {
    let (answer, mut marks) = asked(&[[1, 1, 2, 0, 0, 3, 0, 0]]);
    assert_eq!((answer, &marks), ((14, 1, 0), &fresh(4)));
    assert_eq!((refusal(confirm(4, &mut marks)), refusal(withdraw(4, &mut marks))), (21, 21));
}

#[test]
fn a_pending_edge_is_struck_already_in_its_own_sheet() {
    let again = [DIAGONALS[0], [1, 3, 1, 0, 0, 2, 0, 0]];
    assert_eq!(asked(&again), ((12, 2, 1), ONE_PENDING.to_vec()));
}

/// With 1-3 open, (1, 4) stands before (2, 4) at 3 under K = {1-2}, and the case gets 14.
#[test]
fn a_pending_edge_is_no_leg_in_its_own_sheet() {
    let cases = [[1, 1, 2, 0, 0, 3, 3, 0], [3, 2, 4, 2, 2, 3, 3, 0]];
    assert_eq!(asked(&[DIAGONALS[0], cases[0], cases[1]]).0, (15, 3, 1));
    assert_eq!(asked(&[[1, 1, 2, 0, 0, 3, 2, 0], cases[1]]).0, (14, 2, 0));
}

#[test]
fn nothing_is_handed_in_while_something_is_pending() {
    let mut marks = PENDING;
    for sheet in [&DIAGONALS.concat()[..], &[]] {
        assert_eq!(figures(mark_sheet(4, &square(), &mut marks, sheet)), (20, 0, 0));
        assert_eq!(figures(ask_sheet(4, &square(), &mut marks, sheet)), (20, 0, 0));
    }
    assert_eq!(marks, PENDING);
}

/// "The pair list counts it as open": 12 is told for a struck edge only, and legs may be pending.
#[test]
fn the_pair_list_counts_a_pending_edge_as_open() {
    let pairs = |marks: &[u8], ab, c| {
        let mut list = [77; 8];
        let count = list_pairs(4, &square(), marks, ab, c, &mut list).map_err(|refusal| refusal.number())?;
        Ok::<_, u8>(list[..2 * count].to_vec())
    };
    assert_eq!(pairs(&PENDING, (1, 2), 3), Ok(vec![1, 4, 2, 4]));
    assert_eq!(pairs(&STRUCK, (1, 2), 3), Ok(vec![2, 4]));
    assert_eq!(pairs(&PENDING, (3, 1), 2), Ok(vec![]));
    assert_eq!(pairs(&STRUCK, (3, 1), 2), Err(12));
}

#[test]
fn the_tour_check_counts_a_pending_edge_as_open() {
    let tour = |marks: &[u8]| check_tour(4, &square(), marks, &[1, 3, 2, 4]).unwrap();
    assert_eq!(tour(&PENDING), TourAnswer { length: 48, all_open: true });
    assert_eq!(tour(&[0b01_01_10_01, 0b01_00]), TourAnswer { length: 48, all_open: false });
}

/// Whatever the marks were, with the right size.
#[test]
fn fresh_marks_are_open() {
    for old in [2, 3, 255] {
        let mut marks = [old; 2];
        assert_eq!((refusal(fresh_marks(4, &mut marks)), marks), (0, [85, 5]));
    }
}

#[test]
fn numbers_for_c() {
    let table: Vec<u8> = square().iter().flat_map(|l| l.to_le_bytes()).collect();
    let sheet: Vec<u8> = DIAGONALS.concat().iter().flat_map(|v| v.to_le_bytes()).collect();
    let ask = |marks: &mut [u8]| bytes::ask_sheet(4, &table, marks, &sheet);
    let mut marks = fresh(4);
    assert_eq!((ask(&mut marks), ask(&mut marks)), (2 * 16_777_216, 20));
    assert_eq!(bytes::ask_sheet(4, &table, &mut fresh(4), &sheet[..31]), 7);
    assert_eq!(bytes::ask_sheet(4, &table[..23], &mut fresh(4), &sheet), 2);
    assert_eq!((bytes::withdraw(4, &mut marks), bytes::withdraw(4, &mut marks)), (0, 21));
    assert_eq!((ask(&mut marks), bytes::confirm(4, &mut marks), ask(&mut marks)), (2 * 16_777_216, 0, 12 + 256));
    assert_eq!((bytes::confirm(5, &mut marks), bytes::confirm(260, &mut marks)), (6, 1));
    assert_eq!(marks, STRUCK);
}
