//! The five distances: Paper 2's by hand, and all of them by their inequalities.

mod common;

use common::*;
use second::kit::programs::naive::{distance, from_squares};
use second::lengths::{att, ceil_2d, euc_2d, man_2d, max_2d, measure};

/// The largest S and the largest coordinate of an instance.
const MOST_SQUARES: u64 = 2_000_000_000_000;
const SIDE: u32 = 1_000_000;

/// "The least d with 10d² ≥ S."
#[test]
fn att_by_hand() {
    let examples = [(0, 0), (1, 1), (10, 1), (11, 2), (40, 2), (41, 3), (90, 3), (91, 4), (MOST_SQUARES, 447_214)];
    for (s, d) in examples {
        assert_eq!(att(s), d, "S = {s}");
    }
}

#[test]
fn differences_by_hand() {
    let examples = [(0, 0, 0, 0), (3, 4, 7, 4), (4, 3, 7, 4), (0, 5, 5, 5), (SIDE, SIDE, 2 * SIDE, SIDE)];
    for (dx, dy, man, max) in examples {
        assert_eq!((man_2d(dx, dy), max_2d(dx, dy)), (man, max), "{dx}, {dy}");
    }
}

/// Small S, the largest, and those about d², d² + d and 10d², where a rule goes from one length to the next.
fn telling_squares() -> impl Iterator<Item = u64> {
    let beside = |s: u64| [s - 1, s, s + 1];
    let squares = (1..1_414_214u64).step_by(997).flat_map(move |d| [beside(d * d), beside(d * d + d)].concat());
    let tens = (1..=447_213u64).step_by(311).flat_map(move |d| beside(10 * d * d));
    (0..5000).chain(squares).chain(tens).chain(MOST_SQUARES - 50..=MOST_SQUARES)
}

#[test]
fn squares_by_their_inequalities() {
    for s in telling_squares() {
        let (wide, [euc, ceil, att]) = (i128::from(s), [euc_2d(s), ceil_2d(s), att(s)].map(i128::from));
        assert!(s == 0 || (2 * euc - 1).pow(2) <= 4 * wide, "S = {s}");
        assert!(4 * wide < (2 * euc + 1).pow(2), "S = {s}");
        assert!(ceil.pow(2) >= wide && (s == 0 || (ceil - 1).pow(2) < wide), "S = {s}");
        assert!(10 * att.pow(2) >= wide && (s == 0 || 10 * (att - 1).pow(2) < wide), "S = {s}");
    }
}

#[test]
fn squares_as_the_naive_checker() {
    for s in telling_squares() {
        let naive = [1, 2, 3].map(|rule| from_squares(None, rule, s));
        assert_eq!([euc_2d(s), ceil_2d(s), att(s)].map(u64::from), naive, "S = {s}");
    }
}

#[test]
fn differences_as_the_naive_checker() {
    let steps = [0, 1, 2, 3, 9, 10, 11, 100, SIDE / 2, SIDE - 1, SIDE];
    for (dx, dy) in steps.iter().flat_map(|&dx| steps.map(|dy| (dx, dy))) {
        let naive = [4, 5].map(|rule| distance(None, rule, i64::from(dx), -i64::from(dy)));
        assert_eq!([man_2d(dx, dy), max_2d(dx, dy)].map(u64::from), naive, "{dx}, {dy}");
    }
}

/// Sides and diagonals of a square by the rules 1 to 5.
fn side_and_diagonal(coordinates: &[u32]) -> [(u32, u32); 5] {
    [1, 2, 3, 4, 5].map(|rule| {
        let mut table = [0; 6];
        measure(4, rule, coordinates, &mut table).unwrap();
        let [side, diagonal, ..] = table;
        assert_eq!(table, [side, diagonal, side, side, diagonal, side], "rule {rule}");
        (side, diagonal)
    })
}

#[test]
fn squares_measured() {
    assert_eq!(side_and_diagonal(&SQUARE), [(10, 14), (10, 15), (4, 5), (10, 20), (10, 10)]);
    let largest = SQUARE.map(|c| c / 10 * SIDE);
    let diagonal = 1_414_214;
    assert_eq!(
        side_and_diagonal(&largest),
        [(SIDE, diagonal), (SIDE, diagonal), (316_228, 447_214), (SIDE, 2 * SIDE), (SIDE, SIDE)]
    );
}
