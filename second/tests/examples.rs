//! 01's examples.

mod common;

use common::*;
use second::crossing::Crossing;
use second::edge_set::EdgeSet;
use second::intervals::Intervals;
use second::lengths::{ceil_2d, edge_count, euc_2d};
use second::listing::list_pairs;
use second::marking::mark_sheet;
use second::pairs::FarEdge;

#[test]
fn distances() {
    let examples = [(0, 0, 0), (2, 1, 2), (5, 2, 3), (8, 3, 3), (25, 5, 5), (2_000_000_000_000, 1_414_214, 1_414_214)];
    for (s, euc, ceil) in examples {
        assert_eq!((euc_2d(s), ceil_2d(s)), (euc, ceil), "S = {s}");
    }
}

#[test]
fn edge_order() {
    for n in 4..=180 {
        let lengths = second::lengths::EdgeOrder::new(n);
        let edges = (1..=n).flat_map(|a| (a + 1..=n).map(move |b| (a, b)));
        for (place, (a, b)) in edges.enumerate() {
            assert_eq!((lengths.place(a, b), lengths.place(b, a)), (place, place));
        }
    }
    assert_eq!(edge_count(180), 16_110);
}

/// Marks of the square with 1-3 struck: the fourth edge, third, second, first; the sixth, fifth.
const DIAGONAL_STRUCK: [u8; 2] = [0b01_01_00_01, 0b01_01];

fn compatible_on_square(pq: (u16, u16), (x, c): (u16, u16)) -> bool {
    let table = square();
    let l = Intervals::exact(4, &table);
    FarEdge::new(&l, pq, c).allows(&l, x, l.taken_out(c, x))
}

#[test]
fn compatibility() {
    assert!(!compatible_on_square((1, 3), (2, 4)));
    assert!(!compatible_on_square((2, 4), (1, 3)));
    assert!(compatible_on_square((1, 2), (3, 4)));
}

fn pairs_on_square(ab: (u16, u16), c: u16) -> Vec<u16> {
    let mut list = [77; 8];
    let pairs = list_pairs(4, &square(), &fresh(4), ab, c, &mut list).unwrap();
    assert!(list[2 * pairs..].iter().all(|&v| v == 77), "places past the list keep their numbers");
    list[..2 * pairs].to_vec()
}

#[test]
fn standing_pairs() {
    assert_eq!(pairs_on_square((1, 2), 3), [1, 4, 2, 4]);
    assert_eq!(pairs_on_square((2, 1), 3), [1, 4, 2, 4]);
    assert!(pairs_on_square((1, 3), 2).is_empty());
}

fn crossing_saves(rs: u32) -> bool {
    let [p, q, r, s, x, y, z, w] = [1, 2, 3, 4, 5, 6, 7, 8];
    let mut known = EdgeSet::one(p, q);
    known.add_pair(r, (x, y));
    known.add_pair(s, (z, w));
    let crossing = Crossing { p, q, r, s };
    assert!(crossing.in_place(&known));
    crossing.saves(&known, &Intervals::exact(8, &crossing_board(rs)))
}

#[test]
fn crossing() {
    assert!(crossing_saves(9));
    assert!(crossing_saves(11));
    assert!(!crossing_saves(12));
}

#[test]
fn sheets() {
    assert_eq!(on_square(&[[1, 1, 3, 0, 0, 2, 0, 2], [1, 2, 4, 0, 0, 1, 0, 0]]), (0, 0, 2));
    assert_eq!(on_square(&[[1, 1, 2, 0, 0, 3, 0, 0]]), (14, 1, 0));
    let mut marks = fresh(4);
    let marked = mark_sheet(4, &square(), &mut marks, &[1, 1, 3, 0, 0, 2, 0, 1]);
    assert_eq!(figures(marked), (9, 1, 1));
    assert_eq!(marks, DIAGONAL_STRUCK);
}

#[test]
fn tour_of_the_square() {
    let table: Vec<u8> = square().iter().flat_map(|l| l.to_le_bytes()).collect();
    let tour = |points: [u16; 4]| points.iter().flat_map(|v| v.to_le_bytes()).collect::<Vec<u8>>();
    let marks = DIAGONAL_STRUCK;
    assert_eq!(second::bytes::check_tour(4, &table, &marks, &tour([1, 2, 3, 4])), 65_536 * 40 + 256);
    assert_eq!(second::bytes::check_tour(4, &table, &marks, &tour([1, 3, 2, 4])), 65_536 * 48);
}

/// The 64-bit number of a stopped sheet: 9, record 1, one line.
#[test]
fn number_for_c() {
    let table: Vec<u8> = square().iter().flat_map(|l| l.to_le_bytes()).collect();
    let sheet: Vec<u8> = [1u16, 1, 3, 0, 0, 2, 0, 1].iter().flat_map(|v| v.to_le_bytes()).collect();
    assert_eq!(second::bytes::mark_sheet(4, &table, &mut fresh(4), &sheet), 9 + 256 + 16_777_216);
}
