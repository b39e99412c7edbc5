//! Paper 7 by hand: pairs at a second split, and the moves of settled points that shut them out or tie.

mod common;

use common::*;
use second::edge_set::EdgeSet;
use second::intervals::Intervals;
use second::kit::damage::spoil;
use second::kit::generate::boards;
use second::kit::generate::rng::Rng;
use second::kit::met::moved;
use second::kit::programs::checker::Checker;
use second::kit::programs::naive::{Mistake, Naive};
use second::lengths::{edge_count, measure};
use second::listing::list_pairs;
use second::marks::Marks;
use second::pairs::Split;
use second::saving::move_saving;

/// 01's square, 5 (0,5) and 6 at the place of 1.
const SIX: [u32; 12] = [0, 0, 10, 0, 10, 10, 0, 10, 0, 5, 0, 0];

fn six() -> Vec<u32> {
    let mut table = vec![0; edge_count(6)];
    measure(6, 1, &SIX, &mut table).unwrap();
    table
}

/// A pair at a second split, and a move.
struct Example {
    /// The line's edge, its split point and the first pair there.
    line: ([u16; 2], u16, [u16; 2]),
    /// The second split point, and the pair there.
    split: (u16, [u16; 2]),
    /// w, its neighbours s and t, and the edge uv.
    moved: [u16; 5],
    saving: i64,
}

const fn example(line: ([u16; 2], u16, [u16; 2]), split: (u16, [u16; 2]), moved: [u16; 5], saving: i64) -> Example {
    Example { line, split, moved, saving }
}

/// Every other test lets these pairs pass: the split point off K and on it; x, y or another point is moved.
const EXAMPLES: [Example; 12] = [
    example(([1, 3], 2, [3, 6]), (5, [1, 4]), [1, 3, 5, 2, 6], 14 + 5 + 10 - 11 - 10),
    example(([2, 5], 4, [3, 5]), (6, [1, 2]), [2, 5, 6, 3, 4], 11 + 10 + 10 - 5 - 10 - 14),
    example(([1, 2], 1, [2, 3]), (4, [3, 5]), [1, 2, 3, 4, 5], 10 + 14 + 5 - 10 - 10 - 5),
    example(([3, 5], 6, [1, 2]), (1, [3, 6]), [3, 5, 1, 6, 2], 11 + 14 + 10 - 5 - 14 - 10),
    example(([4, 6], 3, [1, 2]), (2, [3, 6]), [6, 4, 2, 3, 1], 10 + 10 + 14 - 14 - 14),
    example(([1, 2], 3, [1, 4]), (4, [3, 5]), [1, 2, 3, 4, 5], 4),
    example(([1, 2], 2, [1, 3]), (6, [1, 4]), [1, 2, 6, 6, 4], 0),
    example(([2, 5], 3, [2, 4]), (6, [1, 5]), [5, 2, 6, 3, 4], 0),
    example(([1, 5], 5, [1, 2]), (3, [2, 4]), [5, 1, 2, 3, 4], 0),
    example(([1, 2], 1, [2, 3]), (3, [1, 4]), [1, 2, 3, 3, 4], 0),
    example(([1, 4], 4, [1, 2]), (2, [3, 4]), [4, 1, 2, 2, 3], 0),
    example(([2, 3], 5, [1, 2]), (3, [2, 4]), [5, 1, 2, 3, 4], 0),
];

/// A line, the first case with the second split, and the pair there with a crossing that is none.
fn sheet(example: &Example) -> [[u16; 8]; 3] {
    let ([a, b], c, [p, q]) = example.line;
    let (d, [x, y]) = example.split;
    [[1, a, b, 0, 0, c, 2, 0], [2, p, q, 0, 0, d, 3, 0], [3, x, y, x, y, x, y, 0]]
}

/// Moves that save more than 0 shut the pair out, ties do not.
#[test]
fn second_splits() {
    for example in &EXAMPLES {
        let records = sheet(example);
        assert_eq!(move_saving(6, &six(), example.moved), Ok(example.saving), "{records:?}");
        let number = if example.saving > 0 { 14 } else { 15 };
        assert_eq!(verdict(6, &six(), &records), (number, 3, 0), "{records:?}");
    }
}

/// Marking by the test that moves the split point alone: number, record, lines accepted.
fn verdict_before(records: &[[u16; 8]]) -> (u64, u64, u64) {
    let table: Vec<u8> = six().iter().flat_map(|l| l.to_le_bytes()).collect();
    let sheet: Vec<u8> = records.concat().iter().flat_map(|v| v.to_le_bytes()).collect();
    let answer = Naive { mistake: Some(Mistake::SplitMovedOnly) }.mark_sheet(6, &table, &mut fresh(6), &sheet);
    (answer % 256, answer / 256 % 65_536, answer / 16_777_216)
}

/// If the split point alone were moved, each of these pairs would be the next one.
#[test]
fn second_splits_if_only_the_split_point_is_moved() {
    for example in &EXAMPLES {
        assert_eq!(verdict_before(&sheet(example)), (15, 3, 0));
    }
}

/// 1-3 is struck: at 2 one pair stands, (3,6), and under it none at 5, since 1 moves away from 5.
#[test]
fn a_line_that_needs_the_moves() {
    let records = [[1, 1, 3, 0, 0, 2, 2, 0], [2, 3, 6, 0, 0, 5, 0, 0]];
    assert_eq!(verdict(6, &six(), &records), (0, 0, 1));
    assert_eq!(verdict_before(&records), (14, 2, 0));
}

/// The pairs at c under K, which comes from pairs that stand.
fn pairs(table: &[u32], known: &EdgeSet, c: u16) -> Vec<(u16, u16)> {
    let (lengths, marks) = (Intervals::exact(6, table), fresh(6));
    let mut split = Split::new(&lengths, Marks::in_sheet(&marks), known, c);
    std::iter::from_fn(|| split.next_pair()).collect()
}

/// K = {ab}: moving other points shuts out nothing more, triangle inequality or not.
#[test]
fn a_pair_list_is_what_moving_the_split_point_leaves() {
    let mut rng = Rng::new(31, 0);
    for _ in 0..2_000 {
        let board = boards::board(&mut rng);
        let [a, b, c] = spoil::three_points(&mut rng, board.n);
        if board.n > 20 || a == b || ![a, b, c].iter().all(|&v| 1 <= v && v <= board.n) {
            continue;
        }
        let (known, marks) = (EdgeSet::one(a, b), fresh(board.n.into()));
        let lengths = Intervals::exact(board.n, &board.table);
        let moved = moved::pairs(&lengths, Marks::in_look(&marks), &known, c);
        let mut list = vec![0; 2 * edge_count(board.n)];
        let count = list_pairs(board.n.into(), &board.table, &marks, (a, b), c, &mut list).unwrap();
        assert_eq!(moved.flat_map(|(x, y)| [x, y]).collect::<Vec<u16>>(), list[..2 * count], "{board:?} {a} {b} {c}");
    }
}

/// A point with two edges in K keeps them as its pair.
#[test]
fn a_split_at_a_settled_point() {
    let mut known = EdgeSet::one(1, 2);
    known.add_pair(3, (1, 4));
    assert_eq!(pairs(&six(), &known, 3), [(1, 4)]);
    assert_eq!(pairs(&six(), &known, 1), [(2, 3)]);
}

#[test]
fn settled_points() {
    let mut known = EdgeSet::one(1, 2);
    assert_eq!(known.settled().count(), 0);
    let before = known.add_pair(3, (1, 4));
    assert_eq!(known.settled().collect::<Vec<_>>(), [(1, 2, 3), (3, 1, 4)]);
    known.add_pair(4, (2, 3));
    assert_eq!(known.settled().map(|(w, _, _)| w).collect::<Vec<_>>(), [1, 3, 4, 2]);
    known.cut_back(before);
    assert_eq!(known.settled().count(), 0);
}
