//! Paper 5 by hand: savings on 01's square and crossing, and their refusals.

mod common;

use common::*;
use second::bytes;
use second::crossing::Crossing;
use second::intervals::Intervals;
use second::lengths::edge_count;
use second::refusal::Refusal;
use second::saving::{crossing_saving, exchange_saving, move_saving};

/// p, q, r, s, x, y, z, w.
const CROSSING: [u16; 8] = [1, 2, 3, 4, 5, 6, 7, 8];

fn exchange_on_square(pqxy: [u16; 4]) -> Result<i64, Refusal> {
    exchange_saving(4, &square(), pqxy)
}

/// 28 less 20: 1-3 and 2-4 are incompatible. 20 less 28: 1-2 and 3-4 are compatible.
#[test]
fn exchanges() {
    for pqxy in [[1, 3, 2, 4], [3, 1, 2, 4], [1, 3, 4, 2], [2, 4, 1, 3]] {
        assert_eq!(exchange_on_square(pqxy), Ok(8));
    }
    for pqxy in [[1, 2, 3, 4], [2, 1, 3, 4], [4, 3, 2, 1], [1, 4, 2, 3]] {
        assert_eq!(exchange_on_square(pqxy), Ok(-8));
    }
}

/// Edges that touch leave one exchange as they are: their saving is never above 0.
#[test]
fn exchanges_of_edges_that_touch() {
    assert_eq!(exchange_on_square([1, 2, 2, 3]), Ok(0));
    assert_eq!(exchange_on_square([1, 2, 3, 2]), Ok(0));
    assert_eq!(exchange_on_square([1, 2, 2, 1]), Ok(0));
    assert_eq!(exchange_saving(4, &[1, 9, 1, 1, 1, 1], [1, 2, 2, 3]), Ok(-7), "the third side is longer than two");
}

/// K = {1-2}, split 3, pair (1, 4): 34 against 34, and equal does not shut it out.
#[test]
fn moves() {
    let saving = |cxyuv| move_saving(4, &square(), cxyuv);
    assert_eq!(saving([3, 1, 4, 1, 2]), Ok(0));
    assert_eq!(saving([3, 4, 1, 2, 1]), Ok(0));
    assert_eq!(saving([3, 2, 4, 1, 2]), Ok(10 + 10 + 10 - 14 - 14 - 10));
    assert_eq!(saving([3, 1, 2, 4, 2]), Ok(14 + 14 + 10 - 10 - 10 - 10));
}

/// Points that are the same have length 0; uv may even touch c.
#[test]
fn moves_of_points_that_are_the_same() {
    let saving = |cxyuv| move_saving(4, &square(), cxyuv);
    assert_eq!(saving([1, 2, 2, 3, 4]), Ok(10 + 10 + 10 - 14 - 10));
    assert_eq!(saving([1, 2, 4, 1, 3]), Ok(10 + 10 - 14));
    assert_eq!(saving([1, 2, 4, 2, 4]), Ok(0), "the move back");
}

/// With rs 9 it saves 3, one less for each that rs is longer.
#[test]
fn crossings() {
    for (rs, saving) in [(9, 3), (10, 2), (11, 1), (12, 0), (13, -1), (50, -38)] {
        assert_eq!(crossing_saving(8, &crossing_board(rs), CROSSING), Ok(saving), "rs {rs}");
    }
}

/// The four labellings of the crossing with rs 9: one saves 3, those with one swap lose on either move, both swaps on
/// both.
#[test]
fn labellings() {
    let table = crossing_board(9);
    let [p, q, r, s, x, y, z, w] = CROSSING;
    let saving = |xy, zw| Crossing { p, q, r, s }.labelling_saving(&Intervals::exact(8, &table), xy, zw);
    assert_eq!(saving((x, y), (z, w)), 3);
    assert_eq!(saving((x, y), (w, z)), 10 + 10 + 10 - 9 - 9 - 20);
    assert_eq!(saving((y, x), (z, w)), 10 + 10 + 10 - 9 - 20 - 9);
    assert_eq!(saving((y, x), (w, z)), 10 + 10 + 10 - 9 - 20 - 20);
}

/// The best labelling counts, however the ends are told; and of its moves the smaller saving.
#[test]
fn labellings_and_moves() {
    let mut table = crossing_board(9);
    for ends in [[5, 6, 7, 8], [5, 6, 8, 7], [6, 5, 7, 8], [6, 5, 8, 7]] {
        let [x, y, z, w] = ends;
        assert_eq!(crossing_saving(8, &table, [1, 2, 3, 4, x, y, z, w]), Ok(3), "{ends:?}");
    }
    table[second::lengths::EdgeOrder::new(8).place(1, 7)] = 11;
    assert_eq!(crossing_saving(8, &table, CROSSING), Ok(1), "pz is 2 longer");
}

/// Ends that are p or q on the tour 2-1-3-4-5 of five points: one move saves 10 or 20, the other nothing.
#[test]
fn crossings_with_ends_that_are_the_same() {
    assert_eq!(crossing_saving(5, &[10; 10], [1, 2, 3, 5, 1, 4, 2, 4]), Ok(0), "as 16 has it");
    assert_eq!(crossing_saving(4, &[7; 6], [1, 2, 1, 1, 2, 2, 2, 2]), Ok(14), "r and s are p, their ends q");
}

/// The longest and the shortest lengths: nothing overflows.
#[test]
fn largest_savings() {
    let most = 2_000_000;
    assert_eq!(exchange_saving(4, &[most, 0, 0, 0, 0, most], [1, 2, 3, 4]), Ok(4_000_000));
    assert_eq!(exchange_saving(4, &[0, most, most, most, most, 0], [1, 2, 3, 4]), Ok(-4_000_000));
    assert_eq!(move_saving(5, &[most, most, 0, 0, 0, 0, 0, 0, 0, most], [1, 2, 3, 4, 5]), Ok(6_000_000));
    let table: Vec<u8> = [0, most, most, most, most, 0u32].iter().flat_map(|l| l.to_le_bytes()).collect();
    assert_eq!(bytes::exchange_saving(4, &table, [1, 2, 3, 4]), -262_144_000_000);
}

/// Every point at 0 and n + 1, and every edge taken out with both ends the same.
#[test]
fn edges_that_are_none() {
    for wrong in [[1, 1, 3, 4], [1, 2, 3, 3]] {
        assert_eq!(refusal(exchange_on_square(wrong)), 11, "{wrong:?}");
    }
    for wrong in [[1, 1, 2, 3, 4], [1, 2, 1, 3, 4], [1, 2, 3, 4, 4]] {
        assert_eq!(refusal(move_saving(4, &square(), wrong)), 11, "{wrong:?}");
    }
    for (place, same) in [(1, 1), (4, 3), (5, 3), (6, 4), (7, 4)] {
        let mut wrong = CROSSING;
        wrong[place] = same;
        assert_eq!(refusal(crossing_saving(8, &crossing_board(9), wrong)), 11, "{wrong:?}");
    }
    for (place, point) in (0..8).flat_map(|place| [0, 9, 65_535].map(|point| (place, point))) {
        let mut wrong = CROSSING;
        wrong[place] = point;
        assert_eq!(refusal(crossing_saving(8, &crossing_board(9), wrong)), 11, "{wrong:?}");
    }
}

/// 1, 2, 5, 11: each call has all the later faults, too.
#[test]
fn order_of_refusals() {
    let (wrong, long) = ([0; 8], [2_000_001; 6]);
    let all = |n, table: &[u32]| {
        [
            refusal(exchange_saving(n, table, [0; 4])),
            refusal(move_saving(n, table, [0; 5])),
            refusal(crossing_saving(n, table, wrong)),
        ]
    };
    assert_eq!(all(3, &long), [1; 3]);
    assert_eq!(all(181, &long), [1; 3]);
    assert_eq!(all(65_540, &long), [1; 3]);
    assert_eq!(all(5, &long), [2; 3]);
    assert_eq!(all(4, &long[1..]), [2; 3]);
    assert_eq!(all(4, &long), [5; 3]);
    assert_eq!(all(4, &square()), [11; 3]);
    assert_eq!(exchange_saving(180, &vec![2_000_000; edge_count(180)], [1, 2, 179, 180]), Ok(0));
}

/// The refusal number alone, or 65,536 × the saving.
#[test]
fn numbers_for_c() {
    let table: Vec<u8> = square().iter().flat_map(|l| l.to_le_bytes()).collect();
    assert_eq!(bytes::exchange_saving(4, &table, [1, 3, 2, 4]), 8 * 65_536);
    assert_eq!(bytes::exchange_saving(4, &table, [1, 2, 3, 4]), -8 * 65_536);
    assert_eq!(bytes::move_saving(4, &table, [3, 1, 4, 1, 2]), 0);
    assert_eq!(bytes::exchange_saving(4, &table, [1, 1, 3, 4]), 11);
    assert_eq!(bytes::move_saving(4, &table[..23], [3, 1, 4, 1, 2]), 2);
    assert_eq!(bytes::crossing_saving(181, &table, CROSSING), 1);
    let crossing: Vec<u8> = crossing_board(13).iter().flat_map(|l| l.to_le_bytes()).collect();
    assert_eq!(bytes::crossing_saving(8, &crossing, CROSSING), -65_536);
}
