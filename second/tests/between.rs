//! Paper 11 by hand: the square and the crossing with lengths known within limits; the refusals and their order; and on
//! boards of four and five points every table whose lengths are low or high. And the benchmark's rows over two tables.

mod common;

use common::*;
use second::crossing::Crossing;
use second::edge_set::EdgeSet;
use second::intervals::Intervals;
use second::kit::generate::boards;
use second::kit::generate::limits::{Limited, Width};
use second::kit::generate::rng::Rng;
use second::kit::generate::sheets::{self, Plan};
use second::kit::generate::workloads::{named, names, Call};
use second::kit::oracle::brute::Shortest;
use second::kit::programs::checker::Second;
use second::lengths::{EdgeOrder, Lengths};
use second::listing::{list_between, list_pairs};
use second::marking::{mark_between, mark_sheet};
use second::packed::put_mark;
use second::sheet::Record;

/// A table with other lengths of some edges.
fn with(table: &[u32], n: u16, edges: &[(u16, u16, u32)]) -> Vec<u32> {
    let mut table = table.to_vec();
    edges.iter().for_each(|&(a, b, length)| table[EdgeOrder::new(n).place(a, b)] = length);
    table
}

/// All lengths higher by this.
fn higher(table: &[u32], by: u32) -> Vec<u32> {
    table.iter().map(|length| length + by).collect()
}

/// The pairs at c for K = {ab}, from fresh marks.
fn pairs(low: &[u32], high: &[u32], ab: (u16, u16), c: u16) -> Vec<u16> {
    let mut list = [0; 12];
    let count = list_between(4, (low, high), &fresh(4), ab, c, &mut list).unwrap();
    list[..2 * count].to_vec()
}

/// Marks the records from fresh marks: number, record, lines accepted.
fn verdict_between(low: &[u32], high: &[u32], records: &[Record]) -> (u8, u16, u32) {
    figures(mark_between(4, (low, high), &mut fresh(4), &records.concat()))
}

/// 1-3 and 2-4 take out 28. Each exchange puts in 20, and 2 more for each 1 that lengths may be longer.
#[test]
fn compatible_by_limits() {
    let bare = [[1, 1, 3, 0, 0, 2, 0, 0]];
    for by in 0..=3 {
        assert_eq!(verdict_between(&square(), &higher(&square(), by), &bare), (0, 0, 1), "{by}");
        assert_eq!(pairs(&square(), &higher(&square(), by), (1, 3), 2), []);
    }
    assert_eq!(verdict_between(&square(), &higher(&square(), 4), &bare), (14, 1, 0), "28 against 28");
    assert_eq!(pairs(&square(), &higher(&square(), 4), (1, 3), 2), [1, 4, 3, 4]);
    for table in [square(), higher(&square(), 4)] {
        assert_eq!(pairs(&table, &table, (1, 3), 2), [], "over either table alone");
        assert_eq!(verdict_between(&table, &table, &bare), (0, 0, 1));
    }
}

/// The larger exchange decides, and it counts high: one side that may be longer is enough. (1,4) is still shut out,
/// since moving 2 to between 1 and 3 takes out 38 and puts in 30; for (3,4) it puts in 38.
#[test]
fn one_side_known_within_limits() {
    assert_eq!(pairs(&square(), &with(&square(), 4, &[(3, 4, 17)]), (1, 3), 2), []);
    assert_eq!(pairs(&square(), &with(&square(), 4, &[(3, 4, 18)]), (1, 3), 2), [3, 4]);
    assert_eq!(pairs(&with(&square(), 4, &[(2, 4, 6)]), &square(), (1, 3), 2), [1, 4, 3, 4], "2-4 counts low");
    assert_eq!(pairs(&with(&square(), 4, &[(2, 4, 7)]), &square(), (1, 3), 2), []);
}

/// K = {1-2}: moving 3 from between 1 and 4 to between 1 and 2 takes out 1-2, 1-3 and 3-4 and puts in 1-4, 1-3 and 2-3.
/// 1-3 "is both" and "counts as each".
#[test]
fn a_length_that_is_both() {
    let short = with(&square(), 4, &[(1, 4, 9)]);
    let longer = with(&short, 4, &[(1, 3, 15)]);
    assert_eq!(pairs(&square(), &square(), (1, 2), 3), [1, 4, 2, 4], "34 against 34");
    assert_eq!(pairs(&short, &short, (1, 2), 3), [2, 4], "33 against 34");
    assert_eq!(pairs(&longer, &longer, (1, 2), 3), [2, 4], "34 against 35");
    assert_eq!(pairs(&short, &longer, (1, 2), 3), [1, 4, 2, 4], "34 against 34");
}

/// 01's crossing with rs from 9 on: three low lengths, 30, against three high ones.
#[test]
fn a_crossing_within_limits() {
    let [p, q, r, s, x, y, z, w] = [1, 2, 3, 4, 5, 6, 7, 8];
    let mut known = EdgeSet::one(p, q);
    known.add_pair(r, (x, y));
    known.add_pair(s, (z, w));
    let saves = |low: &[u32], high: &[u32]| Crossing { p, q, r, s }.saves(&known, &Intervals::new(8, low, high));
    let board = crossing_board(9);
    assert!(saves(&board, &board));
    assert!(saves(&board, &crossing_board(11)), "30 against 29");
    assert!(!saves(&board, &crossing_board(12)), "30 against 30");
    assert!(!saves(&board, &with(&board, 8, &[(q, y, 12)])), "the second move");
    assert!(!saves(&with(&board, 8, &[(s, w, 7)]), &board), "sw counts low: 27 against 27");
    assert!(!saves(&with(&board, 8, &[(p, q, 7)]), &with(&board, 8, &[(p, q, 40)])), "pq counts low");
}

/// One fault a letter: n; the size, an entry of the low and of the high table; low above high; a mark of 3, a pending
/// mark; the sheet's size; a point field, a struck edge, the list's size.
fn tables_with(faults: &str) -> (u32, Vec<u32>, Vec<u32>, Vec<u8>) {
    let has = |fault| faults.contains(fault);
    let (mut low, mut high) = (square(), higher(&square(), 1));
    let faulty = [('e', 0, 2_000_001), ('a', 1, 16)];
    faulty.iter().filter(|fault| has(fault.0)).for_each(|&(_, place, length)| low[place] = length);
    if has('E') {
        high[2] = 2_000_001;
    }
    if has('t') {
        low.pop();
    }
    if has('T') {
        high.push(1);
    }
    let mut marks = fresh(4);
    let faulty = [('m', 5, 3), ('p', 0, 2), ('k', 3, 0)];
    faulty.iter().filter(|fault| has(fault.0)).for_each(|&(_, place, mark)| put_mark(&mut marks, place, mark));
    (if has('n') { 181 } else { 4 }, low, high, marks)
}

/// Marking; the marks stay.
fn mark_with(faults: &str) -> u8 {
    let (n, low, high, mut marks) = tables_with(faults);
    let before = marks.clone();
    let sheet: &[u16] = if faults.contains('s') { &[] } else { &[0; 8] };
    let number = figures(mark_between(n, (&low, &high), &mut marks, sheet)).0;
    assert_eq!(marks, before, "{faults}");
    number
}

/// Listing for 2-3 and the split point 1; the list stays.
fn list_with(faults: &str) -> u8 {
    let (n, low, high, marks) = tables_with(faults);
    let mut list = vec![7; if faults.contains('l') { 3 } else { 4 }];
    let a = if faults.contains('f') { 5 } else { 2 };
    let number = refusal(list_between(n, (&low, &high), &marks, (a, 3), 1, &mut list));
    assert!(number == 0 || list.iter().all(|&place| place == 7), "{faults}");
    number
}

/// Each fault alone, and each two.
fn in_order(call: fn(&str) -> u8, order: &[(char, u8)]) {
    for (i, &(first, number)) in order.iter().enumerate() {
        assert_eq!(call(&first.to_string()), number, "{first}");
        for &(second, _) in &order[i + 1..] {
            assert_eq!(call(&format!("{first}{second}")), number, "{first} with {second}");
        }
    }
}

#[test]
fn refusals_in_their_order() {
    let tables = [('n', 1), ('t', 2), ('T', 2), ('e', 5), ('E', 5), ('a', 25), ('m', 6)];
    in_order(mark_with, &[&tables[..], &[('p', 20), ('s', 7)]].concat());
    in_order(list_with, &[&tables[..], &[('f', 11), ('k', 12), ('l', 18)]].concat());
    assert_eq!(mark_with(""), 10);
    assert_eq!((list_with(""), list_with("p")), (0, 0), "a pending mark is no fault of a list");
    assert_eq!((mark_with("tE"), mark_with("Te"), mark_with("Ta")), (2, 2, 2), "2 of both tables before 5 of either");
}

/// Equal lengths are no fault, at the limit either, and 25 is told at whatever edge.
#[test]
fn low_above_high() {
    let number = |low: &[u32], high: &[u32]| figures(mark_between(4, (low, high), &mut fresh(4), &[0; 8])).0;
    assert_eq!(number(&[2_000_000; 6], &[2_000_000; 6]), 10);
    assert_eq!(number(&[0; 6], &[2_000_000; 6]), 10);
    for place in 0..6 {
        let mut low = [5; 6];
        low[place] = 6;
        assert_eq!((number(&low, &[5; 6]), number(&[5; 6], &low)), (25, 10), "{place}");
    }
}

/// Every table whose lengths are low or high.
fn tables_at_ends(limited: &Limited) -> impl Iterator<Item = Vec<u32>> + '_ {
    let edges = limited.low.len();
    (0..1usize << edges).map(move |ends| {
        let end = |place| if ends >> place & 1 == 0 { limited.low[place] } else { limited.high[place] };
        (0..edges).map(end).collect()
    })
}

/// Lines without cases for every edge and split point, then sheets from the search; answers the marks and the strikes.
fn run(rng: &mut Rng, limited: &Limited) -> (Vec<u8>, u32) {
    let (n, tables) = (limited.n, (&limited.low[..], &limited.high[..]));
    let (mut marks, mut strikes) = (fresh(n.into()), 0);
    for (a, b, c) in (1..=n).flat_map(|a| (a + 1..=n).flat_map(move |b| (1..=n).map(move |c| (a, b, c)))) {
        strikes += mark_between(n.into(), tables, &mut marks, &[1, a, b, 0, 0, c, 0, 0]).lines;
    }
    for _ in 0..3 {
        let plan = Plan::random(rng, n);
        let records = sheets::valid(rng, &limited.lengths(), &marks, plan).records;
        strikes += mark_between(n.into(), tables, &mut marks, &records.concat()).lines;
    }
    (marks, strikes)
}

/// "One set of marks must then serve whichever board is cut."
#[test]
fn no_table_at_the_ends_loses_an_edge() {
    let mut strikes = 0;
    for case in 0..150 {
        let mut rng = Rng::new(17, case);
        let (n, most) = (rng.between(4, 5) as u16, rng.pick(&[10, 1000]));
        let (board, width) =
            (boards::points_of(&mut rng, n, most), rng.pick(&[Width::Narrow, Width::One, Width::FewEdges]));
        let limited = Limited::above(&mut rng, &board, width);
        let (marks, struck) = run(&mut rng, &limited);
        strikes += struck;
        for table in tables_at_ends(&limited).filter(|_| struck > 0) {
            let lost = Shortest::of(&Lengths::new(n, &table)).lost_edge(&marks);
            assert_eq!(lost, None, "{limited:?} {table:?}");
        }
    }
    assert!(strikes > 100, "only {strikes} strikes");
}

/// One table lent twice, as one: marks and lists.
#[test]
fn equal_tables() {
    let mut strikes = 0;
    for case in 0..200 {
        let mut rng = Rng::new(23, case);
        let board = boards::points_of(&mut rng, 8, 100);
        let (table, tables) = (&board.table[..], (&board.table[..], &board.table[..]));
        let plan = Plan::random(&mut rng, 8);
        let records = sheets::valid(&mut rng, &Intervals::exact(8, table), &fresh(8), plan).records.concat();
        let (mut marks, mut between) = (fresh(8), fresh(8));
        let marked = mark_sheet(8, table, &mut marks, &records);
        assert_eq!(marked, mark_between(8, tables, &mut between, &records));
        assert_eq!(marks, between);
        strikes += marked.lines;
        let (mut list, mut other) = ([9; 56], [9; 56]);
        let [a, b, c]: [u16; 3] = rng.points(8, 3).try_into().unwrap();
        assert_eq!(
            list_pairs(8, table, &marks, (a, b), c, &mut list),
            list_between(8, tables, &marks, (a, b), c, &mut other)
        );
        assert_eq!(list, other);
    }
    assert!(strikes > 100, "only {strikes} strikes");
}

/// The benchmark's rows over two tables: tables that differ, lines that are accepted, lists with pairs.
#[test]
fn rows_of_the_benchmark() {
    let between: Vec<String> = names().into_iter().filter(|name| name.ends_with(" between")).collect();
    assert_eq!(between, ["mark 90 deep between", "list 90 between"]);
    for name in &between {
        let call = named(name).unwrap().call;
        let (Call::MarkBetween { low, high, .. } | Call::ListBetween { low, high, .. }) = &call else {
            panic!("{name} is not over two tables")
        };
        assert!(low != high, "{name}");
        let answer = call.run(&Second, &mut call.buffers());
        assert!(answer > 65_536 && answer % 65_536 == 0, "{name}: {answer}");
    }
}
