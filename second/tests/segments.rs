//! New orders of segments (02, Paper 10) by hand: the six points, each damage to their sheet, closed tours, ties, and
//! two tables.

mod common;

use common::{figures, fresh, verdict};
use second::bytes::{hand_in, turn, DESKS_BYTES};
use second::edge_set::EdgeSet;
use second::intervals::Intervals;
use second::kit::generate::drafts::sheet_bytes;
use second::kit::generate::six_points::{board, SHEET, SHORTEST, TOUR};
use second::kit::oracle::three_opt;
use second::kit::programs::checker::Checker;
use second::kit::programs::naive::Naive;
use second::lengths::Lengths;
use second::marking::{ask_sheet, mark_between, mark_sheet};
use second::segment::{Order, Segment};
use second::sheet::Record;

fn bytes(table: &[u32]) -> Vec<u8> {
    table.iter().flat_map(|length| length.to_le_bytes()).collect()
}

/// The sheet with some fields changed, each by record, field and value: number, record, lines, in both programs.
fn changed(changes: &[(usize, usize, u16)]) -> (u8, u16, u32) {
    let mut records = SHEET;
    changes.iter().for_each(|&(record, field, value)| records[record - 1][field] = value);
    judged(&records)
}

/// A sheet on the six points.
fn judged(records: &[Record]) -> (u8, u16, u32) {
    let (table, own) = (board().table, verdict(6, &board().table, records));
    let naive = Naive::default().mark_sheet(6, &bytes(&table), &mut fresh(6), &sheet_bytes(records));
    let (number, record, lines) = own;
    assert_eq!(naive, u64::from(number) + 256 * u64::from(record) + 16_777_216 * u64::from(lines), "{records:?}");
    own
}

/// An edge of a tour that three exchanges cannot shorten is struck; the shortest tour keeps its edges.
#[test]
fn a_new_order_strikes_an_edge_of_a_three_optimal_tour() {
    let table = board().table;
    let lengths = Lengths::new(6, &table);
    assert_eq!(three_opt::shortened(&lengths, &TOUR), None);
    assert_eq!((three_opt::length(&lengths, &TOUR), three_opt::length(&lengths, &SHORTEST)), (56, 55));
    assert_eq!(changed(&[]), (0, 0, 1));
    let mut marks = fresh(6);
    mark_sheet(6, &table, &mut marks, &SHEET.concat());
    assert_eq!(three_opt::lost_edge(&lengths, &TOUR, &marks), Some((1, 2)));
    assert_eq!(three_opt::lost_edge(&lengths, &SHORTEST, &marks), None);
}

/// The path 4-3-2-1-6-5 and the points in its order.
#[test]
fn the_segment_and_its_saving() {
    let table = board().table;
    let mut known = EdgeSet::one(1, 2);
    known.add_pair(3, (2, 4));
    known.add_pair(6, (1, 5));
    let segment = Segment::find(&known, 6, 4, 5).unwrap();
    assert_eq!(segment.inner(), [3, 2, 1, 6]);
    assert_eq!(segment.saving(&[6, 2, 3, 1], &Intervals::exact(6, &table)), 1);
    assert_eq!(Segment::find(&known, 6, 2, 6).unwrap().inner(), [1]);
    assert_eq!(Segment::find(&known, 6, 5, 4).unwrap().inner(), [6, 1, 2, 3]);
    for (u, v) in [(4, 4), (4, 3), (1, 6)] {
        assert_eq!(Segment::find(&known, 6, u, v), None, "{u} to {v}");
    }
}

#[test]
fn orders_that_do_not_close() {
    assert_eq!(changed(&[(4, 1, 3), (5, 1, 2), (6, 1, 1), (7, 1, 6)]), (24, 3, 0), "the old order");
    assert_eq!(changed(&[(5, 1, 6)]), (23, 3, 0), "a point twice");
    assert_eq!(changed(&[(6, 7, 0)]), (23, 3, 0), "a point missing");
    assert_eq!(changed(&[(7, 1, 5)]), (23, 3, 0), "an end for a point");
    assert_eq!(changed(&[(3, 6, 0)]), (23, 3, 0), "an empty chain");
    let surplus = [&SHEET[..], &[[5, 1, 0, 0, 0, 0, 0, 0]]].concat();
    let mut records = surplus.clone();
    records[6][7] = 8;
    assert_eq!(judged(&records), (23, 3, 0), "a point too many");
    assert_eq!(judged(&surplus), (0, 0, 1), "a record that is not entered");
}

#[test]
fn ends_without_a_segment() {
    assert_eq!(changed(&[(3, 4, 4)]), (23, 3, 0), "u = v");
    assert_eq!(changed(&[(3, 4, 3)]), (23, 3, 0), "neighbours");
    assert_eq!(changed(&[(3, 4, 1)]), (23, 3, 0), "a shorter one");
    assert_eq!(changed(&[(3, 4, 3), (4, 2, 1)]), (23, 3, 0), "before the chain is entered");
    assert_eq!(changed(&[(3, 4, 3), (3, 6, 9)]), (23, 3, 0), "before its index is followed");
    assert_eq!(changed(&[(3, 4, 1), (4, 2, 1)]), (10, 4, 0), "and after a chain of other points");
}

#[test]
fn fields_and_indices() {
    assert_eq!(changed(&[(3, 5, 1)]), (10, 3, 0), "c");
    for field in 2..7 {
        assert_eq!(changed(&[(5, field, 1)]), (10, 5, 0), "field {field} of a point");
    }
    for kind in [0, 1, 2, 3, 4, 6, 261] {
        assert_eq!(changed(&[(5, 0, kind)]), (10, 5, 0), "kind {kind} in a chain of points");
    }
    for (record, kind) in [(1, 4), (1, 5), (2, 5), (3, 5)] {
        assert_eq!(changed(&[(record, 0, kind)]), (10, record as u16, 0), "kind {kind} in record {record}");
    }
    for point in [0, 7, 262] {
        assert_eq!(changed(&[(6, 1, point)]), (11, 6, 0), "point {point}");
        assert_eq!(changed(&[(3, 3, point)]), (11, 3, 0), "u {point}");
        assert_eq!(changed(&[(3, 4, point)]), (11, 3, 0), "v {point}");
    }
    assert_eq!(changed(&[(3, 2, 1)]), (11, 3, 0), "a = b");
    assert_eq!(changed(&[(3, 1, 2)]), (14, 3, 0), "another pair");
    assert_eq!(changed(&[(3, 1, 2), (3, 4, 3)]), (14, 3, 0), "another pair, and no segment");
    assert_eq!(changed(&[(5, 7, 5)]), (9, 5, 0), "the record itself");
    assert_eq!(changed(&[(3, 6, 3)]), (9, 3, 0), "the owner itself");
    assert_eq!(changed(&[(5, 7, 8)]), (8, 5, 0), "above the count");
    assert_eq!(changed(&[(3, 6, 8)]), (8, 3, 0), "a first above the count");
    assert_eq!(changed(&[(3, 7, 6)]), (9, 3, 0), "records of points are entered");
}

/// A chain of hundreds of points is followed to its end: what is wrong behind the thirteenth is told first.
#[test]
fn chains_longer_than_any_segment() {
    let long = |last: Record| {
        let mut records = SHEET[..3].to_vec();
        records.extend((4..400).map(|index| [5, index % 6 + 1, 0, 0, 0, 0, 0, index + 1]));
        records.push(last);
        judged(&records)
    };
    assert_eq!(long([5, 1, 0, 0, 0, 0, 0, 0]), (23, 3, 0));
    assert_eq!(long([5, 1, 0, 0, 0, 0, 1, 0]), (10, 400, 0));
    assert_eq!(long([5, 7, 0, 0, 0, 0, 0, 0]), (11, 400, 0));
    assert_eq!(long([5, 1, 0, 0, 0, 0, 0, 400]), (9, 400, 0));
    assert_eq!(long([5, 1, 0, 0, 0, 0, 0, 401]), (8, 400, 0));
}

/// All lengths 1: every order is as short as the old one, and a closed tour of four has no segment.
#[test]
fn ties_and_closed_tours() {
    let line = |second: Record, third: Record| {
        let points = [[5, 2, 0, 0, 0, 0, 0, 5], [5, 3, 0, 0, 0, 0, 0, 0]];
        [[1, 1, 2, 0, 0, 3, 2, 0], second, third, points[0], points[1]]
    };
    let marked = |n: u32, records: &[Record]| {
        let table = vec![1; (n * (n - 1) / 2) as usize];
        let mut marks = vec![1u8; table.len()];
        let order = second::lengths::EdgeOrder::new(n as u16);
        (1..=n as u16).filter(|&v| v != 3 && v != 2 && v != 4).for_each(|v| marks[order.place(3, v)] = 0);
        let packed = second::kit::generate::sets::packed(&marks);
        let own = figures(mark_sheet(n, &table, &mut packed.clone(), &records.concat()));
        let naive = Naive::default().mark_sheet(n, &bytes(&table), &mut packed.clone(), &sheet_bytes(records));
        assert_eq!(naive % 256, u64::from(own.0));
        own
    };
    let tie = line([4, 2, 4, 1, 4, 0, 4, 0], [0; 8]);
    assert_eq!(marked(5, &tie), (24, 2, 0), "1-2-3-4 in its own order");
    let closed = line([2, 2, 4, 0, 0, 4, 3, 0], [4, 1, 3, 1, 3, 0, 0, 0]);
    assert_eq!(marked(4, &closed), (23, 3, 0), "1-2-3-4-1");
    let path = line([2, 2, 4, 0, 0, 2, 3, 0], [4, 1, 3, 1, 4, 0, 4, 0]);
    assert_eq!(marked(4, &path), (24, 3, 0), "1-2-3-4");
}

/// The old path counts low, the new one high: a saving of 1 is lost by a low length of the old path less by 1, or a
/// high one of the new path more by 1, and not by others.
#[test]
fn two_tables() {
    let table = board().table;
    let order = second::lengths::EdgeOrder::new(6);
    let between = |low: Option<(u16, u16)>, high: Option<(u16, u16)>| {
        let (mut lows, mut highs) = (table.clone(), table.clone());
        low.iter().for_each(|&(a, b)| lows[order.place(a, b)] -= 1);
        high.iter().for_each(|&(a, b)| highs[order.place(a, b)] += 1);
        let own = figures(mark_between(6, (&lows, &highs), &mut fresh(6), &SHEET.concat()));
        let naive =
            Naive::default().mark_between(6, &bytes(&lows), &bytes(&highs), &mut fresh(6), &sheet_bytes(&SHEET));
        assert_eq!(naive % 256, u64::from(own.0));
        own
    };
    assert_eq!(between(None, None), (0, 0, 1));
    assert_eq!(between(Some((4, 6)), None), (0, 0, 1), "a new edge's low length");
    assert_eq!(between(Some((2, 3)), None), (24, 3, 0), "2-3 counts as each");
    assert_eq!(between(None, Some((2, 6))), (24, 3, 0), "a new edge's high length");
}

/// Asked, and by a turn.
#[test]
fn asked_and_by_turns() {
    let table = board().table;
    assert_eq!(figures(ask_sheet(6, &table, &mut fresh(6), &SHEET.concat())), (0, 0, 1));
    for (records, number, record, lines) in [(SHEET.to_vec(), 0, 0, 1), (SHEET[..6].to_vec(), 8, 6, 0)] {
        let (mut desks, mut marks, sheet) = ([0; DESKS_BYTES], fresh(6), sheet_bytes(&records));
        assert_eq!(hand_in(&mut desks, 3, 6, &bytes(&table), &marks, &sheet), 0);
        let answer = turn(&mut desks, 6, &bytes(&table), &mut marks, &sheet);
        assert_eq!(answer, number + 256 * record + 16_777_216 * lines + (3 << 48));
    }
}

/// More points than are kept are counted, so that they are no order of a segment.
#[test]
fn orders_of_more_points() {
    let mut known = EdgeSet::one(1, 2);
    known.add_pair(3, (2, 4));
    let (segment, table) = (Segment::find(&known, 20, 1, 4).unwrap(), vec![1; 190]);
    let lengths = Intervals::exact(20, &table);
    for points in 0..40 {
        let mut order = Order::default();
        (0..points).for_each(|at| order.push(2 + at % 2));
        let number = segment.shortened_by(&order, &lengths).err().map(|refusal| refusal.number());
        assert_eq!(number, Some(if points == 2 { 24 } else { 23 }), "{points} points");
    }
}
