//! Reasons in words (02, Paper 6) by hand: the page's sentences, each reason under K = {ab} and under larger sets,
//! closings, refusals, and buffers.

mod common;

use common::{crossing_board, fresh, square};
use second::edge_set::EdgeSet;
use second::intervals::Intervals;
use second::kit::generate::drafts::sheet_bytes;
use second::kit::generate::sets::packed;
use second::kit::generate::six_points;
use second::kit::programs::checker::{Checker, Second};
use second::kit::programs::naive::Naive;
use second::lengths::{edge_count, EdgeOrder};
use second::marks::{Marks, OPEN, PENDING, STRUCK};
use second::packed::put_mark;
use second::reasons::{Reason, Reasons};
use second::sentence::{put_sentence, SENTENCE_BYTES};
use second::sheet::{Record, Sheet};
use second::telling::closing;

fn bytes(table: &[u32]) -> Vec<u8> {
    table.iter().flat_map(|length| length.to_le_bytes()).collect()
}

fn sentence(reason: Reason, c: u16, pair: (u16, u16)) -> String {
    let mut text = Vec::new();
    put_sentence(&mut text, &reason, c, pair);
    String::from_utf8(text).unwrap()
}

/// A call of both programs in a buffer of this size: the answer and the buffer.
fn told(n: u32, table: &[u32], marks: &[u8], records: &[Record], record: u32, size: usize) -> (u64, Vec<u8>) {
    let call = |checker: &dyn Checker| {
        let mut text = vec![b'#'; size];
        (checker.tell_line(n, &bytes(table), marks, &sheet_bytes(records), record, &mut text), text)
    };
    let own = call(&Second);
    assert_eq!(own, call(&Naive::default()));
    own
}

/// The text of a line of the square, or its refusal number and record.
fn on_square(marks: &[u8], records: &[Record], record: u32) -> Result<String, (u64, u64)> {
    let (answer, text) = told(4, &square(), marks, records, record, 500);
    match answer % 256 {
        0 => Ok(String::from_utf8(text[..answer as usize / 65_536].to_vec()).unwrap()),
        refusal => Err((refusal, answer / 256)),
    }
}

const STRIKES: [Record; 2] = [[1, 1, 3, 0, 0, 2, 0, 2], [1, 2, 4, 0, 0, 1, 0, 0]];

const FIRST: &str = "Loop 1-2-3 shuts out 1 and 3 as neighbours of 2.
Exchanging 2-4 and 1-3 saves 8 and shuts out 1 and 4 as neighbours of 2.
Exchanging 2-4 and 1-3 saves 8 and shuts out 3 and 4 as neighbours of 2.
";

#[test]
fn the_sentences_of_the_page() {
    for (reason, due) in [
        (Reason::Struck { edge: (3, 5) }, "Struck edge 3-5 shuts out 3 and 8 as neighbours of 5.\n"),
        (Reason::ThirdEdge { point: 5 }, "Third edge at 5 shuts out 3 and 8 as neighbours of 5.\n"),
        (
            Reason::Exchange { leg: (3, 5), edge: (1, 2), saving: 12 },
            "Exchanging 3-5 and 1-2 saves 12 and shuts out 3 and 8 as neighbours of 5.\n",
        ),
        (
            Reason::Move { point: 5, edge: (1, 2), saving: 7 },
            "Moving 5 between 1 and 2 saves 7 and shuts out 3 and 8 as neighbours of 5.\n",
        ),
        (
            Reason::Crossing { edge: (1, 2), centres: (3, 8), saving: 3 },
            "Crossing 1-2 with centres 3 and 8 saves 3 and settles 3 and 8 as neighbours of 5.\n",
        ),
        (Reason::Split { point: 9 }, "Further split at 9 settles 3 and 8 as neighbours of 5.\n"),
        (
            Reason::NewOrder { points: vec![1, 4, 3, 9], saving: 5 },
            "New order 1-4-3-9 saves 5 and settles 3 and 8 as neighbours of 5.\n",
        ),
    ] {
        assert_eq!(sentence(reason, 5, (3, 8)), due);
    }
    let due = "Loop 1-2-5 shuts out 1 and 2 as neighbours of 5.\n";
    assert_eq!(sentence(Reason::Loop { points: vec![1, 2, 5] }, 5, (1, 2)), due);
}

/// The longest sentence of each kind that a line can come to, and a new order of fourteen points.
#[test]
fn a_sentence_has_at_most_127_bytes_and_a_newline() {
    let (edge, saving) = ((179, 180), 6_000_000);
    let points: Vec<u16> = (167..=180).collect();
    for reason in [
        Reason::Exchange { leg: edge, edge, saving },
        Reason::Move { point: 180, edge, saving },
        Reason::Crossing { edge, centres: edge, saving },
        Reason::NewOrder { points, saving: 26_000_000 },
    ] {
        assert!(sentence(reason, 178, (179, 180)).len() <= SENTENCE_BYTES);
    }
}

#[test]
fn the_square() {
    assert_eq!(on_square(&fresh(4), &STRIKES, 1), Ok(FIRST.to_string()));
    let second = "Exchanging 1-3 and 2-4 saves 8 and shuts out 2 and 3 as neighbours of 1.
Loop 1-2-4 shuts out 2 and 4 as neighbours of 1.
Exchanging 1-3 and 2-4 saves 8 and shuts out 3 and 4 as neighbours of 1.
";
    assert_eq!(on_square(&fresh(4), &STRIKES, 2), Ok(second.to_string()));
}

/// The marks are those from before: 1-3, struck by the first line, is told at the second.
#[test]
fn struck_and_pending_edges() {
    for mark in [STRUCK, PENDING] {
        let mut marks = fresh(4);
        put_mark(&mut marks, 1, mark);
        let text = on_square(&marks, &STRIKES, 2).unwrap();
        let lines: Vec<&str> = text.lines().collect();
        assert_eq!(lines[0], "Struck edge 1-3 shuts out 2 and 3 as neighbours of 1.");
        assert_eq!(lines[2], "Struck edge 1-3 shuts out 3 and 4 as neighbours of 1.");
        assert_eq!(on_square(&marks, &STRIKES, 1), Err((12, 1)));
        put_mark(&mut marks, 2, mark);
        let text = on_square(&marks, &STRIKES, 2).unwrap();
        assert!(text.ends_with("Struck edge 1-3 shuts out 3 and 4 as neighbours of 1.\n"), "the lower of 1-3 and 1-4");
        assert!(text.contains("Struck edge 1-4 shuts out 2 and 4 as neighbours of 1.\n"));
    }
}

/// At an end of the line's edge: a third edge, struck edges before it, and no pair with both.
#[test]
fn a_split_at_an_end_of_the_edge() {
    let mut marks = fresh(4);
    let line = [[1, 3, 1, 0, 0, 1, 0, 0]];
    assert_eq!(on_square(&marks, &line, 1), Err((14, 1)));
    put_mark(&mut marks, 0, STRUCK);
    put_mark(&mut marks, 2, PENDING);
    let text = on_square(&marks, &line, 1).unwrap();
    let due = "Struck edge 1-2 shuts out 2 and 3 as neighbours of 1.
Struck edge 1-2 shuts out 2 and 4 as neighbours of 1.
Struck edge 1-4 shuts out 3 and 4 as neighbours of 1.
";
    assert_eq!(text, due);
}

/// The next index of the line is not read, and records before it are not entered.
#[test]
fn a_line_alone() {
    for next in [1, 2, 9, 65_535] {
        assert_eq!(on_square(&fresh(4), &[[1, 1, 3, 0, 0, 2, 0, next]], 1), Ok(FIRST.to_string()));
    }
    let behind = [[9; 8], [9; 8], [1, 3, 1, 0, 0, 2, 0, 1]];
    assert_eq!(on_square(&fresh(4), &behind, 3), Ok(FIRST.to_string()));
    assert_eq!(on_square(&fresh(4), &behind, 1), Err((10, 1)));
    let first_case_below = [[2, 1, 4, 0, 0, 1, 0, 0], [1, 1, 3, 0, 0, 2, 1, 0]];
    assert_eq!(on_square(&fresh(4), &first_case_below, 2), Err((9, 2)));
}

#[test]
fn refusals_in_order() {
    let (table, marks, short) = (square(), fresh(4), &STRIKES[..0]);
    let refused = |n, table: &[u32], marks: &[u8], records: &[Record], record| {
        let (answer, text) = told(n, table, marks, records, record, 0);
        assert!(text.is_empty());
        (answer % 256, answer / 256)
    };
    assert_eq!(refused(3, &table[..5], &marks[..1], short, 0), (1, 0));
    assert_eq!(refused(4, &table[..5], &marks[..1], short, 0), (2, 0));
    assert_eq!(refused(4, &[2_000_001; 6], &marks[..1], short, 0), (5, 0));
    assert_eq!(refused(4, &table, &marks[..1], short, 0), (6, 0));
    assert_eq!(refused(4, &table, &packed(&[PENDING; 6]), short, 0), (7, 0));
    for record in [0, 3, 65_536, 65_537, 65_538, u32::MAX] {
        assert_eq!(refused(4, &table, &marks, &STRIKES, record), (8, 0), "{record}");
    }
    assert_eq!(refused(4, &table, &marks, &[[1, 1, 2, 0, 0, 3, 0, 0]], 1), (14, 1));
    assert_eq!(refused(4, &table, &marks, &STRIKES, 1), (22, 0));
}

#[test]
fn buffers() {
    let call = |size| told(4, &square(), &fresh(4), &STRIKES, 1, size);
    let length = FIRST.len();
    assert_eq!(call(length), (65_536 * length as u64, FIRST.as_bytes().to_vec()));
    assert_eq!(call(length + 3), (65_536 * length as u64, format!("{FIRST}###").into_bytes()));
    assert_eq!(call(length - 1), (22, vec![b'#'; length - 1]));
}

/// A board on which every length is 10, some changed.
fn board(n: u16, changes: &[((u16, u16), u32)]) -> Vec<u32> {
    let (mut table, order) = (vec![10; edge_count(n)], EdgeOrder::new(n));
    changes.iter().for_each(|&((a, b), length)| table[order.place(a, b)] = length);
    table
}

/// What shuts a pair out under K, all edges open.
fn shut_out(n: u16, table: &[u32], k: &[(u16, u16)], c: u16, pair: (u16, u16)) -> Option<Reason> {
    let (lengths, set) = (Intervals::exact(n, table), packed(&vec![OPEN; edge_count(n)]));
    let mut known = EdgeSet::empty();
    k.iter().for_each(|&(u, v)| known.add(u, v));
    Reasons::new(&lengths, Marks::in_sheet(&set), &known, c).shut_out(pair)
}

/// Where c and an end of the edge save the same, the lower point is told.
#[test]
fn the_lower_of_two_moved_points() {
    let moved = |ab, c, pair| shut_out(6, &board(6, &[(pair, 5)]), &[ab], c, pair);
    let saved = |point, edge| Some(Reason::Move { point, edge, saving: 5 });
    assert_eq!(moved((1, 2), 4, (3, 5)), saved(4, (1, 2)));
    assert_eq!(moved((2, 1), 4, (2, 5)), saved(2, (4, 5)));
    assert_eq!(moved((5, 4), 2, (1, 5)), saved(2, (4, 5)));
}

/// The lower leg, though the higher one saves more; then the higher one alone.
#[test]
fn the_lower_of_two_exchanges() {
    let saved = |leg, saving| Some(Reason::Exchange { leg, edge: (1, 2), saving });
    let table = board(6, &[((1, 2), 15), ((3, 4), 12), ((3, 5), 16)]);
    assert_eq!(shut_out(6, &table, &[(1, 2)], 3, (4, 5)), saved((3, 4), 7));
    assert_eq!(shut_out(6, &table, &[(2, 1)], 4, (1, 3)), saved((3, 4), 7));
    assert_eq!(shut_out(6, &table, &[(2, 1)], 5, (1, 3)), saved((3, 5), 11));
}

/// Equal sums shut nothing out.
#[test]
fn ties_stand() {
    assert_eq!(shut_out(6, &board(6, &[]), &[(1, 2)], 3, (4, 5)), None);
    assert_eq!(
        shut_out(6, &board(6, &[((1, 2), 15), ((1, 4), 15), ((1, 5), 15), ((4, 5), 15)]), &[(1, 2)], 3, (4, 5)),
        None
    );
}

/// Larger sets: the lowest point with three edges, a loop by its rising points, none of n edges, the lowest edge of K.
#[test]
fn larger_sets() {
    let table = board(9, &[]);
    let path = [(9, 8), (8, 3), (3, 7)];
    assert_eq!(shut_out(9, &table, &path, 5, (3, 8)), Some(Reason::ThirdEdge { point: 3 }));
    assert_eq!(shut_out(9, &table, &path, 5, (7, 9)), Some(Reason::Loop { points: vec![3, 5, 7, 8, 9] }));
    assert_eq!(shut_out(9, &table, &[(1, 2), (2, 3), (3, 4)], 5, (1, 6)), None);
    assert_eq!(shut_out(4, &board(4, &[]), &[(1, 2), (2, 3)], 4, (1, 3)), None);
    let table = board(9, &[((3, 8), 15), ((1, 2), 15), ((5, 6), 15)]);
    let due = Reason::Exchange { leg: (4, 5), edge: (1, 2), saving: 5 };
    let saves = board(9, &[((3, 8), 15), ((1, 2), 15), ((4, 5), 10), ((5, 6), 10)]);
    assert_eq!(shut_out(9, &saves, &[(8, 3), (2, 1)], 5, (4, 6)), Some(due));
    let due = Reason::Exchange { leg: (5, 6), edge: (1, 2), saving: 10 };
    assert_eq!(shut_out(9, &table, &[(8, 3), (2, 1)], 5, (6, 7)), Some(due));
}

/// A crossing by the best of four labellings, and a new order, under the sets that they need.
#[test]
fn closings() {
    let table = crossing_board(9);
    let mut known = EdgeSet::one(1, 2);
    known.add_pair(3, (5, 6));
    known.add_pair(4, (7, 8));
    let records: Record = [3, 7, 8, 2, 1, 4, 3, 0];
    let sheet = Sheet::read(&records).unwrap();
    let case = sheet.case(8, 1).unwrap_or_else(|_| panic!("a case"));
    let due = Reason::Crossing { edge: (2, 1), centres: (4, 3), saving: 3 };
    assert_eq!(closing(&Intervals::exact(8, &table), sheet, &known, &case), due);
    let (table, records) = (six_points::board().table, six_points::SHEET.concat());
    let mut known = EdgeSet::one(1, 2);
    known.add_pair(3, (2, 4));
    known.add_pair(6, (1, 5));
    let sheet = Sheet::read(&records).unwrap();
    let case = sheet.case(6, 3).unwrap_or_else(|_| panic!("a case"));
    let due = Reason::NewOrder { points: vec![4, 6, 2, 3, 1, 5], saving: 1 };
    assert_eq!(closing(&Intervals::exact(6, &table), sheet, &known, &case), due);
}
