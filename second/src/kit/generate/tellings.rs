//! Sheets whose lines are told (02, Paper 6): boards with many ties, marks with struck and pending edges, and sheets of
//! several lines for them.

use crate::intervals::Intervals;
use crate::kit::damage::spoil::Lent;
use crate::kit::generate::boards::{self, Board};
use crate::kit::generate::drafts::{sheet_bytes, Draft, FIRST, NEXT};
use crate::kit::generate::halls::Folder;
use crate::kit::generate::rng::Rng;
use crate::kit::generate::search::{Effort, Search};
use crate::kit::generate::sets::packed;
use crate::kit::generate::sheets::{self, Plan};
use crate::lengths::{edge_count, EdgeOrder};
use crate::marks::{Marks, OPEN, STRUCK};
use crate::packed::{mark, put_mark};
use crate::sheet::{Record, Sheet};

/// What a line is told from: a folder and a record number.
#[derive(Clone, Debug)]
pub struct Asked {
    pub folder: Folder,
    pub record: u32,
}

/// A board with marks, and a sheet for them.
pub struct Lines {
    pub board: Board,
    pub marks: Vec<u8>,
    pub draft: Draft,
}

/// Lengths from few values, so that many sums are equal.
fn few_lengths(rng: &mut Rng) -> Board {
    let n = rng.between(4, 12) as u16;
    let most = rng.between(1, 5);
    let step = rng.pick(&[1, 1, 7, 400_000]);
    let table = (0..edge_count(n)).map(|_| rng.between(0, most) as u32 * step).collect();
    Board { n, table, measured: None }
}

/// Mostly a small board with small coordinates or few lengths.
fn board(rng: &mut Rng) -> Board {
    match rng.below(100) {
        0..=34 => few_lengths(rng),
        35..=69 => {
            let (n, most) = (rng.between(4, 12) as u16, rng.between(1, 12));
            boards::points_of(rng, n, most)
        }
        70..=98 => std::iter::repeat_with(|| boards::board(rng)).find(|board| board.n <= 40).unwrap(),
        _ => std::iter::repeat_with(|| boards::board(rng)).find(|board| board.n >= 100).unwrap(),
    }
}

/// Struck and pending edges, from none to most of them.
fn marks(rng: &mut Rng, n: u16) -> Vec<u8> {
    let open = rng.pick(&[100, 100, 95, 85, 60, 35]);
    let pending = rng.pick(&[0, 0, 4, 15]);
    let mut bytes = boards::random_marks(rng, n, open);
    boards::some_pending(rng, &mut bytes, pending);
    packed(&bytes)
}

impl Lines {
    pub fn random(rng: &mut Rng) -> Lines {
        let board = board(rng);
        let marks = marks(rng, board.n);
        let lengths = Intervals::exact(board.n, &board.table);
        let plan = Plan { lines: rng.between(1, 4), want: rng.pick(&[0, 0, 6]), ..Plan::random(rng, board.n) };
        let mut draft = sheets::valid(rng, &lengths, &marks, plan);
        if rng.chance(40) {
            at_an_end(rng, &lengths, &marks, &mut draft);
        }
        if draft.records.is_empty() || rng.chance(30) {
            bare_line(rng, &lengths, &marks, &mut draft);
        }
        Lines { board, marks, draft }
    }

    pub fn folder(&self, marks: &[u8], sheet: Vec<u8>) -> Folder {
        let Lent { n, table, marks } = Lent::new(&self.board, marks);
        Folder { n, table, marks, sheet }
    }

    /// The lines of the sheet, by their records.
    pub fn lines(&self) -> Vec<usize> {
        let records = &self.draft.records;
        let next = |&index: &usize| Some(usize::from(records[index - 1][NEXT])).filter(|&next| next != 0);
        std::iter::successors(Some(1), next).collect()
    }

    /// The marks that the lines before this one leave, if all of them are accepted.
    pub fn marks_before(&self, line: usize) -> Vec<u8> {
        let (mut marks, order) = (self.marks.clone(), EdgeOrder::new(self.board.n));
        for index in self.lines().into_iter().take_while(|&index| index != line) {
            let [_, a, b, ..] = self.draft.records[index - 1];
            put_mark(&mut marks, order.place(a, b), STRUCK);
        }
        marks
    }
}

/// Two points whose edge is open.
fn open_edge(rng: &mut Rng, lengths: &Intervals, marks: &[u8]) -> Option<(u16, u16)> {
    let n = lengths.order.n;
    let mut ends = std::iter::repeat_with(|| (rng.point(n), rng.point(n))).take(20);
    ends.find(|&(a, b)| a != b && mark(marks, lengths.order.place(a, b)) == OPEN)
}

/// Adds a line without cases: accepted where no pair stands at its point.
fn bare_line(rng: &mut Rng, lengths: &Intervals, marks: &[u8], draft: &mut Draft) {
    let (a, b) = open_edge(rng, lengths, marks).unwrap_or((1, 2));
    let c = rng.point(lengths.order.n);
    draft.bare_line(rng, a, b, c);
}

/// Adds a line that splits at an end of its own edge, if an argument is found.
fn at_an_end(rng: &mut Rng, lengths: &Intervals, marks: &[u8], draft: &mut Draft) {
    if let Some((a, b)) = open_edge(rng, lengths, marks) {
        if let Some(argument) = Search::new(lengths, marks, rng, Effort::LIGHT).argue_at(a, b, a) {
            draft.line(rng, &argument);
        }
    }
}

/// The records with one more at the end, in the place of a case: a new order of the segment x, c, y, which is the old
/// one, or of other points. It gets 24 or 23, if its line comes to it.
pub fn reordered(rng: &mut Rng, n: u16, records: &[Record], line: usize) -> Option<Vec<Record>> {
    let [_, _, _, _, _, c, first, _] = records[line - 1];
    let case = records.get(usize::from(first).wrapping_sub(1)).filter(|case| case[0] == Sheet::CASE_SPLIT)?;
    let (x, y) = (case[1], case[2]);
    let (u, v, named) = match rng.below(4) {
        0 | 1 => (x, y, c),
        2 => (x, y, rng.point(n)),
        _ => (rng.point(n), rng.point(n), c),
    };
    let mut records = records.to_vec();
    let last = records.len() as u16 + 1;
    records[usize::from(first) - 1] = [Sheet::CASE_REORDERING, x, y, u, v, 0, last, case[NEXT]];
    records.push([Sheet::SEGMENT_POINT, named, 0, 0, 0, 0, 0, 0]);
    Some(records)
}

/// The line's first case is a record below it, or its next index one that is never right.
pub fn wrong_index(rng: &mut Rng, records: &[Record], line: usize) -> Vec<Record> {
    let mut records = records.to_vec();
    let count = records.len() as u16;
    if rng.chance(50) {
        records[line - 1][FIRST] = rng.between(1, line) as u16;
    } else {
        records[line - 1][NEXT] = rng.pick(&[line as u16, 1, count + 1, 65_535]);
    }
    records
}

/// The sheet of the records from a line on, as if it were the first and the only one: its indices are told from there,
/// those at or below it as 1, and its next index is 0.
pub fn alone(sheet: &[u8], line: usize) -> Vec<u8> {
    let numbers = crate::bytes::numbers(sheet);
    let before = line as u16 - 1;
    let index = |at: u16| if at == 0 { 0 } else { at.saturating_sub(before).max(1) };
    let moved = |record: &[u16]| {
        let mut record: Record = record.try_into().unwrap();
        if [Sheet::LINE, Sheet::CASE_SPLIT, Sheet::CASE_REORDERING].contains(&record[0]) {
            record[FIRST] = index(record[FIRST]);
        }
        record[NEXT] = index(record[NEXT]);
        record
    };
    let mut records: Vec<Record> = numbers.chunks(Sheet::FIELDS).skip(line - 1).map(moved).collect();
    records[0][NEXT] = 0;
    sheet_bytes(&records)
}

/// Whether an edge of a packed set counts as struck where a line is told.
pub fn struck(set: &[u8], place: usize) -> bool {
    !Marks::in_sheet(set).open(place)
}
