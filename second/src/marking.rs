//! *Mark a sheet* (01, The sheet; Each operation and its refusals), asking it (02, Paper 3), marking it over two tables
//! (Paper 11), and cases closed by a new order of a segment (Paper 10).

use crate::crossing::Crossing;
use crate::edge_set::EdgeSet;
use crate::instance::Instance;
use crate::intervals::Intervals;
use crate::marks::{Marks, PENDING, STRUCK};
use crate::packed::{put_mark, some_pending};
use crate::pairs::Split;
use crate::refusal::{demand, Fault, Refusal};
use crate::segment::{Order, Segment};
use crate::sheet::{Case, Closing, Line, Point, Sheet};

/// The answer: the fault that stopped the sheet, if any, and the number of lines accepted.
#[derive(Clone, Copy, Debug, PartialEq, Eq)]
pub struct Marked {
    pub fault: Option<Fault>,
    pub lines: u32,
}

/// Marks the sheet's accepted lines struck; a stopped sheet keeps its earlier strikes.
pub fn mark_sheet(n: u32, table: &[u32], marks: &mut [u8], sheet: &[u16]) -> Marked {
    mark_or_ask(Instance::table_tests(n, table), (table, table), marks, sheet, STRUCK)
}

/// The same where each length is known to lie between a low and a high one.
pub fn mark_between(n: u32, (low, high): (&[u32], &[u32]), marks: &mut [u8], sheet: &[u16]) -> Marked {
    mark_or_ask(Instance::limit_tests(n, low, high), (low, high), marks, sheet, STRUCK)
}

/// Asks a sheet: "its strikes get mark 2, pending"; a stopped sheet keeps its earlier ones.
pub fn ask_sheet(n: u32, table: &[u32], marks: &mut [u8], sheet: &[u16]) -> Marked {
    mark_or_ask(Instance::table_tests(n, table), (table, table), marks, sheet, PENDING)
}

/// Each accepted line's edge gets the mark `strike`. `n` is what the tests before 6 answer of the two tables.
fn mark_or_ask(
    n: Result<u16, Refusal>,
    (low, high): (&[u32], &[u32]),
    marks: &mut [u8],
    sheet: &[u16],
    strike: u8,
) -> Marked {
    let mut lines = 0;
    let read = n.and_then(|n| Ok((Intervals::new(n, low, high), tests(n, marks, sheet)?)));
    let read = read.map_err(|refusal| Fault { refusal, record: 0 });
    let fault = read.and_then(|(lengths, sheet)| mark_lines(&lengths, marks, sheet, strike, &mut lines)).err();
    Marked { fault, lines }
}

/// The tests of a sheet before any record, of direct marking over one table: 1, 2, 5, 6, 20, 7.
pub fn sheet_tests<'a>(
    n: u32,
    table: &'a [u32],
    marks: &[u8],
    sheet: &'a [u16],
) -> Result<(Intervals<'a>, Sheet<'a>), Refusal> {
    let n = Instance::table_tests(n, table)?;
    Ok((Intervals::exact(n, table), tests(n, marks, sheet)?))
}

/// 6, 20, 7.
fn tests<'a>(n: u16, marks: &[u8], sheet: &'a [u16]) -> Result<Sheet<'a>, Refusal> {
    if some_pending(n, marks)? {
        return Err(Refusal::SomethingPending);
    }
    Sheet::read(sheet)
}

fn mark_lines(lengths: &Intervals, marks: &mut [u8], sheet: Sheet, strike: u8, lines: &mut u32) -> Result<(), Fault> {
    let mut walk = Walk::at(lengths, sheet, 1);
    let mut index = 1;
    loop {
        let next = walk.strike(marks, index, strike)?;
        *lines += 1;
        if next == 0 {
            return Ok(());
        }
        walk.follow(index, next)?;
        index = next;
    }
}

/// The way through the records of one sheet.
pub struct Walk<'a> {
    lengths: &'a Intervals<'a>,
    sheet: Sheet<'a>,
    known: EdgeSet,
    /// The highest record entered.
    highest: u16,
}

impl<'a> Walk<'a> {
    /// At a record that is entered and lies above all entered before.
    pub fn at(lengths: &'a Intervals<'a>, sheet: Sheet<'a>, highest: u16) -> Self {
        Walk { lengths, sheet, known: EdgeSet::empty(), highest }
    }

    /// Judges the line at `index` and gives its edge the mark `strike`. Answers its next index.
    pub fn strike(&mut self, marks: &mut [u8], index: u16, strike: u8) -> Result<u16, Fault> {
        let line = self.line(Marks::in_sheet(marks), index)?;
        put_mark(marks, self.lengths.order.place(line.a, line.b), strike);
        Ok(line.next)
    }

    /// Tests 8 and 9 on an index of record `holder`; the record at it is entered.
    pub fn follow(&mut self, holder: u16, index: u16) -> Result<(), Fault> {
        demand(usize::from(index) <= self.sheet.count(), Refusal::IndexAboveCount, holder)?;
        demand(index > self.highest, Refusal::IndexNotRising, holder)?;
        self.highest = index;
        Ok(())
    }

    /// Judges the line at `index`: 10, 11, 12, then its split under K = {ab}.
    pub fn line(&mut self, marks: Marks, index: u16) -> Result<Line, Fault> {
        let line = self.sheet.line(self.lengths.order.n, index)?;
        let place = self.lengths.order.place(line.a, line.b);
        demand(marks.open(place), Refusal::EdgeStruck, index)?;
        self.known.cut_back(0);
        self.known.add(line.a, line.b);
        self.chain(marks, index, line.c, line.first, Sheet::MOST_SPLITS - 1)?;
        Ok(line)
    }

    /// Follows the chain of the split at c that record `owner` holds: "a chain of cases names
    /// exactly the standing pairs, in rising order". `left` further splits may lie inside.
    fn chain(&mut self, marks: Marks, owner: u16, c: u16, first: u16, left: usize) -> Result<(), Fault> {
        let mut split = Split::new(self.lengths, marks, &self.known, c);
        let (mut holder, mut index) = (owner, first);
        while index != 0 {
            self.follow(holder, index)?;
            let case = self.sheet.case(self.lengths.order.n, index)?;
            demand(split.next_pair() == Some(case.pair), Refusal::Pair, index)?;
            let before = self.known.add_pair(c, case.pair);
            self.close(marks, index, &case, left)?;
            self.known.cut_back(before);
            (holder, index) = (index, case.next);
        }
        demand(split.next_pair().is_none(), Refusal::Pair, holder)
    }

    /// Closes a case whose pair is in K: 13 and its split, 15 and 16, or 23 and 24.
    fn close(&mut self, marks: Marks, index: u16, case: &Case, left: usize) -> Result<(), Fault> {
        match case.closing {
            Closing::Split { c, first } => {
                demand(left > 0, Refusal::SeventhSplit, index)?;
                self.chain(marks, index, c, first, left - 1)
            }
            Closing::Crossing { p, q, r, s } => {
                let crossing = Crossing { p, q, r, s };
                crossing.closes(&self.known, self.lengths).map_err(|refusal| Fault { refusal, record: index })
            }
            Closing::Reordering { u, v, first } => self.reorder(index, (u, v), first),
        }
    }

    /// 23, no such segment; its chain of points; 23, not its inner points; 24.
    fn reorder(&mut self, index: u16, (u, v): (u16, u16), first: u16) -> Result<(), Fault> {
        let fault = |refusal| Fault { refusal, record: index };
        let segment = Segment::find(&self.known, self.lengths.order.n, u, v).ok_or(fault(Refusal::NoSegment))?;
        let order = self.points(index, first)?;
        segment.shortened_by(&order, self.lengths).map_err(fault)
    }

    /// Follows the chain of points that record `owner` holds to its end, however long it is.
    fn points(&mut self, owner: u16, first: u16) -> Result<Order, Fault> {
        let mut order = Order::default();
        let (mut holder, mut index) = (owner, first);
        while index != 0 {
            self.follow(holder, index)?;
            let Point { point, next } = self.sheet.point(self.lengths.order.n, index)?;
            order.push(point);
            (holder, index) = (index, next);
        }
        Ok(order)
    }
}
