//! The accepted lines of a sheet, read by their indices: what they are made of.

use crate::edge_set::EdgeSet;
use crate::intervals::Intervals;
use crate::kit::generate::drafts::{FIRST, NEXT};
use crate::kit::met::coverage::{Coverage, Event};
use crate::kit::met::moved::{self, Moved};
use crate::kit::met::moves::Place;
use crate::marks::{Marks, STRUCK};
use crate::packed::put_mark;
use crate::sheet::{Record, Sheet};

/// Reads the first lines of a sheet, which were accepted, and counts what they hold.
pub struct Entered<'a> {
    lengths: Intervals<'a>,
    /// As the line found them.
    marks: Vec<u8>,
    numbers: &'a [u16],
    coverage: &'a mut Coverage,
    records: usize,
}

impl<'a> Entered<'a> {
    /// Counts `lines` accepted lines, the first of which found these marks; answers the number of records entered.
    pub fn count(
        lengths: Intervals<'a>,
        marks: Vec<u8>,
        numbers: &'a [u16],
        lines: u64,
        coverage: &'a mut Coverage,
    ) -> usize {
        let mut entered = Entered { lengths, marks, numbers, coverage, records: 0 };
        let mut index = 1;
        for _ in 0..lines {
            let [_, a, b, _, _, c, first, next] = entered.record(index);
            let splits = entered.chain(&mut EdgeSet::one(a, b), c, first, 1);
            entered.coverage.line(entered.lengths.order.n.into(), splits);
            put_mark(&mut entered.marks, entered.lengths.order.place(a, b), STRUCK);
            index = next;
        }
        entered.records
    }

    fn record(&mut self, index: u16) -> Record {
        self.records += 1;
        let start = (usize::from(index) - 1) * Sheet::FIELDS;
        self.numbers[start..start + Sheet::FIELDS].try_into().unwrap()
    }

    /// The splits one inside another, this one counted; it is the `depth`th from outside.
    fn chain(&mut self, known: &mut EdgeSet, c: u16, first: u16, depth: usize) -> usize {
        self.count_split(known, c, first);
        if depth > 1 && known.degree(c) < 2 && self.lengths.order.n <= moved::MOST_POINTS {
            self.count_left_out(known, c, depth);
        }
        let (mut index, mut inside) = (first, 0);
        while index != 0 {
            let record = self.record(index);
            let before = known.add_pair(c, (record[1], record[2]));
            match record[0] {
                Sheet::CASE_SPLIT => inside = inside.max(self.chain(known, record[5], record[FIRST], depth + 1)),
                Sheet::CASE_REORDERING => self.count_reordering(&record),
                _ => self.count_crossing(known, &record),
            }
            known.cut_back(before);
            index = record[NEXT];
        }
        1 + inside
    }

    fn count_split(&mut self, known: &EdgeSet, c: u16, first: u16) {
        let event = [Event::SplitOffK, Event::SplitAtEnd, Event::SplitInside][known.degree(c)];
        self.coverage.event(event, 1);
        self.coverage.event(Event::SplitWithoutPair, u64::from(first == 0));
        self.count_tour(known);
    }

    fn count_tour(&mut self, known: &EdgeSet) {
        self.coverage.event(Event::FullTour, u64::from(known.edges().len() == usize::from(self.lengths.order.n)));
    }

    /// Counts the pairs that stand but for the wider test 5.
    fn count_left_out(&mut self, known: &EdgeSet, c: u16, depth: usize) {
        for pair in moved::pairs(&self.lengths, Marks::in_sheet(&self.marks), known, c) {
            let moved = Moved::of(&self.lengths, known, c, pair);
            if let (true, Some(mover)) = (moved.shuts_out(), moved.decides()) {
                self.coverage.moves.left_out(Place { depth, on_k: known.degree(c) > 0, mover });
            }
        }
    }

    /// Follows the chain of points.
    fn count_reordering(&mut self, record: &Record) {
        self.coverage.event(Event::Reorderings, 1);
        let mut index = record[FIRST];
        while index != 0 {
            index = self.record(index)[NEXT];
        }
    }

    fn count_crossing(&mut self, known: &EdgeSet, &[_, _, _, p, q, r, s, _]: &Record) {
        let ends = [known.ends(r), known.ends(s)].concat();
        let shared = ends.contains(&p) || ends.contains(&q);
        self.coverage.event(if shared { Event::CrossingShared } else { Event::CrossingApart }, 1);
        self.coverage.event(Event::FullSet, u64::from(known.edges().len() == EdgeSet::MOST_EDGES));
        self.count_tour(known);
    }
}
