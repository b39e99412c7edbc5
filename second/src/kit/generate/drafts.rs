//! Sheets from arguments: records in the order they are entered, with gaps of junk.

use crate::crossing::Crossing;
use crate::kit::generate::orders::Reordering;
use crate::kit::generate::rng::Rng;
use crate::kit::generate::search::{Argument, CaseTree, ClosingTree, SplitTree};
use crate::sheet::{Record, Sheet};

pub const NEXT: usize = 7;
pub const FIRST: usize = 6;

/// What is known about a case record, for damage on purpose.
#[derive(Clone, Debug)]
pub struct CaseNote {
    /// The record's index.
    pub index: usize,
    /// K with the case's pair.
    pub known: Vec<(u16, u16)>,
    /// Splits that the case lies in.
    pub depth: usize,
}

/// A sheet under construction.
#[derive(Clone, Debug, Default)]
pub struct Draft {
    pub n: u16,
    pub records: Vec<Record>,
    pub notes: Vec<CaseNote>,
    /// Index of the last line, 0 before the first.
    last_line: usize,
    /// Chance in a hundred of a gap before a record.
    gaps: usize,
}

/// Eight numbers of which some look like fields.
pub fn junk(rng: &mut Rng, n: u16) -> Record {
    std::array::from_fn(|_| match rng.below(4) {
        0 => rng.word() as u16,
        1 => rng.below(4) as u16,
        _ => rng.point(n),
    })
}

impl Draft {
    pub fn new(n: u16, gaps: usize) -> Self {
        Draft { n, gaps, ..Draft::default() }
    }

    /// Adds a record and answers its index. Record 1 is the first line and has no gap before it.
    fn push(&mut self, rng: &mut Rng, record: Record) -> usize {
        if !self.records.is_empty() {
            while rng.chance(self.gaps) {
                self.records.push(junk(rng, self.n));
            }
        }
        self.records.push(record);
        self.records.len()
    }

    /// Sets a field of a record; damage may have cut the record off.
    fn set(&mut self, index: usize, field: usize, value: usize) {
        if let Some(record) = self.records.get_mut(index - 1) {
            record[field] = value as u16;
        }
    }

    /// Adds a line as the next of the last one.
    pub fn line(&mut self, rng: &mut Rng, argument: &Argument) {
        let (a, b) = either_order(rng, argument.a, argument.b);
        let index = self.bare_line(rng, a, b, argument.split.c);
        self.chain(rng, index, &argument.split, &mut vec![(a, b)], 1);
    }

    /// Adds a line without cases.
    pub fn bare_line(&mut self, rng: &mut Rng, a: u16, b: u16, c: u16) -> usize {
        let index = self.push(rng, [Sheet::LINE, a, b, 0, 0, c, 0, 0]);
        if self.last_line > 0 {
            self.set(self.last_line, NEXT, index);
        }
        self.last_line = index;
        index
    }

    /// Adds the cases of the split that record `owner` holds.
    fn chain(&mut self, rng: &mut Rng, owner: usize, split: &SplitTree, known: &mut Vec<(u16, u16)>, depth: usize) {
        let (mut holder, mut field) = (owner, FIRST);
        for case in &split.cases {
            let before = known.len();
            add_pair(known, split.c, case.pair);
            let index = self.case(rng, case, known, depth);
            known.truncate(before);
            self.set(holder, field, index);
            (holder, field) = (index, NEXT);
        }
    }

    /// Adds a case and what closes it.
    fn case(&mut self, rng: &mut Rng, case: &CaseTree, known: &mut Vec<(u16, u16)>, depth: usize) -> usize {
        let (a, b) = case.pair;
        let record = match &case.closing {
            ClosingTree::Split(split) => [Sheet::CASE_SPLIT, a, b, 0, 0, split.c, 0, 0],
            ClosingTree::Crossing(crossing) => crossing_record(rng, (a, b), *crossing),
            ClosingTree::Reordering(Reordering { u, v, .. }) => [Sheet::CASE_REORDERING, a, b, *u, *v, 0, 0, 0],
        };
        let index = self.push(rng, record);
        self.notes.push(CaseNote { index, known: known.clone(), depth });
        match &case.closing {
            ClosingTree::Split(split) => self.chain(rng, index, split, known, depth + 1),
            ClosingTree::Crossing(_) => {}
            ClosingTree::Reordering(reordering) => self.points(rng, index, &reordering.order),
        }
        index
    }

    /// Adds the chain of points that record `owner` holds.
    fn points(&mut self, rng: &mut Rng, owner: usize, order: &[u16]) {
        let (mut holder, mut field) = (owner, FIRST);
        for &point in order {
            let index = self.push(rng, point_record(point));
            self.set(holder, field, index);
            (holder, field) = (index, NEXT);
        }
    }
}

/// A crossing's record, edge and centres in either order.
pub fn crossing_record(rng: &mut Rng, (a, b): (u16, u16), crossing: Crossing) -> Record {
    let (u, v) = either_order(rng, crossing.p, crossing.q);
    let (r, s) = either_order(rng, crossing.r, crossing.s);
    [Sheet::CASE_CROSSING, a, b, u, v, r, s, 0]
}

/// A point of a new order, the last.
pub fn point_record(point: u16) -> Record {
    [Sheet::SEGMENT_POINT, point, 0, 0, 0, 0, 0, 0]
}

fn either_order(rng: &mut Rng, a: u16, b: u16) -> (u16, u16) {
    if rng.chance(50) {
        (a, b)
    } else {
        (b, a)
    }
}

fn add_pair(known: &mut Vec<(u16, u16)>, c: u16, (x, y): (u16, u16)) {
    for v in [x, y] {
        if !known.contains(&(c, v)) && !known.contains(&(v, c)) {
            known.push((c, v));
        }
    }
}

/// The bytes of records.
pub fn sheet_bytes(records: &[Record]) -> Vec<u8> {
    records.iter().flatten().flat_map(|field| field.to_le_bytes()).collect()
}
