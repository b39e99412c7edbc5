//! Records and their first tests (01, The sheet; 02, Paper 10; tests 7, 10, 11).

use crate::refusal::{demand, Fault, Refusal};

/// A sheet that has passed test 7, as 16-bit numbers.
#[derive(Clone, Copy)]
pub struct Sheet<'a> {
    numbers: &'a [u16],
}

/// kind, a, b, u, v, c, d, next.
pub type Record = [u16; Sheet::FIELDS];

/// Kind 1: strike a-b, split at c, first case, next line.
pub struct Line {
    pub a: u16,
    pub b: u16,
    pub c: u16,
    pub first: u16,
    pub next: u16,
}

/// Kinds 2, 3 and 4: the pair, the closing, the next case.
pub struct Case {
    pub pair: (u16, u16),
    pub closing: Closing,
    pub next: u16,
}

/// "A case record carries one of two closings, a split or a crossing", or Paper 10's: the ends of a segment and the
/// first of the chain that names its new order.
pub enum Closing {
    Split { c: u16, first: u16 },
    Crossing { p: u16, q: u16, r: u16, s: u16 },
    Reordering { u: u16, v: u16, first: u16 },
}

/// Kind 5: a point of a new order, the next one.
pub struct Point {
    pub point: u16,
    pub next: u16,
}

impl<'a> Sheet<'a> {
    pub const FIELDS: usize = 8;
    pub const MOST_RECORDS: usize = 4_000;
    pub const MOST_SPLITS: usize = 6;

    pub const LINE: u16 = 1;
    pub const CASE_SPLIT: u16 = 2;
    pub const CASE_CROSSING: u16 = 3;
    pub const CASE_REORDERING: u16 = 4;
    pub const SEGMENT_POINT: u16 = 5;

    /// Test 7: 1 to 4,000 whole records.
    pub fn read(numbers: &'a [u16]) -> Result<Self, Refusal> {
        let count = numbers.len() / Self::FIELDS;
        let whole = numbers.len() % Self::FIELDS == 0;
        if whole && (1..=Self::MOST_RECORDS).contains(&count) {
            Ok(Sheet { numbers })
        } else {
            Err(Refusal::Records)
        }
    }

    pub fn count(&self) -> usize {
        self.numbers.len() / Self::FIELDS
    }

    fn record(&self, index: u16) -> Record {
        let start = (usize::from(index) - 1) * Self::FIELDS;
        self.numbers[start..start + Self::FIELDS].try_into().unwrap()
    }

    /// The record at `index` as a line: 10, 11.
    pub fn line(&self, n: u16, index: u16) -> Result<Line, Fault> {
        let [kind, a, b, u, v, c, d, next] = self.record(index);
        demand(kind == Self::LINE && u == 0 && v == 0, Refusal::Kind, index)?;
        demand(points(n, a, b, &[c]), Refusal::PointField, index)?;
        Ok(Line { a, b, c, first: d, next })
    }

    /// The record at `index` as a case: 10, 11.
    pub fn case(&self, n: u16, index: u16) -> Result<Case, Fault> {
        let [kind, a, b, u, v, c, d, next] = self.record(index);
        let closing = match kind {
            Self::CASE_SPLIT => {
                demand(u == 0 && v == 0, Refusal::Kind, index)?;
                demand(points(n, a, b, &[c]), Refusal::PointField, index)?;
                Closing::Split { c, first: d }
            }
            Self::CASE_CROSSING => {
                demand(points(n, a, b, &[u, v, c, d]), Refusal::PointField, index)?;
                Closing::Crossing { p: u, q: v, r: c, s: d }
            }
            Self::CASE_REORDERING => {
                demand(c == 0, Refusal::Kind, index)?;
                demand(points(n, a, b, &[u, v]), Refusal::PointField, index)?;
                Closing::Reordering { u, v, first: d }
            }
            _ => return Err(Fault { refusal: Refusal::Kind, record: index }),
        };
        Ok(Case { pair: (a, b), closing, next })
    }

    /// The record at `index` as a point of a new order: 10, 11.
    pub fn point(&self, n: u16, index: u16) -> Result<Point, Fault> {
        let [kind, point, b, u, v, c, d, next] = self.record(index);
        demand(kind == Self::SEGMENT_POINT && [b, u, v, c, d] == [0; 5], Refusal::Kind, index)?;
        demand((1..=n).contains(&point), Refusal::PointField, index)?;
        Ok(Point { point, next })
    }
}

/// Test 11 passes: a, b and the other point fields are 1 to n, and a is not b.
pub fn points(n: u16, a: u16, b: u16, others: &[u16]) -> bool {
    let point = |v: u16| 1 <= v && v <= n;
    point(a) && point(b) && others.iter().all(|&v| point(v)) && a != b
}
