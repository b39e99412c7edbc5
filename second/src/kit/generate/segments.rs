//! Sheets of one line that is judged by its last case, a new order of a segment (02, Paper 10). Each split leaves one
//! pair, since the split point's other edges are struck; so the line is accepted exactly if the case is closed.

use crate::edge_set::EdgeSet;
use crate::intervals::Intervals;
use crate::kit::generate::drafts::{point_record, FIRST, NEXT};
use crate::kit::generate::made_paths::MadePath;
use crate::kit::generate::orders;
use crate::kit::generate::rng::Rng;
use crate::kit::generate::sets;
use crate::marks::{Marks, STRUCK};
use crate::packed::put_mark;
use crate::pairs::Split;
use crate::segment::Segment;
use crate::sheet::{Record, Sheet};

/// Points that are tried for a split.
const TRIES: usize = 12;

type Pair = (u16, u16);

#[derive(Clone)]
pub struct SegmentSheet {
    pub marks: Vec<u8>,
    pub records: Vec<Record>,
    /// K with the case's pair.
    pub known: EdgeSet,
    /// The case's record, the last before the chain of points.
    pub at: usize,
    /// The segment and its new order, none in a closed tour.
    pub segment: Option<Segment>,
    pub order: Vec<u16>,
}

/// Splits and pairs that make K grow from ab.
struct Grown {
    known: EdgeSet,
    ab: Pair,
    splits: Vec<(u16, Pair)>,
}

impl Grown {
    fn new(rng: &mut Rng, l: &Intervals, depth: usize) -> Option<Grown> {
        let [a, b] = rng.points(l.order.n, 2).try_into().unwrap();
        let mut grown = Grown { known: EdgeSet::one(a, b), ab: (a, b), splits: vec![] };
        let (fresh, joins) = (sets::fresh(l.order.n), rng.pick(&[100, 100, 50]));
        for _ in 0..depth {
            let join = rng.chance(joins);
            let (c, pair) = grown.split(rng, l, &fresh, join)?;
            grown.known.add_pair(c, pair);
            grown.splits.push((c, pair));
        }
        Some(grown)
    }

    /// By splits that are made, if their pairs stand.
    fn along(l: &Intervals, made: &MadePath) -> Option<Grown> {
        let mut grown = Grown { known: EdgeSet::one(made.ab.0, made.ab.1), ab: made.ab, splits: made.splits.clone() };
        let fresh = sets::fresh(l.order.n);
        for &(c, pair) in &made.splits {
            let mut split = Split::new(l, Marks::in_sheet(&fresh), &grown.known, c);
            std::iter::from_fn(|| split.next_pair()).find(|&other| other == pair)?;
            grown.known.add_pair(c, pair);
        }
        Some(grown)
    }

    /// A split point and a pair that stands there; one off K that makes a path of K longer, or any.
    fn split(&self, rng: &mut Rng, l: &Intervals, marks: &[u8], join: bool) -> Option<(u16, Pair)> {
        let mut points: Vec<u16> = (1..=l.order.n).filter(|&c| !join || self.known.degree(c) == 0).collect();
        if points.is_empty() {
            points = (1..=l.order.n).filter(|&c| self.known.degree(c) == 1).collect();
        }
        rng.shuffle(&mut points);
        let joined = |&(x, y): &Pair| !join || self.known.degree(x) == 1 || self.known.degree(y) == 1;
        points.iter().take(TRIES).find_map(|&c| {
            let mut split = Split::new(l, Marks::in_sheet(marks), &self.known, c);
            let pairs: Vec<Pair> = std::iter::from_fn(|| split.next_pair()).filter(joined).collect();
            (!pairs.is_empty()).then(|| (c, rng.pick(&pairs)))
        })
    }

    /// Fresh marks with all edges at the split points struck but for those of K.
    fn marks(&self, l: &Intervals) -> Vec<u8> {
        let mut marks = sets::fresh(l.order.n);
        for &(c, _) in &self.splits {
            for v in (1..=l.order.n).filter(|&v| v != c && !self.known.contains(c, v)) {
                put_mark(&mut marks, l.order.place(c, v), STRUCK);
            }
        }
        marks
    }

    /// The line and its cases, each split's in the record behind it; the last case has no segment yet.
    fn records(&self) -> Vec<Record> {
        let mut records = vec![[Sheet::LINE, self.ab.0, self.ab.1, 0, 0, 0, 0, 0]];
        for &(c, (x, y)) in &self.splits {
            let holder = records.len() - 1;
            (records[holder][5], records[holder][FIRST]) = (c, holder as u16 + 2);
            records.push([Sheet::CASE_SPLIT, x, y, 0, 0, 0, 0, 0]);
        }
        let last = records.len() - 1;
        records[last][0] = Sheet::CASE_REORDERING;
        records
    }
}

impl SegmentSheet {
    /// So many splits one inside another, with a segment of so many inner points if there is one; its order saves if
    /// one is found, else it is any.
    pub fn new(rng: &mut Rng, l: &Intervals, depth: usize, inner: usize) -> Option<SegmentSheet> {
        let mut sheet = SegmentSheet::of(Grown::new(rng, l, depth)?, l);
        let mut all = orders::segments(&sheet.known, l.order.n, 1);
        rng.shuffle(&mut all);
        all.sort_by_key(|(_, _, segment)| segment.inner().len() != inner);
        if let Some(&(u, v, segment)) = all.first() {
            let order = orders::better(rng, &segment, (u, v), l).unwrap_or_else(|| shuffled(rng, segment.inner()));
            sheet.segment = Some(segment);
            sheet.name(u, v, &order);
        }
        Some(sheet)
    }

    /// By a made path, with its order.
    pub fn along(l: &Intervals, made: &MadePath) -> Option<SegmentSheet> {
        let mut sheet = SegmentSheet::of(Grown::along(l, made)?, l);
        let (u, v) = made.ends;
        sheet.segment = Segment::find(&sheet.known, l.order.n, u, v);
        sheet.name(u, v, &made.order);
        Some(sheet)
    }

    /// No segment and no order yet.
    fn of(grown: Grown, l: &Intervals) -> SegmentSheet {
        let (marks, records, known) = (grown.marks(l), grown.records(), grown.known);
        SegmentSheet { marks, at: records.len(), records, known, segment: None, order: vec![] }
    }

    /// Splits one inside another.
    pub fn depth(&self) -> usize {
        self.at - 1
    }

    pub fn case(&mut self) -> &mut Record {
        &mut self.records[self.at - 1]
    }

    /// The case names these ends and this order.
    pub fn name(&mut self, u: u16, v: u16, order: &[u16]) {
        (self.case()[3], self.case()[4]) = (u, v);
        self.name_order(order);
    }

    /// The case names this order.
    pub fn name_order(&mut self, order: &[u16]) {
        let at = self.at;
        self.order = order.to_vec();
        self.records.truncate(at);
        self.case()[FIRST] = if order.is_empty() { 0 } else { at as u16 + 1 };
        self.records.extend(order.iter().map(|&point| point_record(point)));
        for index in at + 1..self.records.len() {
            self.records[index - 1][NEXT] = index as u16 + 1;
        }
    }

    /// What the order saves; it is one of the segment's inner points.
    pub fn saving(&self, l: &Intervals) -> i32 {
        self.segment.map_or(0, |segment| segment.saving(&self.order, l))
    }
}

pub fn shuffled(rng: &mut Rng, points: &[u16]) -> Vec<u16> {
    let mut points = points.to_vec();
    rng.shuffle(&mut points);
    points
}
