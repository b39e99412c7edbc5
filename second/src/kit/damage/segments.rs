//! Damage to a case with a new order, each with the refusal that is due and its record (02, Paper 10).

use crate::edge_set::EdgeSet;
use crate::intervals::Intervals;
use crate::kit::generate::drafts::{FIRST, NEXT};
use crate::kit::generate::orders;
use crate::kit::generate::rng::Rng;
use crate::kit::generate::segments::{shuffled, SegmentSheet};
use crate::segment::Segment;
use crate::sheet::Sheet;

#[derive(Clone, Copy, Debug, PartialEq, Eq)]
pub enum SegmentFault {
    OldOrder,
    Tie,
    Longer,
    PointTwice,
    PointMissing,
    PointSurplus,
    PointForeign,
    EndNamed,
    EmptyChain,
    Thirteen,
    Hundreds,
    OtherSegment,
    SameEnds,
    Neighbours,
    OffK,
    OtherPath,
    ClosedTour,
    BeforeChain,
    Centre,
    PointB,
    PointU,
    PointV,
    PointC,
    PointD,
    LineInPoints,
    SplitInPoints,
    CrossingInPoints,
    ReorderingInPoints,
    PointInCases,
    PointInLines,
    ReorderingInLines,
    PointZero,
    PointAbove,
    PointByLowByte,
    EndZero,
    EndAbove,
    PairSame,
    OtherPair,
    FirstAbove,
    NextAbove,
    FirstFalling,
    NextFalling,
    CaseInPoints,
    LateKind,
    LatePoint,
}

use SegmentFault::*;

/// A refusal number and its record.
pub type Due = (u64, usize);

impl SegmentFault {
    pub const ALL: [(SegmentFault, &'static str); 45] = [
        (OldOrder, "the old order"),
        (Tie, "another order that is as short"),
        (Longer, "a longer order"),
        (PointTwice, "an inner point twice in place of another"),
        (PointMissing, "an inner point missing"),
        (PointSurplus, "a point too many"),
        (PointForeign, "a point that is not an inner one"),
        (EndNamed, "an end of the segment among the points"),
        (EmptyChain, "an empty chain"),
        (Thirteen, "a chain of thirteen points"),
        (Hundreds, "a chain of hundreds of points"),
        (OtherSegment, "the ends of another segment"),
        (SameEnds, "u = v"),
        (Neighbours, "neighbours as ends"),
        (OffK, "an end off K"),
        (OtherPath, "ends on two paths of K"),
        (ClosedTour, "a closed tour as K"),
        (BeforeChain, "no segment, and a faulty chain"),
        (Centre, "c not 0 in kind 4"),
        (PointB, "b not 0 in kind 5"),
        (PointU, "u not 0 in kind 5"),
        (PointV, "v not 0 in kind 5"),
        (PointC, "c not 0 in kind 5"),
        (PointD, "d not 0 in kind 5"),
        (LineInPoints, "kind 1 in a chain of points"),
        (SplitInPoints, "kind 2 in a chain of points"),
        (CrossingInPoints, "kind 3 in a chain of points"),
        (ReorderingInPoints, "kind 4 in a chain of points"),
        (PointInCases, "kind 5 in a chain of cases"),
        (PointInLines, "kind 5 in a chain of lines"),
        (ReorderingInLines, "kind 4 in a chain of lines"),
        (PointZero, "point 0 in kind 5"),
        (PointAbove, "a point above n in kind 5"),
        (PointByLowByte, "an inner point plus 256 in kind 5"),
        (EndZero, "an end 0"),
        (EndAbove, "an end above n"),
        (PairSame, "a = b in kind 4"),
        (OtherPair, "another pair in kind 4, and no segment"),
        (FirstAbove, "a first point above the count"),
        (NextAbove, "a next point above the count"),
        (FirstFalling, "a first point that is entered already"),
        (NextFalling, "a next point that is entered already"),
        (CaseInPoints, "a next case among the points"),
        (LateKind, "a wrong kind behind the thirteenth point"),
        (LatePoint, "a point above n behind the thirteenth"),
    ];

    pub fn name(self) -> &'static str {
        SegmentFault::ALL[self as usize].1
    }

    /// Whether the chain names the inner points, each once, so that 24 is looked at.
    pub fn order_judged(self) -> bool {
        matches!(self, OldOrder | Tie | Longer)
    }

    /// Whether 23 is due before the chain is entered.
    pub fn before_chain(self) -> bool {
        matches!(self, SameEnds | Neighbours | OffK | OtherPath | ClosedTour | BeforeChain)
    }

    /// Damages a sheet with a segment, or a closed tour for the fault that it is, if it can be done.
    pub fn make(self, rng: &mut Rng, sheet: &mut SegmentSheet, l: &Intervals) -> Option<Due> {
        let at = sheet.at;
        if self == ClosedTour || sheet.segment.is_none() {
            return closed_tour(rng, sheet, l.order.n).filter(|_| self == ClosedTour);
        }
        match self {
            OldOrder | Tie | Longer => self.other_order(rng, sheet, l).map(|()| (24, at)),
            PointTwice | PointMissing | PointSurplus | PointForeign | EndNamed | EmptyChain | Thirteen | Hundreds => {
                self.other_points(rng, sheet, l.order.n).map(|()| (23, at))
            }
            OtherSegment | SameEnds | Neighbours | OffK | OtherPath | BeforeChain => {
                self.other_ends(rng, sheet, l.order.n).map(|()| (23, at))
            }
            Centre | PointInCases | EndZero | EndAbove | PairSame | OtherPair => self.in_case(rng, sheet, l.order.n),
            PointInLines | ReorderingInLines => {
                sheet.records[0][0] = if self == PointInLines { Sheet::SEGMENT_POINT } else { Sheet::CASE_REORDERING };
                Some((10, 1))
            }
            LateKind | LatePoint => self.late(rng, sheet, l.order.n),
            FirstAbove | NextAbove | FirstFalling | NextFalling => self.index(rng, sheet),
            CaseInPoints => (sheet.saving(l) > 0).then(|| {
                sheet.case()[NEXT] = rng.between(at + 1, sheet.records.len()) as u16;
                (9, at)
            }),
            _ => self.in_point(rng, sheet, l.order.n),
        }
    }

    /// The inner points in an order that is not shorter.
    fn other_order(self, rng: &mut Rng, sheet: &mut SegmentSheet, l: &Intervals) -> Option<()> {
        let segment = sheet.segment?;
        let old = segment.inner().to_vec();
        let fits = |order: &Vec<u16>| match self {
            Tie => *order != old && segment.saving(order, l) == 0,
            Longer => segment.saving(order, l) < 0,
            _ => true,
        };
        let orders = std::iter::once(sheet.order.clone()).chain((0..40).map(|_| shuffled(rng, &old)));
        let order = if self == OldOrder { old.clone() } else { orders.into_iter().find(fits)? };
        sheet.name_order(&order);
        Some(())
    }

    /// Points that are not the inner ones, each once.
    fn other_points(self, rng: &mut Rng, sheet: &mut SegmentSheet, n: u16) -> Option<()> {
        let inner = sheet.segment?.inner().to_vec();
        let foreign: Vec<u16> = (1..=n).filter(|point| !inner.contains(point)).collect();
        let (mut order, at) = (sheet.order.clone(), rng.below(inner.len()));
        match self {
            PointTwice if inner.len() == 1 => return None,
            PointTwice => order[at] = order[(at + 1) % inner.len()],
            PointMissing => drop(order.remove(at)),
            PointSurplus => {
                let place = rng.below(order.len() + 1);
                order.insert(place, rng.point(n));
            }
            PointForeign => order[at] = rng.pick(&foreign),
            EndNamed => order[at] = sheet.records[sheet.at - 1][rng.between(3, 4)],
            EmptyChain => order.clear(),
            Thirteen => order.extend((inner.len()..=Segment::MOST_INNER).map(|_| rng.point(n))),
            _ => order.extend((0..rng.between(100, 900)).map(|_| rng.point(n))),
        }
        sheet.name_order(&order);
        Some(())
    }

    /// Ends without a segment, or of one with other inner points.
    fn other_ends(self, rng: &mut Rng, sheet: &mut SegmentSheet, n: u16) -> Option<()> {
        let (points, known) = (orders::points(&sheet.known), sheet.known.clone());
        let mut inner = sheet.segment?.inner().to_vec();
        inner.sort();
        let others = |u: u16, v: u16| match self {
            OtherSegment => Segment::find(&known, n, u, v).is_some_and(|other| {
                let mut points = other.inner().to_vec();
                points.sort();
                points != inner
            }),
            SameEnds => u == v,
            Neighbours => known.contains(u, v),
            OffK => known.degree(v) == 0 && u != v,
            OtherPath => u != v && !known.contains(u, v) && Segment::find(&known, n, u, v).is_none(),
            _ => Segment::find(&known, n, u, v).is_none(),
        };
        let second: Vec<u16> = if self == OffK { (1..=n).collect() } else { points.clone() };
        let ends = points.iter().flat_map(|&u| second.iter().map(move |&v| (u, v)));
        let ends: Vec<(u16, u16)> = ends.filter(|&(u, v)| others(u, v)).collect();
        let (u, v) = *ends.get(rng.below(ends.len().max(1)))?;
        (sheet.case()[3], sheet.case()[4]) = if rng.chance(50) { (u, v) } else { (v, u) };
        if self == BeforeChain {
            let faulty = rng.pick(&[Centre, FirstAbove, FirstFalling]);
            match faulty {
                Centre => sheet.records[sheet.at][2] = 1,
                _ => sheet.case()[FIRST] = if faulty == FirstAbove { 4_001 } else { 1 },
            }
        }
        Some(())
    }

    /// A fault of the case's own fields.
    fn in_case(self, rng: &mut Rng, sheet: &mut SegmentSheet, n: u16) -> Option<Due> {
        let (at, any) = (sheet.at, rng.word() as u16 | 1);
        let (field, record) = (rng.between(3, 4), sheet.case());
        let number = match self {
            Centre => {
                record[5] = rng.pick(&[1, n, n + 1, any]);
                10
            }
            PointInCases => {
                record[0] = Sheet::SEGMENT_POINT;
                10
            }
            EndZero => {
                record[field] = 0;
                11
            }
            EndAbove => {
                record[field] = rng.pick(&[n + 1, record[field] + 256, 65_535]);
                11
            }
            PairSame => {
                record[2] = record[1];
                11
            }
            _ => {
                record.swap(1, 2);
                record[4] = record[3];
                14
            }
        };
        Some((number, at))
    }

    /// A fault of a record of the chain.
    fn in_point(self, rng: &mut Rng, sheet: &mut SegmentSheet, n: u16) -> Option<Due> {
        let index = rng.between(sheet.at + 1, sheet.records.len());
        let (any, point) = (rng.word() as u16 | 1, rng.point(n));
        self.spoil_point(rng.pick(&[1, point, any]), n, sheet, index)
    }

    fn spoil_point(self, value: u16, n: u16, sheet: &mut SegmentSheet, index: usize) -> Option<Due> {
        let record = &mut sheet.records[index - 1];
        let (field, value) = match self {
            PointB => (2, value),
            PointU => (3, value),
            PointV => (4, value),
            PointC => (5, value),
            PointD => (6, value),
            LineInPoints => (0, Sheet::LINE),
            SplitInPoints => (0, Sheet::CASE_SPLIT),
            CrossingInPoints => (0, Sheet::CASE_CROSSING),
            ReorderingInPoints => (0, Sheet::CASE_REORDERING),
            PointZero => (1, 0),
            PointAbove => (1, n + 1),
            PointByLowByte => (1, record[1] + 256),
            _ => return None,
        };
        record[field] = value;
        Some((if field == 1 { 11 } else { 10 }, index))
    }

    /// An index of the case or of a point, above the count or not above what is entered.
    fn index(self, rng: &mut Rng, sheet: &mut SegmentSheet) -> Option<Due> {
        let (at, count) = (sheet.at, sheet.records.len());
        let (index, field) = match self {
            FirstAbove | FirstFalling => (at, FIRST),
            _ => (rng.between(at + 1, count), NEXT),
        };
        let above = rng.pick(&[count + 1, count + 2, 4_001, 65_535]) as u16;
        let lower = rng.between(1, index);
        let falling = rng.pick(&[1, index, lower]) as u16;
        let falls = matches!(self, FirstFalling | NextFalling);
        sheet.records[index - 1][field] = if falls { falling } else { above };
        Some((if falls { 9 } else { 8 }, index))
    }

    /// A chain of more than thirteen points whose last one is faulty.
    fn late(self, rng: &mut Rng, sheet: &mut SegmentSheet, n: u16) -> Option<Due> {
        let fault = if self == LateKind { CrossingInPoints } else { PointAbove };
        let most = rng.pick(&[Segment::MOST_INNER + 2, Segment::MOST_INNER + 2, 60]);
        let order: Vec<u16> = (0..most).map(|_| rng.point(n)).collect();
        sheet.name_order(&order);
        fault.spoil_point(0, n, sheet, sheet.at + most)
    }
}

/// The points between u and v, one way round a closed tour.
fn one_way(known: &EdgeSet, u: u16, v: u16) -> Vec<u16> {
    let (mut before, mut at, mut points) = (u, known.ends(u)[0], vec![]);
    while at != v {
        points.push(at);
        let next = known.ends(at).iter().find(|&&next| next != before);
        (before, at) = (at, *next.expect("a closed tour"));
    }
    points
}

/// Any ends where K is a closed tour, and the points of one way round.
fn closed_tour(rng: &mut Rng, sheet: &mut SegmentSheet, n: u16) -> Option<Due> {
    if sheet.known.edges().len() != usize::from(n) {
        return None;
    }
    let [u, v] = rng.points(n, 2).try_into().unwrap();
    let order = shuffled(rng, &one_way(&sheet.known, u, v));
    sheet.name(u, v, &order);
    Some((23, sheet.at))
}
