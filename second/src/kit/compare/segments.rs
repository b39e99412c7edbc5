//! New orders of segments (02, Paper 10): sheets that are judged by one, good and damaged, each with the answer that is
//! due, in marking, asking, marking over two tables and at a desk; and the six points.

use super::{hex, Checked, Comparison, Hex};
use crate::bytes::DESKS_BYTES;
use crate::intervals::Intervals;
use crate::kit::damage::segments::{Due, SegmentFault};
use crate::kit::damage::spoil::Lent;
use crate::kit::generate::boards::{self, Board};
use crate::kit::generate::drafts::sheet_bytes;
use crate::kit::generate::limits::{Limited, Width};
use crate::kit::generate::made_paths::{MadePath, Shape};
use crate::kit::generate::rng::Rng;
use crate::kit::generate::segments::SegmentSheet;
use crate::kit::generate::sets;
use crate::kit::generate::six_points;
use crate::kit::met::segments::{Outcome, SegmentEvent, Way};
use crate::kit::oracle::kept::{Kept, RunMarks};
use crate::kit::programs::checker::Checker;
use crate::segment::Segment;
use crate::sheet::Sheet;

/// Sheets in a case.
const SHEETS: usize = 8;

/// Boards that are made for one of them.
const TRIES: usize = 4;

/// Cases from one with the six points to the next.
const SIX_POINTS: u64 = 16;

/// Boards of more points are not looked at.
const MOST_POINTS: u16 = 20;

/// A sheet with what is due to it.
struct DueSheet {
    limited: Limited,
    sheet: SegmentSheet,
    way: Way,
    fault: Option<SegmentFault>,
    due: Due,
}

/// A board of few points, so that a closed tour may be met, or of enough for the longest segment.
fn some_board(rng: &mut Rng, depth: usize) -> Board {
    let low = if rng.chance(30) { 4 } else { 2 * depth + 2 };
    let (n, most) =
        (rng.between(low.max(4), usize::from(MOST_POINTS).min(low + 6)), rng.pick(&[5, 30, 1000, 1_000_000]));
    match rng.below(4) {
        0 => (0..20).map(|_| boards::board(rng)).find(|board| board.n <= MOST_POINTS).unwrap_or_else(six_points::board),
        _ => boards::points_of(rng, n as u16, most),
    }
}

/// A sheet on a board that is made for it.
fn made_sheet(
    rng: &mut Rng,
    fault: Option<SegmentFault>,
    width: Width,
    (depth, inner): (usize, usize),
) -> Option<(Limited, SegmentSheet)> {
    let inner = if rng.chance(50) { inner.min(2 * depth) } else { inner };
    let made = match fault {
        Some(SegmentFault::ClosedTour) => MadePath::new(rng, Shape::ClosedTour, depth.max(2), inner),
        Some(SegmentFault::OtherPath) => MadePath::new(rng, Shape::TwoPaths, depth.max(2), inner),
        _ => MadePath::new(rng, Shape::Path, depth.max(inner.div_ceil(2)), inner),
    };
    let board = made.board(rng);
    let limited = Limited::above(rng, &board, width);
    let sheet = SegmentSheet::along(&limited.lengths(), &made)?;
    Some((limited, sheet))
}

/// A sheet on any board.
fn found_sheet(rng: &mut Rng, width: Width, depth: usize, inner: usize) -> Option<(Limited, SegmentSheet)> {
    let board = some_board(rng, depth);
    let limited = Limited::above(rng, &board, width);
    let sheet = SegmentSheet::new(rng, &limited.lengths(), depth, inner)?;
    Some((limited, sheet))
}

impl DueSheet {
    /// Any sheet, in any way, with a fault or none.
    fn new(rng: &mut Rng) -> Option<DueSheet> {
        let (depth, inner) = (rng.between(1, Sheet::MOST_SPLITS), rng.between(1, Segment::MOST_INNER));
        let way = rng.pick(&Way::ALL);
        let fault = if rng.chance(30) { None } else { Some(rng.pick(&SegmentFault::ALL).0) };
        let width = if way == Way::Between { rng.pick(&Width::ALL) } else { Width::Equal };
        let (limited, mut sheet) = if rng.chance(75) {
            (0..TRIES).find_map(|_| made_sheet(rng, fault, width, (depth, inner)))?
        } else {
            found_sheet(rng, width, depth, inner)?
        };
        let due = match fault {
            Some(fault) => fault.make(rng, &mut sheet, &limited.lengths())?,
            None if sheet.segment.is_none() => return None,
            None if sheet.saving(&limited.lengths()) > 0 => (0, 0),
            None => (24, sheet.at),
        };
        Some(DueSheet { limited, sheet, way, fault, due })
    }

    /// The number for C that a program answers, without the desk of a turn, and the marks that it leaves.
    fn call(&self, checker: &dyn Checker) -> (u64, Vec<u8>) {
        let Lent { n, table, mut marks } = Lent::new(&self.limited.all_low(), &self.sheet.marks);
        let sheet = sheet_bytes(&self.sheet.records);
        let answer = match self.way {
            Way::Mark => checker.mark_sheet(n, &table, &mut marks, &sheet),
            Way::Ask => checker.ask_sheet(n, &table, &mut marks, &sheet),
            Way::Between => {
                let high = Lent::new(&self.limited.all_high(), &marks).table;
                checker.mark_between(n, &table, &high, &mut marks, &sheet)
            }
            Way::Turn => {
                let mut desks = [0; DESKS_BYTES];
                let handed_in = checker.hand_in(&mut desks, 1, n, &table, &marks, &sheet);
                handed_in + checker.turn(&mut desks, n, &table, &mut marks, &sheet) - (1 << 48)
            }
        };
        (answer, marks)
    }

    fn text(&self) -> String {
        let tables = format!("n {}\nlow {:?}\nhigh {:?}\n", self.limited.n, self.limited.low, self.limited.high);
        let sheet = format!("marks {}\nrecords {:?}\n", hex(&self.sheet.marks), self.sheet.records);
        format!("{tables}{sheet}{:?}, {:?}: due {:?}\n", self.way, self.fault, self.due)
    }

    fn outcome(&self) -> Option<Outcome> {
        match self.due.0 {
            0 => Some(Outcome::Accepted),
            23 if self.fault.is_some_and(SegmentFault::before_chain) => Some(Outcome::NoSegment),
            23 => Some(Outcome::OtherPoints),
            24 => Some(Outcome::NotShorter),
            _ => None,
        }
    }
}

impl Comparison<'_> {
    /// Some sheets, by numbers of their own, so that the rest of a case stays as it is.
    pub fn segments(&mut self) -> Checked {
        let mut rng = Rng::new(self.seed ^ 0x5365_676d, self.case);
        for _ in 0..SHEETS {
            if let Some(due) = DueSheet::new(&mut rng) {
                self.due_sheet(&due)?;
            }
        }
        if self.case % SIX_POINTS == 0 {
            self.six_points()?;
        }
        Ok(())
    }

    /// Such sheets alone, case by case.
    pub fn run_segments(&mut self, cases: u64) -> Checked {
        for case in 0..cases {
            self.case = case;
            self.segments()?;
        }
        Ok(())
    }

    /// A sheet in three programs: the answer and every mark, and the answer that is due.
    fn due_sheet(&mut self, due: &DueSheet) -> Checked {
        let (answer, marks) = due.call(self.one);
        for checker in [self.other, self.naive] {
            let (other, other_marks) = due.call(checker);
            let (one, other) = ((answer, Hex(&marks)), (other, Hex(&other_marks)));
            self.same_as("new order", one, (checker.name(), other), || due.text())?;
        }
        let (number, record) = due.due;
        let lines = u64::from(number == 0);
        if answer != number + 256 * record as u64 + 16_777_216 * lines {
            return Err(self.difference("new order by its damage", format!("{}answer {answer}\n", due.text())));
        }
        self.count_due(due);
        Ok(())
    }

    fn count_due(&mut self, due: &DueSheet) {
        let DueSheet { limited, sheet, way, fault, .. } = due;
        self.coverage.number(way.operation(), due.due.0);
        let met = &mut self.coverage.segments;
        fault.iter().for_each(|&fault| met.fault(fault));
        due.outcome().iter().for_each(|&outcome| met.outcome(*way, outcome));
        if fault.is_none_or(SegmentFault::order_judged) {
            let saves = |table| u64::from(sheet.saving(&Intervals::exact(limited.n, table)) > 0);
            let (both, differ) = (due.due.0 == 0, u64::from(limited.low != limited.high));
            met.judged(sheet.order.len(), sheet.depth(), both);
            met.event(SegmentEvent::SavesBetween, differ * u64::from(both));
            met.event(SegmentEvent::SavesByLow, differ * u64::from(!both) * saves(&limited.low));
            met.event(SegmentEvent::SavesByHigh, differ * u64::from(!both) * saves(&limited.high));
        }
    }

    /// The sheet of the six points is accepted and strikes an edge of the tour that three exchanges cannot shorten; the
    /// shortest tour is kept.
    fn six_points(&mut self) -> Checked {
        let board = six_points::board();
        let (kept, sheet) = (Kept::with_longer(&board, &six_points::TOUR), sheet_bytes(&six_points::SHEET));
        for checker in [self.one, self.other, self.naive] {
            let mut marks = RunMarks::new(sets::fresh(board.n));
            let Lent { n, table, marks: mut set } = Lent::new(&board, &marks.set);
            let answer = checker.mark_sheet(n, &table, &mut set, &sheet);
            marks.marked(set, &sheet, answer >> 24);
            let held = kept.lost(&board, &marks);
            if answer != 1 << 24 || held.is_err() || kept.struck(&board, &marks.set) != 1 {
                return Err(self.difference("six points", format!("{}: answer {answer}, {held:?}\n", checker.name())));
            }
        }
        self.coverage.segments.event(SegmentEvent::SixPoints, 1);
        Ok(())
    }
}
