//! *Tell a line* (02, Paper 6): a sentence for each pair at its first split.

use crate::crossing::Crossing;
use crate::edge_set::EdgeSet;
use crate::instance::Instance;
use crate::intervals::Intervals;
use crate::lengths::edge_count;
use crate::marking::Walk;
use crate::marks::Marks;
use crate::packed::some_pending;
use crate::reasons::{Reason, Reasons};
use crate::refusal::{demand, Fault, Refusal};
use crate::segment::Segment;
use crate::sentence::{put_sentence, SENTENCE_BYTES};
use crate::sheet::{Case, Closing, Line, Sheet};

/// Writes the sentences of one line and answers how many bytes they have; those past them stay. 1, 2, 5, 6, 7; 8, no
/// such record; the line's own refusals, "the line counts as the first entered and its next index is not read"; 22.
pub fn tell_line(
    n: u32,
    table: &[u32],
    marks: &[u8],
    sheet: &[u16],
    record: u32,
    text: &mut [u8],
) -> Result<usize, Fault> {
    let read = tests(n, table, marks, sheet).map_err(|refusal| Fault { refusal, record: 0 });
    let (lengths, sheet) = read?;
    let index = u16::try_from(record).unwrap_or(0);
    demand(index != 0 && usize::from(index) <= sheet.count(), Refusal::IndexAboveCount, 0)?;
    let marks = Marks::in_sheet(marks);
    let line = Walk::at(&lengths, sheet, index).line(marks, index)?;
    let told = Telling { lengths: &lengths, sheet, line }.text(marks);
    let text = text.get_mut(..told.len()).ok_or(Fault { refusal: Refusal::Buffer, record: 0 })?;
    text.copy_from_slice(&told);
    Ok(told.len())
}

/// 1, 2, 5, 6, 7: "pending read as struck", so that there is no 20.
fn tests<'a>(n: u32, table: &'a [u32], marks: &[u8], sheet: &'a [u16]) -> Result<(Intervals<'a>, Sheet<'a>), Refusal> {
    let n = Instance::table_tests(n, table)?;
    some_pending(n, marks)?;
    Ok((Intervals::exact(n, table), Sheet::read(sheet)?))
}

/// A line that is accepted.
struct Telling<'a> {
    lengths: &'a Intervals<'a>,
    sheet: Sheet<'a>,
    line: Line,
}

impl Telling<'_> {
    /// The sentences "in pair order". The cases of the line's chain are those of the pairs that stand, in this order,
    /// too.
    fn text(&self, marks: Marks) -> Vec<u8> {
        let (n, c) = (self.lengths.order.n, self.line.c);
        let reasons = Reasons::new(self.lengths, marks, &self.known(), c);
        let mut text = Vec::with_capacity(SENTENCE_BYTES * edge_count(n));
        let mut index = self.line.first;
        let other = |&point: &u16| point != c;
        for x in (1..=n).filter(other) {
            for pair in (x + 1..=n).filter(other).map(|y| (x, y)) {
                let reason = reasons.shut_out(pair).unwrap_or_else(|| self.next_closing(&mut index, pair));
                put_sentence(&mut text, &reason, c, pair);
            }
        }
        assert_eq!(index, 0, "an accepted line has no case left");
        text
    }

    fn known(&self) -> EdgeSet {
        EdgeSet::one(self.line.a, self.line.b)
    }

    /// What closes the case at `index`, which is this pair's. Goes on to the next case.
    fn next_closing(&self, index: &mut u16, pair: (u16, u16)) -> Reason {
        let case = self.sheet.case(self.lengths.order.n, *index).expect("a pair that stands has its case");
        assert_eq!(case.pair, pair, "an accepted line names the pairs that stand");
        *index = case.next;
        let mut known = self.known();
        known.add_pair(self.line.c, pair);
        closing(self.lengths, self.sheet, &known, &case)
    }
}

/// What closes an accepted case under K with its pair. At a first split it is always a further split: a crossing needs
/// five edges, and a new order that saves there is a moved point.
pub fn closing(lengths: &Intervals, sheet: Sheet, known: &EdgeSet, case: &Case) -> Reason {
    match case.closing {
        Closing::Split { c, .. } => Reason::Split { point: c },
        Closing::Crossing { p, q, r, s } => {
            let ends = |centre: u16| (known.ends(centre)[0], known.ends(centre)[1]);
            let saving = Crossing { p, q, r, s }.saving(lengths, ends(r), ends(s));
            Reason::Crossing { edge: (p, q), centres: (r, s), saving }
        }
        Closing::Reordering { u, v, first } => {
            let segment = Segment::find(known, lengths.order.n, u, v).expect("an accepted case has its segment");
            let order = named_points(lengths.order.n, sheet, first);
            let saving = i64::from(segment.saving(&order, lengths));
            Reason::NewOrder { points: [&[u], &order[..], &[v]].concat(), saving }
        }
    }
}

/// The points of an accepted chain.
fn named_points(n: u16, sheet: Sheet, first: u16) -> Vec<u16> {
    let (mut points, mut index) = (Vec::new(), first);
    while index != 0 {
        let read = sheet.point(n, index).expect("an accepted chain of points");
        points.push(read.point);
        index = read.next;
    }
    points
}
