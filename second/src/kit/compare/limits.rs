//! Marking and listing over two tables (02, Paper 11): runs from fresh marks, lists and crossings, held against tables
//! between the two.

use super::between::hex_between;
use super::savings::CrossingSheet;
use super::{damaged_or_noise, Checked, Comparison, Difference};
use crate::bytes::numbers;
use crate::intervals::Intervals;
use crate::kit::damage::spoil;
use crate::kit::generate::between::BetweenCall;
use crate::kit::generate::boards::{self, Board};
use crate::kit::generate::drafts::sheet_bytes;
use crate::kit::generate::limits::{Limited, Width};
use crate::kit::generate::rng::Rng;
use crate::kit::generate::sets::{self, old_bytes};
use crate::kit::generate::sheets::{self, Plan};
use crate::kit::met::coverage::Coverage;
use crate::kit::met::entered::Entered;
use crate::kit::met::limits::LimitEvent;
use crate::kit::met::segments::SegmentEvent;
use crate::kit::oracle::kept::{has_reordering, Kept, RunMarks};
use crate::kit::programs::checker::Checker;

/// Rounds of a run, and damaged sheets of a round.
const ROUNDS: usize = 2;
const DAMAGED: usize = 3;

/// Listings of a run.
const LISTINGS: usize = 3;

/// Tables of each sort between the two, and tours sought on each.
const CUTS: usize = 2;
const TOURS: usize = 2;

/// A board that may be cut, with what marks have to keep of it.
struct Cut {
    board: Board,
    kept: Kept,
    /// Strikes held against all its shortest tours are counted here.
    event: LimitEvent,
}

impl Cut {
    fn new(rng: &mut Rng, board: Board, event: LimitEvent) -> Cut {
        let kept = Kept::of(rng, &board, TOURS);
        Cut { board, kept, event }
    }

    /// All lengths low, all high, each at either end, and each anywhere between.
    fn all(rng: &mut Rng, limited: &Limited) -> Vec<Cut> {
        let mut cuts = vec![Cut::new(rng, limited.all_low(), LimitEvent::StrikesLow)];
        if limited.width != Width::Equal {
            cuts.push(Cut::new(rng, limited.all_high(), LimitEvent::StrikesHigh));
            for _ in 0..CUTS {
                let (ends, inside) = (limited.at_ends(rng), limited.inside(rng));
                cuts.push(Cut::new(rng, ends, LimitEvent::StrikesEnds));
                cuts.push(Cut::new(rng, inside, LimitEvent::StrikesInside));
            }
        }
        cuts
    }

    /// Whether a shortest tour has an edge that none of these tables' shortest tours has.
    fn has_other_edge(&self, others: &[Cut]) -> bool {
        let useful = |cut: &Cut, place: usize| cut.kept.shortest().is_some_and(|shortest| shortest.useful[place] == 1);
        (0..self.board.table.len()).any(|place| useful(self, place) && !others.iter().any(|other| useful(other, place)))
    }
}

/// Limits with marks from fresh ones.
struct LimitedRun {
    limited: Limited,
    marks: RunMarks,
    cuts: Vec<Cut>,
}

impl LimitedRun {
    fn new(rng: &mut Rng) -> LimitedRun {
        let most = if rng.chance(15) { 180 } else { 20 };
        let limited = Limited::random(rng, most);
        let (marks, cuts) = (RunMarks::new(sets::fresh(limited.n)), Cut::all(rng, &limited));
        LimitedRun { limited, marks, cuts }
    }

    fn differs(&self) -> bool {
        self.limited.width != Width::Equal
    }
}

/// The lines that an answer of marking tells.
fn lines(answer: u64) -> u64 {
    answer / 16_777_216
}

/// The pairs that a program lists over the tables of a call.
fn pairs(checker: &dyn Checker, mut call: BetweenCall) -> Vec<[u16; 2]> {
    call.list = vec![0; 4 * call.low.len()];
    let pairs = call.run(checker) / 65_536;
    numbers(&call.list[..4 * pairs as usize]).chunks_exact(2).map(|pair| [pair[0], pair[1]]).collect()
}

impl Comparison<'_> {
    /// A run, lists and a crossing over two tables, and faulty calls.
    pub fn limits(&mut self, rng: &mut Rng) -> Checked {
        let mut run = LimitedRun::new(rng);
        self.count_cuts(&run);
        for _ in 0..ROUNDS {
            self.limited_round(rng, &mut run)?;
        }
        for _ in 0..LISTINGS {
            self.limited_listing(rng, &run)?;
        }
        self.limited_crossing(rng, &run.limited)?;
        self.limited_faults(rng)
    }

    fn count_cuts(&mut self, run: &LimitedRun) {
        if run.differs() {
            let (ends, others) = run.cuts.split_at(2);
            let others = others.iter().filter(|cut| cut.has_other_edge(ends)).count();
            self.coverage.limits.event(LimitEvent::OtherTours, others as u64);
        }
    }

    /// Damaged sheets on copies of the marks; sheets that are good over one of the tables, lines for edges of tours and
    /// a sheet that is good over both on the marks themselves.
    fn limited_round(&mut self, rng: &mut Rng, run: &mut LimitedRun) -> Checked {
        let plan = Plan::random(rng, run.limited.n);
        let draft = sheets::valid(rng, &run.limited.lengths(), &run.marks.set, plan);
        for _ in 0..DAMAGED {
            let sheet = damaged_or_noise(rng, &draft);
            let mut marks = run.marks.clone();
            self.limited_sheet(run, &mut marks, &sheet)?;
        }
        let mut marks = run.marks.clone();
        if !draft.records.is_empty() {
            self.good_sheet(run, &mut marks, &sheet_bytes(&draft.records))?;
        }
        self.sheets_of_one_table(rng, run, &mut marks, plan)?;
        let cut = rng.below(run.cuts.len());
        if let Some(sheet) = run.cuts[cut].kept.attempt(rng) {
            self.limited_sheet(run, &mut marks, &sheet)?;
        }
        run.marks = marks;
        Ok(())
    }

    /// A sheet over two tables on these marks: the answer, the marks, and what they keep.
    fn limited_sheet(&mut self, run: &LimitedRun, marks: &mut RunMarks, sheet: &[u8]) -> Result<u64, Difference> {
        let mut call = BetweenCall::mark(&run.limited, &marks.set, sheet);
        let answer = self.between(&mut call)?;
        if lines(answer) > 0 {
            let mut held = Coverage::default();
            Entered::count(run.limited.lengths(), marks.set.clone(), &numbers(sheet), lines(answer), &mut held);
            self.coverage.limits.lines(run.limited.width, lines(answer), &held);
        }
        marks.marked(call.marks, sheet, lines(answer));
        self.nothing_lost_between(run, marks, sheet, lines(answer))?;
        Ok(answer)
    }

    /// "For every table whose lengths lie between the two, ends included, each of its shortest tours has all its edges
    /// open."
    fn nothing_lost_between(&mut self, run: &LimitedRun, marks: &RunMarks, sheet: &[u8], lines: u64) -> Checked {
        for cut in &run.cuts {
            cut.kept.lost(&cut.board, marks).map_err(|(what, text)| {
                let call = hex_between(&BetweenCall::mark(&run.limited, &marks.set, sheet));
                self.difference(&format!("{what} between"), format!("{text}of {:?}\n{call}", cut.board.table))
            })?;
            if run.differs() {
                let brute = cut.kept.shortest().is_some();
                let three_opt = if cut.kept.has_tours() && !marks.reordered { lines } else { 0 };
                let (event, times) = if brute { (cut.event, lines) } else { (LimitEvent::StrikesThreeOpt, three_opt) };
                self.coverage.limits.event(event, times);
                let reordered = if brute && has_reordering(sheet) { lines } else { 0 };
                self.coverage.segments.event(SegmentEvent::StrikesBetween, reordered);
            }
        }
        Ok(())
    }

    /// A sheet that was made for both tables: where it is accepted, it is counted if one of them alone refuses it.
    fn good_sheet(&mut self, run: &LimitedRun, marks: &mut RunMarks, sheet: &[u8]) -> Checked {
        let call = BetweenCall::mark(&run.limited, &marks.set, sheet);
        let answer = self.limited_sheet(run, marks, sheet)?;
        if answer % 256 != 0 {
            return Ok(());
        }
        let by_low = self.between(&mut call.over_low())? % 256 != 0;
        let by_high = self.between(&mut call.over_high())? % 256 != 0;
        self.coverage.limits.event(LimitEvent::AcceptedNotByLow, u64::from(by_low));
        self.coverage.limits.event(LimitEvent::AcceptedNotByHigh, u64::from(by_high));
        Ok(())
    }

    /// Sheets that are accepted over the low table alone, and over the high one.
    fn sheets_of_one_table(&mut self, rng: &mut Rng, run: &LimitedRun, marks: &mut RunMarks, plan: Plan) -> Checked {
        let tables = [(&run.limited.low, LimitEvent::GoodByLow), (&run.limited.high, LimitEvent::GoodByHigh)];
        for (table, event) in tables.into_iter().filter(|_| run.differs()) {
            let draft = sheets::valid(rng, &Intervals::exact(run.limited.n, table), &marks.set, plan);
            if !draft.records.is_empty() {
                let answer = self.limited_sheet(run, marks, &sheet_bytes(&draft.records))?;
                self.coverage.limits.event(event, u64::from(answer % 256 != 0));
            }
        }
        Ok(())
    }

    /// A list over two tables, over pending marks too, into lists that are too short, just right and too long.
    fn limited_listing(&mut self, rng: &mut Rng, run: &LimitedRun) -> Checked {
        let abc = spoil::three_points(rng, run.limited.n);
        let marks = if rng.chance(60) { run.marks.set.clone() } else { some_marks(rng, run.limited.n) };
        let mut call = BetweenCall::list(&run.limited, &marks, abc, vec![]);
        let stand = pairs(self.one, call.clone());
        let size = 2 * spoil::list_size(rng, 2 * stand.len()) + usize::from(rng.chance(20));
        call.list = old_bytes(rng, size);
        let answer = self.between(&mut call)?;
        if answer % 65_536 == 0 && !stand.is_empty() {
            self.coverage.limits.list(run.limited.width);
        }
        if run.differs() {
            self.pairs_of_cuts(run, &call, &stand)?;
        }
        Ok(())
    }

    /// Whatever stands over a table between the two stands over both, since no sum that is put in is larger there and
    /// no sum that is taken out smaller. Counts the pairs that stand over both alone.
    fn pairs_of_cuts(&mut self, run: &LimitedRun, call: &BetweenCall, stand: &[[u16; 2]]) -> Checked {
        for cut in &run.cuts {
            let exact = Limited { low: cut.board.table.clone(), high: cut.board.table.clone(), ..run.limited.clone() };
            let cut_call = BetweenCall::list(&exact, &call.marks, call.abc, vec![]);
            let missed = pairs(self.one, cut_call).into_iter().find(|pair| !stand.contains(pair));
            if let Some(pair) = missed {
                let text = format!("{}pair {pair:?} of {:?}\n", hex_between(call), cut.board.table);
                return Err(self.difference("list between from a table between", text));
            }
        }
        let [by_low, by_high] = [call.over_low(), call.over_high()].map(|call| pairs(self.one, call));
        let count = |missed: &dyn Fn(&[u16; 2]) -> bool| stand.iter().filter(|pair| missed(pair)).count() as u64;
        let (low, high) = (|pair: &[u16; 2]| !by_low.contains(pair), |pair: &[u16; 2]| !by_high.contains(pair));
        self.coverage.limits.event(LimitEvent::NotByLow, count(&low));
        self.coverage.limits.event(LimitEvent::NotByHigh, count(&high));
        self.coverage.limits.event(LimitEvent::ByNeither, count(&|pair| low(pair) && high(pair)));
        Ok(())
    }

    /// A crossing behind a line and a split gets 16 exactly where three low lengths are not above three high ones.
    fn limited_crossing(&mut self, rng: &mut Rng, limited: &Limited) -> Checked {
        let lengths = limited.lengths();
        let Some(sheet) = (0..8).find_map(|_| CrossingSheet::new(rng, &lengths)) else { return Ok(()) };
        let mut call = BetweenCall::mark(limited, &sheet.marks, &sheet_bytes(&sheet.records));
        let saving = sheet.saving(&lengths);
        let due: &[u64] = if saving > 0 { &[0, 14] } else { &[16] };
        let text = hex_between(&call);
        let answer = self.between(&mut call)?;
        if !due.contains(&(answer % 256)) {
            return Err(self.difference("crossing between", format!("{text}saving {saving}, answer {answer}\n")));
        }
        let alone = |table| saving <= 0 && sheet.saving(&Intervals::exact(limited.n, table)) > 0;
        self.coverage.limits.event(LimitEvent::CrossingByLow, u64::from(alone(&limited.low)));
        self.coverage.limits.event(LimitEvent::CrossingByHigh, u64::from(alone(&limited.high)));
        let differs = limited.width != Width::Equal;
        self.coverage.limits.event(LimitEvent::CrossingSaves, u64::from(differs && saving > 0));
        Ok(())
    }
}

/// Marks of any sort, some of them pending.
fn some_marks(rng: &mut Rng, n: u16) -> Vec<u8> {
    let mut bytes = boards::random_marks(rng, n, 90);
    let pending = rng.pick(&[0, 10, 50]);
    boards::some_pending(rng, &mut bytes, pending);
    sets::packed(&bytes)
}
