//! A run: sheets marked and asked, confirmed and withdrawn, in any order, with looks in between. Every mark is compared
//! after each step, and held against what a run from fresh marks keeps.

use std::fmt::{self, Debug};

use super::{hex, hex_call, Checked, Comparison, Difference, Hex, PROGRAMS};
use crate::intervals::Intervals;
use crate::kit::damage::spoil::{self, Lent};
use crate::kit::generate::boards::{self, Board};
use crate::kit::generate::rng::Rng;
use crate::kit::generate::sets::{self, pending};
use crate::kit::met::coverage::{Event, Operation};
use crate::kit::met::entered::Entered;
use crate::kit::met::segments::SegmentEvent;
use crate::kit::oracle::kept::{has_reordering, Kept, RunMarks};
use crate::kit::programs::checker::Checker;
use crate::lengths::EdgeOrder;
use crate::marks::PENDING;
use crate::packed::mark;
use crate::sheet::Sheet;

/// An instance with its marks as they stand, a packed set.
pub struct Run {
    pub board: Board,
    pub marks: RunMarks,
    /// What they have to keep, if they come from fresh marks.
    pub kept: Option<Kept>,
}

impl Run {
    pub fn new(board: Board, rng: &mut Rng) -> Run {
        let fresh = rng.chance(70);
        let marks = if fresh { sets::fresh(board.n) } else { starting_marks(rng, &board) };
        let kept = fresh.then(|| Kept::new(rng, &board));
        Run { board, marks: RunMarks::new(marks), kept }
    }
}

/// Marks of an instance that is well on its way, some pending.
fn starting_marks(rng: &mut Rng, board: &Board) -> Vec<u8> {
    let mut marks = if rng.chance(50) {
        let near = rng.between(2, 8);
        boards::near_marks(board, near)
    } else {
        let open = rng.pick(&[10, 50, 80, 95]);
        boards::random_marks(rng, board.n, open)
    };
    let per_hundred = rng.pick(&[0, 0, 10, 50]);
    boards::some_pending(rng, &mut marks, per_hundred);
    sets::packed(&marks)
}

/// One step of a run that writes marks.
#[derive(Clone, Copy, PartialEq, Eq)]
pub enum Step {
    Mark,
    Ask,
    Confirm,
    Withdraw,
}

impl Step {
    /// Any step, mostly one that 20 and 21 let through.
    fn random(rng: &mut Rng, pending: bool) -> Step {
        let hands_in = pending == rng.chance(10);
        rng.pick(if hands_in { &[Step::Mark, Step::Ask] } else { &[Step::Confirm, Step::Withdraw] })
    }

    fn hands_in(self) -> bool {
        self == Step::Mark || self == Step::Ask
    }

    pub fn operation(self) -> Operation {
        match self {
            Step::Mark => Operation::MarkSheet,
            Step::Ask => Operation::AskSheet,
            Step::Confirm => Operation::Confirm,
            Step::Withdraw => Operation::Withdraw,
        }
    }

    /// The number that a program answers.
    pub fn call(self, checker: &dyn Checker, Lent { n, table, marks }: &mut Lent, sheet: &[u8]) -> u64 {
        match self {
            Step::Mark => checker.mark_sheet(*n, table, marks, sheet),
            Step::Ask => checker.ask_sheet(*n, table, marks, sheet),
            Step::Confirm => checker.confirm(*n, marks),
            Step::Withdraw => checker.withdraw(*n, marks),
        }
    }
}

impl Comparison<'_> {
    /// Steps in random order until the sheet is judged, and mostly until nothing is pending; then the sheet in a file.
    pub fn sheet(&mut self, rng: &mut Rng, run: &Run, marks: &mut RunMarks, sheet: &[u8]) -> Checked {
        let mut judged = false;
        while !judged || (pending(&marks.set) && rng.chance(90)) {
            if pending(&marks.set) && rng.chance(40) {
                self.look(rng, run, &marks.set)?;
            } else {
                judged |= self.step(rng, run, marks, sheet)?;
            }
        }
        self.sheets += 1;
        if self.other.program_is_cheap() || rng.chance(PROGRAMS) {
            self.program(rng, &run.board, sheet)?;
        }
        Ok(())
    }

    /// One step on the marks, now and then with another n, and sometimes before that in a spoiled call on copies; while
    /// something is pending, now and then with an empty sheet. Answers whether the sheet was handed in and got past 20.
    fn step(&mut self, rng: &mut Rng, run: &Run, marks: &mut RunMarks, sheet: &[u8]) -> Result<bool, Difference> {
        let before = pending(&marks.set);
        let step = Step::random(rng, before);
        let sheet = if before && rng.chance(20) { &[] } else { sheet };
        let mut lent = Lent::new(&run.board, &marks.set);
        if rng.chance(8) {
            let mut spoiled = lent.clone();
            spoil::call(rng, &mut spoiled);
            self.call(step, &mut spoiled, sheet)?;
        }
        if rng.chance(2) {
            lent.n = spoil::wrong_count(rng, lent.n);
        }
        let judged = step.hands_in() && lent.n == u32::from(run.board.n) && !before;
        let answer = self.call(step, &mut lent, sheet)?;
        marks.marked(lent.marks, sheet, lines(answer));
        self.nothing_lost(run, marks, sheet, lines(answer))?;
        Ok(judged)
    }

    /// The call of a step; what was asked is marked, confirmed and withdrawn on copies too.
    fn call(&mut self, step: Step, lent: &mut Lent, sheet: &[u8]) -> Result<u64, Difference> {
        if step != Step::Ask {
            return self.both(step, lent, sheet);
        }
        let before = lent.clone();
        let answer = self.both(step, lent, sheet)?;
        self.count_asked(lent, answer, sheet);
        self.asked(&before, lent, answer, sheet)?;
        Ok(answer)
    }

    /// A step of both programs: the answer and every mark.
    fn both(&mut self, step: Step, lent: &mut Lent, sheet: &[u8]) -> Result<u64, Difference> {
        let before = lent.marks.clone();
        let mut other_lent = lent.clone();
        let answer = step.call(self.one, lent, sheet);
        let other = step.call(self.other, &mut other_lent, sheet);
        self.coverage.number(step.operation(), answer % 256);
        self.coverage.sets.count(step.operation(), lent.n, &before, answer % 256);
        let (one, other) =
            (Shown { answer, marks: Hex(&lent.marks) }, Shown { answer: other, marks: Hex(&other_lent.marks) });
        self.same(step.operation().name(), one, other, || {
            let call = hex_call(lent.n, &lent.table, &before);
            format!("{call}sheet {}\n", hex(sheet))
        })?;
        if step.hands_in() {
            self.accepted(lent, before, sheet, answer);
            self.sheet_slip(answer)?;
        }
        Ok(answer)
    }

    /// Counts the accepted lines, which found these marks, and 20 before 7.
    fn accepted(&mut self, lent: &Lent, marks: Vec<u8>, sheet: &[u8], answer: u64) {
        let (number, lines) = (answer % 256, lines(answer));
        let numbers = crate::bytes::numbers(sheet);
        let records = if lines > 0 {
            let table = crate::bytes::entries(&lent.table);
            Entered::count(Intervals::exact(lent.n as u16, &table), marks, &numbers, lines, &mut self.coverage)
        } else {
            0
        };
        if number == 0 {
            self.coverage.event(Event::SeveralLines, u64::from(lines > 1));
            self.coverage.event(Event::RecordsSkipped, u64::from(Sheet::FIELDS * records < numbers.len()));
        } else if lines > 0 {
            self.coverage.event(Event::StoppedAfterStrikes, 1);
        }
        self.coverage.event(Event::PendingFirst, u64::from(number == 20 && Sheet::read(&numbers).is_err()));
    }

    fn count_asked(&mut self, asked: &Lent, answer: u64, sheet: &[u8]) {
        let (number, record) = (answer % 256, answer / 256 % 65_536);
        self.coverage.event(Event::AskStopped, u64::from(number != 0 && lines(answer) > 0));
        if number == 12 {
            let numbers = crate::bytes::numbers(sheet);
            let at = Sheet::FIELDS * (record as usize - 1);
            let place = EdgeOrder::new(asked.n as u16).place(numbers[at + 1], numbers[at + 2]);
            self.coverage.event(Event::AskedTwice, u64::from(mark(&asked.marks, place) == PENDING));
        }
    }

    /// Paper 3 on a sheet that was asked: "the verdict of direct marking"; from marks with nothing pending, confirming
    /// leaves "exactly its marks", and withdrawing those from before.
    fn asked(&mut self, before: &Lent, asked: &Lent, answer: u64, sheet: &[u8]) -> Checked {
        let mut direct = before.clone();
        let verdict = self.both(Step::Mark, &mut direct, sheet)?;
        let inputs = || format!("{}sheet {}\n", hex_call(before.n, &before.table, &before.marks), hex(sheet));
        if verdict != answer {
            return Err(self.difference("ask from mark", inputs()));
        }
        if pending(&before.marks) {
            return Ok(());
        }
        let strikes = lines(answer) > 0;
        for (step, left) in [(Step::Confirm, &direct.marks), (Step::Withdraw, &before.marks)] {
            let mut settled = asked.clone();
            let number = self.both(step, &mut settled, &[])?;
            if settled.marks != *left || strikes != (number == 0) {
                return Err(self.difference(&format!("ask, then {}", step.operation().name()), inputs()));
            }
        }
        self.coverage.event(Event::AskSettled, u64::from(strikes));
        Ok(())
    }

    /// Demand 3 and Papers 3 and 9 on marks that a run has left.
    fn nothing_lost(&mut self, run: &Run, marks: &RunMarks, sheet: &[u8], lines: u64) -> Checked {
        let Some(kept) = &run.kept else { return Ok(()) };
        kept.hold(&run.board, marks, lines, &mut self.coverage).map_err(|(what, text)| {
            let lent = Lent::new(&run.board, &marks.set);
            let call = hex_call(lent.n, &lent.table, &marks.set);
            self.difference(what, format!("{text}{call}sheet {}\n", hex(sheet)))
        })?;
        let reordered = kept.shortest().is_some() && has_reordering(sheet);
        self.coverage.segments.event(SegmentEvent::Strikes, if reordered { lines } else { 0 });
        Ok(())
    }
}

/// The lines that an answer of marking or asking tells.
fn lines(answer: u64) -> u64 {
    answer / 16_777_216
}

/// What a step leaves, printed by its parts.
#[derive(PartialEq)]
struct Shown<'a> {
    answer: u64,
    marks: Hex<'a>,
}

impl Debug for Shown<'_> {
    fn fmt(&self, f: &mut fmt::Formatter) -> fmt::Result {
        let (number, record, lines) = (self.answer % 256, self.answer / 256 % 65_536, lines(self.answer));
        write!(f, "number {number} record {record} lines {lines} marks {:?}", self.marks)
    }
}
