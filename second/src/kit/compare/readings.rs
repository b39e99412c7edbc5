//! Operations that read a packed set, for chosen numbers of points: on good sets, where the naive checker answers by
//! the byte set, and on sets with one fault, alone or beside another fault of the call.

use super::steps::Step;
use super::{hex, hex_call, Checked, Comparison, Difference, Hex};
use crate::intervals::Intervals;
use crate::kit::damage::sets::SetFault;
use crate::kit::damage::spoil::{self, Lent};
use crate::kit::generate::boards::{self, Board};
use crate::kit::generate::drafts::sheet_bytes;
use crate::kit::generate::limits::{Limited, Width};
use crate::kit::generate::rng::Rng;
use crate::kit::generate::sets::{old_bytes, packed};
use crate::kit::generate::sheets::{self, Plan};
use crate::kit::met::coverage::Operation;
use crate::kit::met::sets::POINTS;
use crate::kit::programs::checker::Checker;

/// An operation that reads a packed set.
#[derive(Clone, Copy, PartialEq, Eq)]
enum Reading {
    Step(Step),
    List,
    Tour,
    Unpack,
    MarkBetween,
    ListBetween,
}

const READINGS: [Reading; 7] = [
    Reading::Step(Step::Mark),
    Reading::Step(Step::Ask),
    Reading::Step(Step::Confirm),
    Reading::Step(Step::Withdraw),
    Reading::List,
    Reading::Tour,
    Reading::Unpack,
];

const READINGS_BETWEEN: [Reading; 2] = [Reading::MarkBetween, Reading::ListBetween];

impl Reading {
    fn operation(self) -> Operation {
        match self {
            Reading::Step(step) => step.operation(),
            Reading::List => Operation::ListPairs,
            Reading::Tour => Operation::CheckTour,
            Reading::Unpack => Operation::UnpackMarks,
            Reading::MarkBetween => Operation::MarkBetween,
            Reading::ListBetween => Operation::ListBetween,
        }
    }

    fn hands_in(self) -> bool {
        matches!(self, Reading::Step(Step::Mark | Step::Ask) | Reading::MarkBetween)
    }

    fn two_tables(self) -> bool {
        matches!(self, Reading::MarkBetween | Reading::ListBetween)
    }

    fn lists(self) -> bool {
        matches!(self, Reading::List | Reading::ListBetween)
    }

    /// Marks in a hundred that are pending: mostly few where 20 would come of it.
    fn pending(self, rng: &mut Rng) -> usize {
        match self {
            _ if self.hands_in() => rng.pick(&[0, 0, 0, 10]),
            _ => rng.pick(&[0, 30, 30, 30]),
        }
    }
}

/// One call of it.
#[derive(Clone)]
struct Call {
    reading: Reading,
    /// Its table is the low one, where there are two.
    lent: Lent,
    high: Vec<u8>,
    sheet: Vec<u8>,
    abc: [u16; 3],
    tour: Vec<u8>,
    /// The list, or the byte set.
    written: Vec<u8>,
}

impl Call {
    /// A call on a good set, mostly one that is not refused.
    fn new(rng: &mut Rng, board: &Board, reading: Reading) -> Call {
        let mut bytes = boards::random_marks(rng, board.n, 95);
        let set = packed(&bytes);
        let pending = reading.pending(rng);
        boards::some_pending(rng, &mut bytes, pending);
        let size = if reading.lists() { 4 * bytes.len() } else { bytes.len() };
        let width = if reading.two_tables() { Width::FewEdges } else { Width::Equal };
        let limited = Limited::apart(rng, board, width, 20);
        Call {
            reading,
            lent: Lent::new(board, &packed(&bytes)),
            high: limited.high.iter().flat_map(|l| l.to_le_bytes()).collect(),
            sheet: if reading.hands_in() { sheet(rng, &limited.lengths(), &set) } else { vec![] },
            abc: spoil::three_points(rng, board.n),
            tour: spoil::tour(rng, board.n),
            written: old_bytes(rng, size),
        }
    }

    /// The number for C.
    fn run(&mut self, checker: &dyn Checker) -> u64 {
        let Lent { n, table, marks } = &mut self.lent;
        match self.reading {
            Reading::Step(step) => step.call(checker, &mut self.lent, &self.sheet),
            Reading::List => checker.list_pairs(*n, table, marks, self.abc, &mut self.written),
            Reading::Tour => checker.check_tour(*n, table, marks, &self.tour),
            Reading::Unpack => checker.unpack_marks(*n, marks, &mut self.written),
            Reading::MarkBetween => checker.mark_between(*n, table, &self.high, marks, &self.sheet),
            Reading::ListBetween => checker.list_between(*n, table, &self.high, marks, self.abc, &mut self.written),
        }
    }

    /// Mostly nothing; or a fault that a test before 6 is for, or one behind it.
    fn spoil(&mut self, rng: &mut Rng) {
        match rng.below(10) {
            0 => self.lent.n = spoil::no_count(rng, self.lent.n),
            1 => self.lent.table.truncate(self.lent.table.len() - 4),
            2 => self.lent.table[..4].copy_from_slice(&2_000_001u32.to_le_bytes()),
            3 if self.reading.two_tables() => {
                self.lent.table[..4].copy_from_slice(&1u32.to_le_bytes());
                self.high[..4].fill(0);
            }
            3 | 4 => {
                self.sheet.clear();
                self.abc[1] = self.abc[0];
                self.tour.clear();
            }
            _ => {}
        }
    }

    /// What it shows: the answer and what it may have written.
    fn shown(&self, answer: u64) -> (u64, Hex<'_>, Hex<'_>) {
        (answer, Hex(&self.lent.marks), Hex(&self.written))
    }

    fn hex(&self) -> String {
        let Lent { n, table, marks } = &self.lent;
        let (sheet, tour, written) = (hex(&self.sheet), hex(&self.tour), hex(&self.written));
        let call = format!("{}high {}\n", hex_call(*n, table, marks), hex(&self.high));
        format!("{call}sheet {sheet}\na, b, c {:?}\ntour {tour}\nwritten {written}\n", self.abc)
    }
}

/// A short sheet whose lines are accepted, or no records if none is found.
fn sheet(rng: &mut Rng, lengths: &Intervals, set: &[u8]) -> Vec<u8> {
    let plan = Plan { lines: 2, want: rng.between(1, 2), ..Plan::random(rng, lengths.order.n) };
    let drafts = (0..3).map(|_| sheets::valid(rng, lengths, set, plan));
    let records = drafts.map(|draft| draft.records).find(|records| !records.is_empty());
    sheet_bytes(&records.unwrap_or_default())
}

impl Comparison<'_> {
    /// The board of the number of points whose turn it is.
    fn board_of_turn(&self, rng: &mut Rng) -> Board {
        let n = POINTS[(self.case % POINTS.len() as u64) as usize];
        let most = rng.pick(&[30, 1_000, 1_000_000]);
        boards::points_of(rng, n, most)
    }

    /// All operations over one table or none, and the program.
    pub fn readings(&mut self, rng: &mut Rng) -> Checked {
        let board = self.board_of_turn(rng);
        self.fresh(rng, u32::from(board.n))?;
        self.conversions(rng, board.n)?;
        for reading in READINGS {
            let call = Call::new(rng, &board, reading);
            self.good(&call)?;
            if reading == Reading::Step(Step::Mark) {
                self.program(rng, &board, &call.sheet)?;
            }
            self.all_faults(rng, &call)?;
        }
        Ok(())
    }

    /// The operations over two tables.
    pub fn readings_between(&mut self, rng: &mut Rng) -> Checked {
        let board = self.board_of_turn(rng);
        for reading in READINGS_BETWEEN {
            let call = Call::new(rng, &board, reading);
            self.good(&call)?;
            self.all_faults(rng, &call)?;
        }
        Ok(())
    }

    fn all_faults(&mut self, rng: &mut Rng, call: &Call) -> Checked {
        let faults = SetFault::with(call.lent.n as u16);
        faults.into_iter().try_for_each(|fault| self.faulty(rng, call, fault))
    }

    /// A call in both programs; answers the number for C.
    fn reading(&mut self, before: &Call, call: &mut Call) -> Result<u64, Difference> {
        let (operation, mut other_call) = (before.reading.operation(), before.clone());
        let (answer, other) = (call.run(self.one), other_call.run(self.other));
        self.coverage.number(operation, answer % 256);
        self.coverage.sets.count(operation, before.lent.n, &before.lent.marks, answer % 256);
        self.same(operation.name(), call.shown(answer), other_call.shown(other), || before.hex())?;
        Ok(answer)
    }

    /// A call on a good set, which the naive checker makes on the byte set.
    fn good(&mut self, before: &Call) -> Checked {
        let (operation, mut call, mut naive_call) = (before.reading.operation(), before.clone(), before.clone());
        let answer = self.reading(before, &mut call)?;
        let naive = naive_call.run(self.naive);
        self.coverage.sets.count_naive(operation, before.lent.n);
        let what = format!("{} by the byte set", operation.name());
        self.same_as(&what, call.shown(answer), ("naive", naive_call.shown(naive)), || before.hex())
    }

    /// A call on a set with a fault: 6, unless the call on the good set gets 1, 2, 5 or 25; nothing is written.
    fn faulty(&mut self, rng: &mut Rng, good: &Call, fault: SetFault) -> Checked {
        let mut good = good.clone();
        let n = good.lent.n as u16;
        good.spoil(rng);
        let mut before = good.clone();
        fault.make(rng, n, &mut before.lent.marks);
        let mut call = before.clone();
        let answer = self.reading(&before, &mut call)?;
        let repaired = good.run(self.one) % 256;
        self.coverage.sets.count_order(before.reading.operation(), repaired);
        let due = if [1, 2, 5, 25].contains(&repaired) { repaired } else { 6 };
        if call.shown(answer) != before.shown(due) {
            let what = format!("{} for {fault}", before.reading.operation().name());
            return Err(self.difference(&what, format!("{}answer {answer}, due {due}\n", before.hex())));
        }
        Ok(())
    }
}
