//! Eight desks (02, Paper 14): each has a queue of the lines that wait there, and the desks stand in a ring.

use std::collections::VecDeque;

use crate::marking::{sheet_tests, Marked, Walk};
use crate::marks::STRUCK;
use crate::refusal::{demand, Fault, Refusal};

/// A line that waits: its record, and the record that has its index, 0 for the first line.
#[derive(Clone, Copy, Debug, PartialEq, Eq)]
struct Waiting {
    index: u16,
    owner: u16,
}

/// One desk. A line's next index is looked at in its turn, so that no more than one line waits.
#[derive(Clone, Debug, Default, PartialEq, Eq)]
struct Desk {
    queue: VecDeque<Waiting>,
    /// Lines accepted of the sheet that has a line left, 0 where none has.
    lines: u16,
}

/// What is lent for one desk.
#[derive(Clone, Copy)]
pub struct Lent<'a> {
    pub n: u32,
    pub table: &'a [u32],
    pub sheet: &'a [u16],
}

/// What a turn tells: "the desk, whether it has a line left, and its verdict so far".
#[derive(Clone, Copy, Debug, PartialEq, Eq)]
pub struct Turn {
    pub desk: usize,
    pub line_left: bool,
    pub marked: Marked,
}

/// The eight desks.
#[derive(Clone, Debug, PartialEq, Eq)]
pub struct Desks {
    /// The desks in the order in which the next turn asks them for a line.
    ring: VecDeque<usize>,
    desks: [Desk; Desks::COUNT],
}

impl Desk {
    /// The state's three numbers: the next index, its owner, the lines accepted.
    fn numbers(&self) -> [u16; 3] {
        self.queue.front().map_or([0; 3], |waiting| [waiting.index, waiting.owner, self.lines])
    }

    /// A desk by its numbers: there is a line left where the lines are below the next index.
    fn of([index, owner, lines]: [u16; 3]) -> Desk {
        if lines < index {
            Desk { queue: [Waiting { index, owner }].into(), lines }
        } else {
            Desk::default()
        }
    }

    /// Marks the line that waited; where it is accepted, the next one may wait.
    fn mark(&mut self, waiting: Waiting, lent: Lent, marks: &mut [u8]) -> Result<(), Fault> {
        let Waiting { index, owner } = waiting;
        let tested = sheet_tests(lent.n, lent.table, marks, lent.sheet);
        let (lengths, sheet) = tested.map_err(|refusal| Fault { refusal, record: 0 })?;
        demand(usize::from(index) <= sheet.count(), Refusal::IndexAboveCount, owner)?;
        let mut walk = Walk::at(&lengths, sheet, index);
        let next = walk.strike(marks, index, STRUCK)?;
        self.lines += 1;
        if next != 0 {
            walk.follow(index, next)?;
            self.queue.push_back(Waiting { index: next, owner: index });
        }
        Ok(())
    }

    /// A turn of a desk with a line left.
    fn serve(&mut self, lent: Lent, marks: &mut [u8]) -> Marked {
        let waiting = self.queue.pop_front().expect("a desk is served for a line");
        let fault = self.mark(waiting, lent, marks).err();
        let marked = Marked { fault, lines: u32::from(self.lines) };
        if self.queue.is_empty() {
            self.lines = 0;
        }
        marked
    }
}

impl Desks {
    pub const COUNT: usize = 8;

    /// The numbers of the state: the last desk served, and three a desk.
    pub const NUMBERS: usize = 1 + 3 * Self::COUNT;

    /// Desks by the numbers of their state; the last desk served counts modulo 8.
    pub fn of(numbers: [u16; Self::NUMBERS]) -> Desks {
        let mut ring: VecDeque<usize> = (1..=Self::COUNT).collect();
        ring.rotate_left(usize::from(numbers[0]) % Self::COUNT);
        let desk = |at: usize| Desk::of([numbers[3 * at + 1], numbers[3 * at + 2], numbers[3 * at + 3]]);
        Desks { ring, desks: std::array::from_fn(desk) }
    }

    /// No sheet handed in, and desk 1 is asked first.
    pub fn open() -> Desks {
        Desks::of([0; Self::NUMBERS])
    }

    /// The three numbers of a desk.
    pub fn numbers(&self, desk: usize) -> [u16; 3] {
        self.desks[desk - 1].numbers()
    }

    pub fn line_left(&self, desk: usize) -> bool {
        !self.desks[desk - 1].queue.is_empty()
    }

    /// Hands a sheet in: 28, 29, then the sheet's tests. Answers the desk.
    pub fn hand_in(&mut self, desk: u32, lent: Lent, marks: &[u8]) -> Result<usize, Refusal> {
        let desk = usize::try_from(desk).ok().filter(|desk| (1..=Self::COUNT).contains(desk)).ok_or(Refusal::Desk)?;
        if self.line_left(desk) {
            return Err(Refusal::LineLeft);
        }
        sheet_tests(lent.n, lent.table, marks, lent.sheet)?;
        self.desks[desk - 1].queue.push_back(Waiting { index: 1, owner: 0 });
        Ok(desk)
    }

    /// "The next desk after the last served, counting upward and round again, that has a line left."
    pub fn next_desk(&self) -> Option<usize> {
        self.ring.iter().copied().find(|&desk| self.line_left(desk))
    }

    /// One line of the next desk, or nothing where no desk has a line left.
    pub fn turn(&mut self, lent: Lent, marks: &mut [u8]) -> Option<Turn> {
        let desk = self.next_desk()?;
        while self.ring.back() != Some(&desk) {
            self.ring.rotate_left(1);
        }
        let marked = self.desks[desk - 1].serve(lent, marks);
        Some(Turn { desk, line_left: self.line_left(desk), marked })
    }
}
