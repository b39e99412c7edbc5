//! Eight desks by the 25 numbers of their state: the last desk served, then of desk d its next index, the record that
//! has it and its lines, at 3d − 2, 3d − 1 and 3d.

use super::mistake::Mistake;
use super::reader::{Reader, Stop};
use super::rules::Board;
use super::sets;
use super::{first_tests, numbers, records, table_of, Naive};

/// What a turn is lent beside the state and the marks.
struct Lent<'a> {
    n: u32,
    table: &'a [u8],
    sheet: &'a [u8],
}

/// The numbers of the state, or 22.
fn state(desks: &[u8]) -> Result<Vec<usize>, u64> {
    let numbers = numbers(desks, 2).iter().map(|&v| v as usize).collect::<Vec<_>>();
    if desks.len() < 50 {
        Err(22)
    } else {
        Ok(numbers[..25].to_vec())
    }
}

fn write_state(state: &[usize], desks: &mut [u8]) {
    for (place, number) in state.iter().enumerate() {
        desks[2 * place] = (number % 256) as u8;
        desks[2 * place + 1] = (number / 256) as u8;
    }
}

impl Naive {
    pub(super) fn opened(&self, desks: &mut [u8]) -> Result<u64, u64> {
        let short = state(desks).is_err();
        let end = if short || self.makes(Mistake::PastDesksCleared) { desks.len() } else { 50 };
        if !short || self.makes(Mistake::ShortDesksOpened) {
            desks[..end].fill(0);
        }
        if short {
            Err(22)
        } else {
            Ok(0)
        }
    }

    fn line_left(&self, state: &[usize], desk: usize) -> bool {
        state[3 * desk] < state[3 * desk - 2] || self.makes(Mistake::UnservedLineLeft) && state[3 * desk - 2] != 0
    }

    /// The desk that the next turn serves, or 0.
    fn next_of(&self, state: &[usize]) -> usize {
        let last = if self.makes(Mistake::LastNotModulo) && state[0] > 8 { 0 } else { state[0] % 8 };
        let first = if self.makes(Mistake::SameDeskAgain) && last > 0 { last } else { last + 1 };
        let end = if self.makes(Mistake::RoundEndsAtEight) { 8 } else { first + 7 };
        let round = (first..=end).map(|desk| if desk > 8 { desk - 8 } else { desk });
        round.into_iter().find(|&desk| self.line_left(state, desk)).unwrap_or(0)
    }

    pub(super) fn asked_next(&self, desks: &[u8]) -> Result<u64, u64> {
        Ok(65_536 * self.next_of(&state(desks)?) as u64)
    }

    /// 22, 28, 29, then 1, 2, 5, 6, 20, 7.
    pub(super) fn handed_in(
        &self,
        desks: &mut [u8],
        desk: u32,
        n: u32,
        table: &[u8],
        set: &[u8],
        sheet: &[u8],
    ) -> Result<u64, u64> {
        let lent = Lent { n, table, sheet };
        let desk = if self.makes(Mistake::DeskByLowByte) { desk % 256 } else { desk };
        if self.makes(Mistake::TestsBeforeDesk) {
            self.desk_tests(&lent, set)?;
        }
        let no_desk = desk < 1 || desk > 8;
        if no_desk && self.makes(Mistake::DeskBeforeBuffer) {
            return Err(28);
        }
        let mut state = state(desks)?;
        if no_desk {
            return Err(28);
        }
        let desk = desk as usize;
        if self.line_left(&state, desk) && !self.makes(Mistake::HandInOverLine) {
            return Err(29);
        }
        self.desk_tests(&lent, set)?;
        state[3 * desk - 2..=3 * desk].copy_from_slice(&[1, 0, 0]);
        if self.makes(Mistake::HandInServes) {
            state[0] = desk;
        }
        write_state(&state, desks);
        Ok(0)
    }

    /// 1, 2, 5, 6, 20, 7; the marks if all pass.
    fn desk_tests(&self, lent: &Lent, set: &[u8]) -> Result<Vec<u8>, u64> {
        let (table, whole) = table_of(lent.table);
        let marks = first_tests(self.mistake, lent.n, &table, whole, set)?;
        self.sheet_tests(&marks, lent.sheet, false)?;
        Ok(marks)
    }

    /// The tests that a turn repeats; by a mistake over a table and marks that pass 5 and 20.
    fn repeated(&self, lent: &Lent, set: &[u8]) -> Result<Vec<u8>, u64> {
        if !self.makes(Mistake::TestsNotRepeated) {
            return self.desk_tests(lent, set);
        }
        let (low, whole) = (vec![0; lent.table.len() / 4], lent.table.len() % 4 == 0);
        let marks = first_tests(self.mistake, lent.n, &low, whole, set)?;
        self.sheet_tests(&vec![1; marks.len()], lent.sheet, false)?;
        Ok(marks)
    }

    /// The line at an index, by its owner: the next index, 0 or one that may be entered. Counts the line.
    fn desk_line(
        &self,
        (index, owner): (usize, usize),
        lent: &Lent,
        set: &mut [u8],
        lines: &mut usize,
    ) -> Result<usize, Stop> {
        let tested = self.repeated(lent, set);
        if tested.is_err() && self.makes(Mistake::LinesLostAtTest) {
            *lines = 0;
        }
        let mut marks = tested.map_err(|number| (number, 0))?;
        let records = records(lent.sheet);
        if index > records.len() {
            return Err((8, if self.makes(Mistake::OwnerForgotten) { 0 } else { owner }));
        }
        let table = table_of(lent.table).0;
        let board = Board::new(lent.n as usize, &table, self.mistake);
        let mut reader = Reader { board, records, entered: vec![index], strike: 0 };
        let before = marks.clone();
        let next = reader.line(&mut marks, &before, index)?;
        sets::write(self.mistake, &marks, set);
        *lines += 1;
        if next != 0 && !self.makes(Mistake::NextIndexToldLate) {
            reader.enter(index, next)?;
        }
        Ok(next)
    }

    /// 22; 0 where no desk has a line left; else the answer of marking so far, the desk, and whether it has a line
    /// left.
    pub(super) fn turned(
        &self,
        desks: &mut [u8],
        n: u32,
        table: &[u8],
        set: &mut [u8],
        sheet: &[u8],
    ) -> Result<u64, u64> {
        let mut state = state(desks)?;
        let desk = self.next_of(&state);
        if desk == 0 {
            return Ok(0);
        }
        let (index, owner, before) = (state[3 * desk - 2], state[3 * desk - 1], state[3 * desk]);
        let mut lines = before;
        let told = self.desk_line((index, owner), &Lent { n, table, sheet }, set, &mut lines);
        let (refusal, record) = told.err().unwrap_or((0, 0));
        let next = told.unwrap_or(0);
        let kept = if self.makes(Mistake::EndedKeepsLines) { lines } else { 0 };
        state[3 * desk - 2..=3 * desk].copy_from_slice(&match next {
            0 if refusal != 0 && self.makes(Mistake::RefusedTurnKeepsLine) => [index, owner, before],
            0 => [0, 0, kept],
            _ => [next, index, lines],
        });
        if next == 0 && desk < 8 && self.makes(Mistake::OtherDeskCleared) {
            state[3 * desk + 1..=3 * desk + 3].fill(0);
        }
        if refusal == 0 || !self.makes(Mistake::RefusedTurnUnserved) {
            state[0] = desk;
        }
        write_state(&state, desks);
        let lines = if self.makes(Mistake::LinesOfTurn) { lines - before } else { lines };
        let left = if self.line_left(&state, desk) { 1 } else { 0 };
        let marked = refusal + 256 * record as u64 + 16_777_216 * lines as u64;
        Ok(marked + ((desk as u64) << 48) + (left << 56))
    }
}
