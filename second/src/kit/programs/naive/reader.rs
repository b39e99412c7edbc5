//! The walk through a sheet, record by record.

use super::mistake::Mistake;
use super::rules::{has, pending_read_as, with, Board, Edge};

/// A refusal number with its record.
pub type Stop = (u64, usize);

/// Reads sheets record by record.
pub struct Reader<'a> {
    pub board: Board<'a>,
    pub records: Vec<Vec<usize>>,
    pub entered: Vec<usize>,
    /// What a strike writes: 0, or 2 in an asked sheet.
    pub strike: u8,
}

impl Reader<'_> {
    /// Tests 8 and 9 on an index that is not 0.
    pub fn enter(&mut self, holder: usize, index: usize) -> Result<(), Stop> {
        let named = if self.board.makes(Mistake::IndexNamesTarget) { index } else { holder };
        let above = index > self.records.len();
        let low = self.entered.iter().any(|&e| index <= e);
        if above {
            return Err((8, named));
        }
        if low {
            return Err((9, named));
        }
        self.entered.push(index);
        Ok(())
    }

    pub fn point(&self, v: usize) -> bool {
        v != 0 && v <= self.board.n
    }

    /// Tests 10 and 11.
    pub fn first_tests(&self, index: usize, kinds: &[usize]) -> Result<Vec<usize>, Stop> {
        let record = self.records[index - 1].clone();
        let (kind, a, b, u, v, c, d) = (record[0], record[1], record[2], record[3], record[4], record[5], record[6]);
        let unused = match kind {
            3 => vec![],
            4 if self.board.makes(Mistake::CentreUnread) => vec![],
            4 => vec![c],
            _ => vec![u, v],
        };
        if !kinds.contains(&kind) || unused.iter().any(|&field| field != 0) {
            return Err((10, index));
        }
        let fields = match kind {
            3 => vec![a, b, u, v, c, d],
            4 if self.board.makes(Mistake::EndsUnread) => vec![a, b],
            4 => vec![a, b, u, v],
            _ => vec![a, b, c],
        };
        if !fields.iter().all(|&v| self.point(v)) || a == b {
            return Err((11, index));
        }
        Ok(record)
    }

    /// 14 and 13, in 01's order or a mistake's; `next` is the next standing pair.
    pub fn case_tests(
        &self,
        index: usize,
        k: &[Edge],
        c: usize,
        next: Option<&Edge>,
        depth: usize,
    ) -> Result<(), Stop> {
        let record = &self.records[index - 1];
        let most = if self.board.makes(Mistake::SevenSplits) { 7 } else { 6 };
        let splits = record[0] == 2 || record[0] == 4 && self.board.makes(Mistake::ReorderingDeeper);
        let too_deep = splits && depth + 1 > most;
        if self.board.makes(Mistake::SplitBeforePair) && too_deep {
            return Err((13, index));
        }
        let more = with(&with(k, (c, record[1])), (c, record[2]));
        if self.board.makes(Mistake::CrossingBeforePair) && record[0] == 3 && !has(&more, (record[3], record[4])) {
            return Err((15, index));
        }
        if self.board.makes(Mistake::SegmentBeforePair) && record[0] == 4 && self.no_segment(&more, index) {
            return Err((23, index));
        }
        if next != Some(&(record[1], record[2])) {
            return Err((14, index));
        }
        if too_deep {
            return Err((13, index));
        }
        Ok(())
    }

    pub fn chain(
        &mut self,
        marks: &[u8],
        k: &[Edge],
        owner: usize,
        c: usize,
        first: usize,
        depth: usize,
    ) -> Result<(), Stop> {
        let pairs = self.board.standing(marks, k, c);
        let (mut last, mut index, mut named) = (owner, first, 0);
        while index != 0 {
            self.enter(last, index)?;
            let record = self.first_tests(index, &[2, 3, 4])?;
            self.case_tests(index, k, c, pairs.get(named), depth)?;
            let more = with(&with(k, (c, record[1])), (c, record[2]));
            if record[0] == 2 {
                self.chain(marks, &more, index, record[5], record[6], depth + 1)?;
            } else if record[0] == 4 {
                self.reorder(&more, index)?;
            } else {
                let fault = self.board.crossing(&more, [record[3], record[4], record[5], record[6]]);
                if fault != 0 {
                    return Err((fault, index));
                }
            }
            named += 1;
            last = index;
            index = record[7];
        }
        if named < pairs.len() {
            return Err((14, if self.board.makes(Mistake::OwnerNamed) { owner } else { last }));
        }
        Ok(())
    }

    pub fn lines(&mut self, marks: &mut [u8], accepted: &mut u64) -> Result<(), Stop> {
        let mut index = 1;
        self.entered.push(1);
        let at_first = marks.to_vec();
        loop {
            let next = self.line(marks, &at_first, index)?;
            *accepted += 1;
            if next == 0 {
                return Ok(());
            }
            self.enter(index, next)?;
            index = next;
        }
    }

    /// The line at an index that is entered: its edge is struck. Answers its next index.
    pub fn line(&mut self, marks: &mut [u8], at_first: &[u8], index: usize) -> Result<usize, Stop> {
        let record = self.first_tests(index, &[1])?;
        let (a, b) = (record[1], record[2]);
        let place = self.board.place(a, b);
        let wrong = self.board.makes(Mistake::PendingOpenInSheet);
        let now = pending_read_as(if wrong { 1 } else { 0 }, marks);
        if now[place] == 0 {
            return Err((12, index));
        }
        let mut seen = if self.board.makes(Mistake::StaleMarks) { at_first.to_vec() } else { now };
        if self.board.makes(Mistake::EarlyStrike) {
            seen[place] = 0;
        }
        if record[6] != 0 || !self.board.waved_on(marks, (a, b)) {
            self.chain(&seen, &[(a, b)], index, record[5], record[6], 1)?;
        }
        marks[place] = self.strike;
        Ok(record[7])
    }
}
