//! Reasons in words, sentence by sentence from Paper 6: everything that shuts a pair out is written down, and what
//! comes first by test, point and edge is told.

use super::mistake::Mistake;
use super::reader::Reader;
use super::rules::{other_ends, pending_read_as, short_cycle_from, with, Board, Edge};
use super::{first_tests, records, table_of, Naive};

/// Something that shuts a pair out: the test, what is the lowest in it, and the words.
#[derive(PartialEq, Eq, PartialOrd, Ord)]
struct Found {
    test: usize,
    lowest: Vec<usize>,
    saving: i64,
    words: String,
}

fn found(test: usize, lowest: Vec<usize>, words: String) -> Found {
    Found { test, lowest, saving: 0, words: words + " shuts" }
}

fn found_saving(test: usize, lowest: Vec<usize>, saving: i64, words: String) -> Found {
    Found { test, lowest, saving, words: format!("{words} saves {saving} and shuts") }
}

fn low_high((a, b): Edge) -> Edge {
    if a < b {
        (a, b)
    } else {
        (b, a)
    }
}

fn dashes(points: &[usize]) -> String {
    points.iter().map(usize::to_string).collect::<Vec<String>>().join("-")
}

impl Board<'_> {
    fn edge_told(&self, edge: Edge) -> String {
        let (a, b) = if self.makes(Mistake::EdgeAsGiven) { edge } else { low_high(edge) };
        format!("{a}-{b}")
    }

    /// Tests 1 to 3 on the edges of K with the pair.
    fn found_by_edges(&self, marks: &[u8], legs: [Edge; 2], more: &[Edge]) -> Vec<Found> {
        let mut all = Vec::new();
        for leg in legs {
            let place = self.place(leg.0, leg.1);
            if marks[place] != 1 {
                all.push(found(1, vec![place], format!("Struck edge {}", self.edge_told(low_high(leg)))));
            }
        }
        for v in 1..=self.n {
            if other_ends(more, v).len() > 2 {
                all.push(found(2, vec![v], format!("Third edge at {v}")));
            }
            let mut cycle = vec![v];
            if short_cycle_from(more, &mut cycle, self.n) {
                if !self.makes(Mistake::LoopAsWalked) {
                    cycle.sort();
                }
                all.push(found(3, vec![v], format!("Loop {}", dashes(&cycle))));
            }
        }
        all
    }

    /// What an exchange is said to save.
    fn exchange_told(&self, (p, q): Edge, (x, y): Edge, saving: i64) -> i64 {
        let smaller = self.sum(&[(p, x), (q, y)]).min(self.sum(&[(p, y), (q, x)]));
        if self.makes(Mistake::SmallerExchangeTold) {
            self.sum(&[(p, q), (x, y)]) - smaller
        } else {
            saving
        }
    }

    /// Test 4.
    fn found_by_exchanges(&self, k: &[Edge], legs: [Edge; 2]) -> Vec<Found> {
        let mut all = Vec::new();
        for leg in legs {
            for &edge in k {
                let saving = self.exchange_saving(edge, leg);
                if saving > 0 {
                    let lowest = vec![self.place(leg.0, leg.1), self.place(edge.0, edge.1)];
                    let mut told = [self.edge_told(low_high(leg)), self.edge_told(edge)];
                    if self.makes(Mistake::LineEdgeFirst) {
                        told.reverse();
                    }
                    let saving = self.exchange_told(edge, leg, saving);
                    all.push(found_saving(4, lowest, saving, format!("Exchanging {} and {}", told[0], told[1])));
                }
            }
        }
        all
    }

    /// Test 5: "the lowest such point, then the lowest edge".
    fn found_by_moves(&self, more: &[Edge]) -> Vec<Found> {
        let mut all = Vec::new();
        for w in 1..=self.n {
            let ends = other_ends(more, w);
            for &edge in more.iter().filter(|&&(u, v)| ends.len() == 2 && u != w && v != w) {
                let saving = self.move_saving(w, (ends[0], ends[1]), edge);
                if saving > 0 {
                    let (u, v) = low_high(edge);
                    let words = format!("Moving {w} between {u} and {v}");
                    all.push(found_saving(5, vec![w, self.place(u, v)], saving, words));
                }
            }
        }
        all
    }

    /// Of all that shuts a pair out, what is told.
    fn first_of(&self, mut all: Vec<Found>) -> Option<String> {
        all.sort();
        let last = all.last()?.test;
        let test = if self.makes(Mistake::LaterTestTold) { last } else { all[0].test };
        all.retain(|found| found.test == test);
        let higher = match test {
            1 => self.makes(Mistake::HigherStruckTold),
            4 => self.makes(Mistake::HigherLegTold),
            5 => self.makes(Mistake::HigherPointTold),
            _ => false,
        };
        if higher {
            all.reverse();
        }
        if self.makes(Mistake::LargerSavingTold) {
            all.sort_by_key(|found| -found.saving);
        }
        Some(all[0].words.clone())
    }

    /// Why the pair is shut out under K = {ab}, if it is.
    fn shut_out(&self, marks: &[u8], ab: Edge, c: usize, (x, y): Edge) -> Option<String> {
        let (k, legs) = ([ab], [(c, x), (c, y)]);
        let more = with(&with(&k, legs[0]), legs[1]);
        let mut all = self.found_by_edges(marks, legs, &more);
        all.extend(self.found_by_exchanges(&k, legs));
        all.extend(self.found_by_moves(&more));
        self.first_of(all).map(|words| words + " out")
    }

    /// What a crossing is said to be, by its record.
    fn crossing_told(&self, more: &[Edge], record: &[usize]) -> String {
        let [p, q, r, s] = [record[3], record[4], record[5], record[6]];
        let (xy, zw) = (other_ends(more, r), other_ends(more, s));
        let saving = self.crossing_saving([p, q, r, s], (xy[0], xy[1]), (zw[0], zw[1]));
        format!("Crossing {p}-{q} with centres {r} and {s} saves {saving} and settles")
    }

    /// What a new order is said to be, by its points.
    fn order_told(&self, more: &[Edge], (u, v): Edge, points: &[usize]) -> String {
        let length = |path: &[usize]| path.windows(2).map(|two| self.out(two[0], two[1])).sum::<i64>();
        let new = [&[u], points, &[v]].concat();
        let old = self.segment(more, u, v).unwrap_or_default();
        format!("New order {} saves {} and settles", dashes(&new), length(&old) - length(&new))
    }
}

/// The numbers of the records of a chain, from this one on.
fn chain(records: &[Vec<usize>], first: usize) -> Vec<usize> {
    let next = |&index: &usize| Some(records[index - 1][7]);
    let ended = |&index: &usize| index != 0;
    std::iter::successors(Some(first).filter(ended), |index| next(index).filter(ended)).collect()
}

/// The words for a pair that stands: those of the case that names it.
fn closing(board: &Board, records: &[Vec<usize>], line: usize, (x, y): Edge) -> Option<String> {
    let (a, b, c) = (records[line - 1][1], records[line - 1][2], records[line - 1][5]);
    let cases = chain(records, records[line - 1][6]);
    let case = cases.iter().map(|&index| &records[index - 1]).find(|case| (case[1], case[2]) == (x, y))?;
    let more = with(&with(&[(a, b)], (c, x)), (c, y));
    let points: Vec<usize> = match case[0] {
        4 => chain(records, case[6]).iter().map(|&index| records[index - 1][1]).collect(),
        _ => vec![],
    };
    Some(match case[0] {
        2 if board.makes(Mistake::OwnSplitTold) => format!("Further split at {c} settles"),
        2 => format!("Further split at {} settles", case[5]),
        3 => board.crossing_told(&more, case),
        _ => board.order_told(&more, (case[3], case[4]), &points),
    })
}

impl Naive {
    /// The number of the record asked for, or 8 with record 0.
    fn asked_record(&self, record: u32, count: usize) -> Result<usize, u64> {
        let index = match self.mistake {
            Some(Mistake::RecordZeroFirst) => record.max(1) as usize,
            Some(Mistake::RecordByLowBits) => record as usize % 65_536,
            _ => record as usize,
        };
        if index == 0 || index > count {
            return Err(8 + if self.makes(Mistake::AskedRecordNamed) { 256 * (record as u64 % 65_536) } else { 0 });
        }
        Ok(index)
    }

    /// The line as the first entered; the marks that it leaves.
    fn line_judged(&self, reader: &mut Reader, marks: &[u8], index: usize) -> Result<Vec<u8>, u64> {
        let mut left = marks.to_vec();
        let judged = reader.line(&mut left, marks, index).and_then(|next| match next {
            0 => Ok(()),
            _ if self.makes(Mistake::NextIndexTold) => reader.enter(index, next),
            _ => Ok(()),
        });
        judged.map(|()| left).map_err(|(number, record)| number + 256 * record as u64)
    }

    /// The sentences of an accepted line.
    fn sentences(&self, reader: &Reader, marks: &[u8], index: usize) -> String {
        let record = &reader.records[index - 1];
        let (ab, c) = ((record[1], record[2]), record[5]);
        let marks = pending_read_as(if self.makes(Mistake::PendingToldOpen) { 1 } else { 0 }, marks);
        let mut text = String::new();
        for x in (1..=reader.board.n).filter(|&x| x != c) {
            for y in (x + 1..=reader.board.n).filter(|&y| y != c) {
                let shut_out = reader.board.shut_out(&marks, ab, c, (x, y));
                let told = if shut_out.is_some() || self.makes(Mistake::StandingUntold) {
                    shut_out
                } else {
                    closing(&reader.board, &reader.records, index, (x, y))
                };
                if let Some(words) = told {
                    text.push_str(&format!("{words} {x} and {y} as neighbours of {c}.\n"));
                }
            }
        }
        text
    }

    /// 1, 2, 5, 6, 7, 8, the line's own, 22; 65,536 × the length.
    pub(super) fn reasons_told(
        &self,
        n: u32,
        table: &[u8],
        set: &[u8],
        sheet: &[u8],
        record: u32,
        text: &mut [u8],
    ) -> Result<u64, u64> {
        let (table, whole) = table_of(table);
        let marks = first_tests(self.mistake, n, &table, whole, set)?;
        let tested = if self.makes(Mistake::ToldPendingRefused) { marks.clone() } else { pending_read_as(0, &marks) };
        self.sheet_tests(&tested, sheet, false)?;
        let records = records(sheet);
        let index = self.asked_record(record, records.len())?;
        if text.is_empty() && self.makes(Mistake::BufferBeforeLine) {
            return Err(22);
        }
        let entered = vec![if self.makes(Mistake::FirstIsOne) { 1 } else { index }];
        let mut reader = Reader { board: Board::new(n as usize, &table, self.mistake), records, entered, strike: 0 };
        let left = self.line_judged(&mut reader, &marks, index)?;
        let seen = if self.makes(Mistake::LineToldStruck) { &left } else { &marks };
        let told = self.sentences(&reader, seen, index);
        self.write_told(told.as_bytes(), text)
    }

    fn write_told(&self, told: &[u8], text: &mut [u8]) -> Result<u64, u64> {
        if told.len() > text.len() {
            if self.makes(Mistake::ShortTextWritten) {
                text.copy_from_slice(&told[..text.len()]);
            }
            return Err(22);
        }
        if self.makes(Mistake::PastTextCleared) {
            text.fill(0);
        }
        text[..told.len()].copy_from_slice(told);
        Ok(65_536 * told.len() as u64)
    }
}
