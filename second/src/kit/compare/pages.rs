//! Edge pages: written and read in three programs, good ones and damaged ones.

use super::{hex, Checked, Comparison};
use crate::bytes::entries;
use crate::kit::damage::sets::SetFault;
use crate::kit::generate::rng::Rng;
use crate::kit::generate::sets::{old_bytes, packed};
use crate::kit::met::coverage::Operation;
use crate::kit::met::pages::Met;
use crate::kit::programs::checker::Checker;
use crate::lengths::edge_count;
use crate::page::{BYTES, LINES};

/// Larger boards, now and then: 25, 40, 145 and 160 points have a last page of 60 lines, as 16 have.
const LARGER: [u16; 8] = [21, 25, 40, 60, 145, 160, 179, 180];

/// Damaged pages in a case.
const DAMAGED: usize = 12;

/// What a page is written from, or read into.
#[derive(Clone, Debug, PartialEq)]
struct Board {
    n: u32,
    table: Vec<u8>,
    marks: Vec<u8>,
}

impl Board {
    fn random(rng: &mut Rng, n: u16) -> Board {
        let length = |rng: &mut Rng| {
            let any = rng.below(2_000_001) as u32;
            rng.pick(&[0, 1, 9, 10, 99, 100, 999_999, 1_000_000, 1_999_999, 2_000_000, any, any])
        };
        let table = (0..edge_count(n)).flat_map(|_| length(rng).to_le_bytes()).collect();
        let marks = packed(&(0..edge_count(n)).map(|_| rng.below(3) as u8).collect::<Vec<u8>>());
        Board { n: u32::from(n), table, marks }
    }

    fn told(&self) -> String {
        super::hex_call(self.n, &self.table, &self.marks)
    }
}

impl Comparison<'_> {
    /// One board of each number of points in turn, by numbers of its own, so that the rest of a case stays as it is.
    pub fn pages(&mut self) -> Checked {
        let mut rng = Rng::new(self.seed ^ 0x5061_6765, self.case);
        let turn = (self.case % 18) as u16;
        let n = if turn < 17 { 4 + turn } else { rng.pick(&LARGER) };
        let board = Board::random(&mut rng, n);
        let last = edge_count(n).div_ceil(LINES) as u32;
        self.coverage.pages.points(n);
        self.page_numbers(&mut rng, &board, last)?;
        let mut pages = vec![1, last, rng.between(1, last as usize) as u32];
        pages.dedup();
        for page in pages {
            let lines = (edge_count(n) - LINES * (page as usize - 1)).min(LINES);
            let text = self.write_sizes(&mut rng, &board, page, BYTES * lines)?;
            self.coverage.pages.met(Met::Only, last == 1);
            self.coverage.pages.met(Met::First, page == 1 && last != 1);
            self.coverage.pages.met(Met::Last, page == last && last != 1);
            self.coverage.pages.met(Met::Between, page != 1 && page != last);
            self.coverage.pages.met(Met::FullLast, page == last && lines == LINES);
            let into = Board::random(&mut rng, n);
            self.read_own(&board, page, &text, &into)?;
            self.damages(&mut rng, page, last, &text, &into)?;
        }
        self.spoiled_pages(&mut rng, &board)?;
        self.all_pages(&mut rng, &board, last)
    }

    /// 26 at 0 and past the last.
    fn page_numbers(&mut self, rng: &mut Rng, board: &Board, last: u32) -> Checked {
        for (page, met) in [(0, Met::PageZero), (last + 1, Met::PagePast), (u32::MAX, Met::PageLargest)] {
            let mut text = old_bytes(rng, LINES * BYTES);
            let written = self.write(board, page, &mut text)?;
            let read = self.read(&mut board.clone(), page, &text)?;
            self.coverage.pages.met(met, [written, read] == [26, 26]);
            let full = edge_count(board.n as u16) % LINES == 0;
            self.coverage.pages.met(Met::PagePastFull, met == Met::PagePast && full && [written, read] == [26, 26]);
        }
        Ok(())
    }

    /// A page in a buffer a byte too short, of its size and longer. Answers its text.
    fn write_sizes(
        &mut self,
        rng: &mut Rng,
        board: &Board,
        page: u32,
        size: usize,
    ) -> Result<Vec<u8>, super::Difference> {
        let mut short = old_bytes(rng, size - 1);
        let answer = self.write(board, page, &mut short)?;
        self.coverage.pages.met(Met::OneByteTooFew, answer == 22);
        let mut exact = old_bytes(rng, size);
        let answer = self.write(board, page, &mut exact)?;
        self.coverage.pages.met(Met::ExactBuffer, answer == 65_536 * size as u64);
        let more = rng.between(1, 30);
        let mut longer = old_bytes(rng, size + more);
        let before = longer.clone();
        let answer = self.write(board, page, &mut longer)?;
        self.coverage.pages.met(Met::BytesPast, answer == 65_536 * size as u64);
        if longer[..size] != exact || longer[size..] != before[size..] {
            return Err(self.difference("write a page, bytes past it", board.told()));
        }
        Ok(exact)
    }

    /// Reading a page sets exactly its edges to what was written.
    fn read_own(&mut self, board: &Board, page: u32, text: &[u8], into: &Board) -> Checked {
        let mut left = into.clone();
        let answer = self.read(&mut left, page, text)?;
        let (old, new, got) = (entries(&into.table), entries(&board.table), entries(&left.table));
        let own = |place: usize| place / LINES == page as usize - 1;
        let mark = |set: &[u8], place: usize| crate::packed::mark(set, place);
        let right = (0..new.len()).all(|place| {
            let from = if own(place) { (new[place], &board.marks) } else { (old[place], &into.marks) };
            got[place] == from.0 && mark(&left.marks, place) == mark(from.1, place)
        });
        if answer != 0 || !right {
            return Err(self.difference("read a page, its own edges", board.told() + &format!("page {page}\n")));
        }
        Ok(())
    }

    /// Columns damaged, lines missing, cut, surplus, and made anew.
    fn damages(&mut self, rng: &mut Rng, page: u32, last: u32, text: &[u8], into: &Board) -> Checked {
        let lines = text.len() / BYTES;
        for turn in 0..DAMAGED {
            let line = if rng.chance(40) { rng.pick(&[0, lines - 1]) } else { rng.below(lines) };
            let column = (self.case as usize * DAMAGED + turn) % BYTES;
            let mut damaged = text.to_vec();
            let at = BYTES * line + column;
            damaged[at] = rng.pick(&[0, b' ', b'0', b'1', b'9', b'\n', b'\r', b'+', b'o', b'p', b's', b'x', 160, 255]);
            let answer = self.read(&mut into.clone(), page, &damaged)?;
            if answer == 27 + 256 * (line as u64 + 1) {
                self.coverage.pages.column(column);
            }
        }
        let cut = rng.below(text.len());
        let answer = self.read(&mut into.clone(), page, &text[..cut])?;
        self.coverage.pages.met(Met::LineCut, cut % BYTES != 0 && answer == 27 + 256 * (cut / BYTES + 1) as u64);
        for (size, met) in [(0, Met::NoText), (text.len() - BYTES, Met::LineMissing), (text.len() - 1, Met::NewlineCut)]
        {
            let answer = self.read(&mut into.clone(), page, &text[..size])?;
            self.coverage.pages.met(met, answer == 27 + 256 * (size / BYTES + 1) as u64);
        }
        let line = rng.below(lines);
        let without = [&text[..BYTES * line], &text[BYTES * (line + 1)..]].concat();
        let answer = self.read(&mut into.clone(), page, &without)?;
        self.coverage.pages.met(Met::LineLeftOut, line + 1 < lines && answer == 27 + 256 * (line as u64 + 1));
        for (more, met) in [(BYTES, Met::LineSurplus), (1, Met::ByteSurplus)] {
            let longer = [text, &text[text.len() - more..]].concat();
            let answer = self.read(&mut into.clone(), page, &longer)?;
            self.coverage.pages.met(met, answer == 27 + 256 * (lines as u64 + 1));
        }
        let line = rng.below(lines);
        for (field, met) in
            [(&b"2000001"[..], Met::LongLength), (b"0000000", Met::LeadingZero), (b"     07", Met::LeadingZero)]
        {
            let mut other = text.to_vec();
            other[BYTES * line + 8..BYTES * line + 15].copy_from_slice(field);
            let answer = self.read(&mut into.clone(), page, &other)?;
            self.coverage.pages.met(met, answer == 27 + 256 * (line as u64 + 1));
        }
        let other = if page == last { page - 1 } else { page + 1 };
        let answer = self.read(&mut into.clone(), other, text)?;
        self.coverage.pages.met(Met::OtherPage, other != 0 && answer == 27 + 256);
        Ok(())
    }

    /// Another n, a wrong size, a length above its limit, a faulty set; each alone and beside another page number.
    fn spoiled_pages(&mut self, rng: &mut Rng, board: &Board) -> Checked {
        let mut boards = vec![board.clone(); 5];
        boards[0].n = rng.pick(&[0, 3, 181, u32::MAX, board.n + 1, board.n - 1]);
        boards[1].table.truncate(board.table.len() - rng.pick(&[1, 4]));
        boards[2].table.extend([0; 4]);
        boards[3].table[..4].copy_from_slice(&2_000_001u32.to_le_bytes());
        let faults = SetFault::with(board.n as u16);
        rng.pick(&faults).make(rng, board.n as u16, &mut boards[4].marks);
        for mut spoiled in boards {
            let page = rng.pick(&[0, 1, 1, 2]);
            let size = LINES * BYTES - rng.below(2);
            let mut text = old_bytes(rng, size);
            self.write(&spoiled, page, &mut text)?;
            self.read(&mut spoiled, page, &text)?;
        }
        Ok(())
    }

    /// "Reading all pages of an instance yields its lengths and marks again."
    fn all_pages(&mut self, rng: &mut Rng, board: &Board, last: u32) -> Checked {
        let mut left = Board { table: old_bytes(rng, board.table.len()), ..Board::random(rng, board.n as u16) };
        for page in 1..=last {
            let mut text = vec![0; LINES * BYTES];
            let size = (self.one.write_page(board.n, &board.table, &board.marks, page, &mut text) >> 16) as usize;
            self.one.read_page(left.n, page, &text[..size], &mut left.table, &mut left.marks);
        }
        self.coverage.pages.met(Met::AllPages, true);
        if left != *board {
            return Err(self.difference("all pages read again", board.told()));
        }
        Ok(())
    }

    /// A page written in three programs: the number, and every byte that was lent.
    fn write(&mut self, board: &Board, page: u32, text: &mut Vec<u8>) -> Result<u64, super::Difference> {
        let lent = text.clone();
        let [one, other, naive] = [self.one, self.other, self.naive].map(|checker| {
            let mut bytes = lent.clone();
            (checker.write_page(board.n, &board.table, &board.marks, page, &mut bytes), bytes)
        });
        self.coverage.number(Operation::WritePage, one.0 % 256);
        let told = || board.told() + &format!("page {page} text {}\n", hex(&lent));
        self.same("write a page", &one, &other, told)?;
        self.same_as("write a page", &one, ("naive", &naive), told)?;
        if one.0 % 256 != 0 && one.1 != lent {
            return Err(self.difference("write a page, refused", told()));
        }
        *text = one.1;
        Ok(one.0)
    }

    /// A page read in three programs: the number, the table and the set.
    fn read(&mut self, board: &mut Board, page: u32, text: &[u8]) -> Result<u64, super::Difference> {
        let before = board.clone();
        let [one, other, naive] = [self.one, self.other, self.naive].map(|checker: &dyn Checker| {
            let mut left = before.clone();
            (checker.read_page(left.n, page, text, &mut left.table, &mut left.marks), left)
        });
        self.coverage.number(Operation::ReadPage, one.0 % 256);
        let told = || before.told() + &format!("page {page} text {}\n", hex(text));
        self.same("read a page", &one, &other, told)?;
        self.same_as("read a page", &one, ("naive", &naive), told)?;
        if one.0 != 0 && one.1 != before {
            return Err(self.difference("read a page, refused", told()));
        }
        *board = one.1;
        Ok(one.0)
    }
}
