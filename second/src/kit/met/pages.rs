//! Which pages were met, and which damages of them.

use std::fmt;

use crate::page::BYTES;

/// What a comparison has to meet of pages, beside each number of points and each column.
#[derive(Clone, Copy, Debug, PartialEq, Eq)]
pub enum Met {
    /// Pages written and read: the only one; of several the first, the last and one between; a last one of 60 lines.
    Only,
    First,
    Last,
    Between,
    FullLast,
    /// Buffers that a page is written to.
    ExactBuffer,
    BytesPast,
    OneByteTooFew,
    /// 26 for page 0, for the page past the last, past a last one of 60 lines, too, and for the largest number.
    PageZero,
    PagePast,
    PagePastFull,
    PageLargest,
    /// 27 for no text, for a text without its last line or without an earlier one, for one that ends within a line or
    /// before its last newline, for a line too many and for a byte too many.
    NoText,
    LineMissing,
    LineLeftOut,
    LineCut,
    NewlineCut,
    LineSurplus,
    ByteSurplus,
    /// 27 for a length above the limit, with leading zeros, and for another page's text.
    LongLength,
    LeadingZero,
    OtherPage,
    /// All pages read into another table and other marks.
    AllPages,
}

use Met::*;

const NAMES: [(Met, &str); 23] = [
    (Only, "only pages"),
    (First, "first pages of several"),
    (Last, "last pages of several"),
    (Between, "pages between the first and the last"),
    (FullLast, "last pages of 60 lines"),
    (ExactBuffer, "pages in a buffer of their size"),
    (BytesPast, "pages with bytes past them"),
    (OneByteTooFew, "pages refused by 22 for one byte"),
    (PageZero, "page 0"),
    (PagePast, "the page past the last"),
    (PagePastFull, "the page past a last one of 60 lines"),
    (PageLargest, "the largest page number"),
    (NoText, "pages without a byte"),
    (LineMissing, "pages without their last line"),
    (LineLeftOut, "pages without an earlier line"),
    (LineCut, "pages that end within a line"),
    (NewlineCut, "pages without their last newline"),
    (LineSurplus, "pages with a line too many"),
    (ByteSurplus, "pages with a byte too many"),
    (LongLength, "pages with a length above the limit"),
    (LeadingZero, "pages with a leading zero"),
    (OtherPage, "another page's text"),
    (AllPages, "all pages of a board, read again"),
];

/// The numbers of points that every page is compared for.
pub const POINTS: std::ops::RangeInclusive<u16> = 4..=20;

#[derive(Clone, Default)]
pub struct PagesMet {
    times: [u64; NAMES.len()],
    points: [u64; 21],
    columns: [u64; BYTES],
}

impl PagesMet {
    pub fn met(&mut self, what: Met, holds: bool) {
        self.times[what as usize] += u64::from(holds);
    }

    pub fn points(&mut self, n: u16) {
        if let Some(times) = self.points.get_mut(usize::from(n)) {
            *times += 1;
        }
    }

    /// A damaged column of a line, from 0.
    pub fn column(&mut self, column: usize) {
        self.columns[column] += 1;
    }

    /// What was never met.
    pub fn missing(&self) -> Vec<String> {
        let unmet = NAMES.iter().filter(|&&(what, _)| self.times[what as usize] == 0);
        let mut missing: Vec<String> = unmet.map(|(_, name)| name.to_string()).collect();
        let unmet = POINTS.filter(|&n| self.points[usize::from(n)] == 0);
        missing.extend(unmet.map(|n| format!("pages of {n} points")));
        let unmet = (0..BYTES).filter(|&column| self.columns[column] == 0);
        missing.extend(unmet.map(|column| format!("pages damaged in column {}", column + 1)));
        missing
    }
}

impl fmt::Display for PagesMet {
    fn fmt(&self, f: &mut fmt::Formatter) -> fmt::Result {
        NAMES.iter().try_for_each(|&(what, name)| writeln!(f, "{name}: {}", self.times[what as usize]))
    }
}
