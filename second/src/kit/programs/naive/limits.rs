//! Marking and listing over two tables, sentence by sentence from Paper 11.

use super::mistake::Mistake;
use super::rules::Board;
use super::sets::byte_set;
use super::{edge_count, limit, table_of, Naive};

/// Two tables and a byte set that have passed their tests.
struct Read {
    low: Vec<u32>,
    high: Vec<u32>,
    marks: Vec<u8>,
}

impl Naive {
    /// "A low length above its high one."
    fn low_above_high(&self, low: &[u32], high: &[u32]) -> bool {
        let equal = self.makes(Mistake::EqualRefused);
        low.iter().zip(high).any(|(low, high)| low > high || equal && low == high)
    }

    /// "Tests 2 and 5 read both", and then 25; the number of edges if all pass.
    fn limit_tests(&self, n: u32, low: &[u32], high: &[u32], whole: bool) -> Result<usize, u64> {
        let edges = edge_count(n)?;
        if !whole || low.len() != edges || high.len() != edges {
            return Err(2);
        }
        let most = limit(2_000_000, self.mistake, Mistake::LengthLimit);
        let long = |table: &[u32], untested| !self.makes(untested) && table.iter().any(|&l| u64::from(l) > most);
        let above = self.low_above_high(low, high);
        if above && self.makes(Mistake::LimitsBeforeLengths) {
            Err(25)
        } else if long(low, Mistake::LowEntryUntested) || long(high, Mistake::HighEntryUntested) {
            Err(5)
        } else if above && !self.makes(Mistake::LimitsAfterMarks) && !self.makes(Mistake::LimitsUntold) {
            Err(25)
        } else {
            Ok(edges)
        }
    }

    /// 1, 2, 5, 25, 6; what was read if all pass.
    fn between_tests(&self, n: u32, low: &[u8], high: &[u8], set: &[u8]) -> Result<Read, u64> {
        let ((low, low_whole), (high, high_whole)) = (table_of(low), table_of(high));
        let edges = self.limit_tests(n, &low, &high, low_whole && high_whole)?;
        let marks = byte_set(self.mistake, edges, set)?;
        if self.makes(Mistake::LimitsAfterMarks) && self.low_above_high(&low, &high) {
            return Err(25);
        }
        Ok(Read { low, high, marks })
    }

    pub fn mark_within(&self, n: u32, low: &[u8], high: &[u8], set: &mut [u8], sheet: &[u8]) -> Result<u64, u64> {
        let Read { low, high, marks } = self.between_tests(n, low, high, set)?;
        self.mark_or_ask_on(Board::between(n as usize, &low, &high, self.mistake), marks, set, sheet, false)
    }

    pub fn list_within(
        &self,
        n: u32,
        low: &[u8],
        high: &[u8],
        set: &[u8],
        abc: [u16; 3],
        list: &mut [u8],
    ) -> Result<u64, u64> {
        let Read { low, high, marks } = self.between_tests(n, low, high, set)?;
        self.list_on(Board::between(n as usize, &low, &high, self.mistake), &marks, abc, list)
    }
}
