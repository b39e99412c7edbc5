//! Edge pages, by writing out the whole wall list as Paper 12 says; a page is read by writing it out again.

use super::mistake::Mistake;
use super::rules::all_edges;
use super::sets::{self, byte_set};
use super::{edge_count, first_tests, table_of, Naive};

/// What stands on the wall for one edge.
fn line(a: usize, b: usize, length: &str, word: &str) -> String {
    format!("{a:>3} {b:>3} {length:>7} {word:<8}\n")
}

const WORDS: [&str; 3] = ["struck", "open", "pending"];

impl Naive {
    /// The places of a page, or 26.
    fn on_page(&self, edges: usize, page: u32) -> Result<Vec<usize>, u64> {
        let pages: Vec<Vec<usize>> = (0..edges).collect::<Vec<_>>().chunks(60).map(<[usize]>::to_vec).collect();
        let index = if self.makes(Mistake::PageZeroFirst) { page.max(1) } else { page };
        if index == 0 || index as usize > pages.len() {
            return Err(26);
        }
        Ok(pages[index as usize - 1].clone())
    }

    /// 1, 2, 5, 6, 26, 22; 65,536 × the length.
    pub(super) fn page_written(
        &self,
        n: u32,
        table: &[u8],
        set: &[u8],
        page: u32,
        text: &mut [u8],
    ) -> Result<u64, u64> {
        let (table, whole) = table_of(table);
        let marks = first_tests(self.mistake, n, &table, whole, set)?;
        let every = all_edges(n as usize);
        let list: String = self
            .on_page(every.len(), page)?
            .iter()
            .map(|&i| line(every[i].0, every[i].1, &table[i].to_string(), WORDS[usize::from(marks[i])]))
            .collect();
        if text.len() < list.len() {
            if self.makes(Mistake::ShortPageWritten) {
                text.copy_from_slice(&list.as_bytes()[..text.len()]);
            }
            return Err(22);
        }
        if self.makes(Mistake::PastPageCleared) {
            text.fill(0);
        }
        text[..list.len()].copy_from_slice(list.as_bytes());
        Ok(65_536 * list.len() as u64)
    }

    /// What a line tells, if it is written just so: length and mark.
    fn line_told(&self, a: usize, b: usize, bytes: &[u8]) -> Option<(u64, u8)> {
        let text = std::str::from_utf8(bytes).ok().filter(|text| text.len() == 25)?;
        let length: u64 =
            text.get(8..15)?.trim_start_matches(' ').parse().ok().filter(|&length| length <= 9_999_999)?;
        let limit = if self.makes(Mistake::LongLengthRead) { 9_999_999 } else { 2_000_000 };
        let shown = if self.makes(Mistake::LeadingZeroRead) { text[8..15].trim_start() } else { &length.to_string() };
        let mark = WORDS.iter().position(|&word| line(a, b, shown, word) == text)?;
        (length <= limit).then_some((length, mark as u8))
    }

    /// 1, 2, 6, 26, 27 + 256 × line.
    pub(super) fn page_read(
        &self,
        n: u32,
        page: u32,
        text: &[u8],
        table: &mut [u8],
        set: &mut [u8],
    ) -> Result<u64, u64> {
        let edges = edge_count(n)?;
        if table.len() != 4 * edges {
            return Err(2);
        }
        let mut marks = byte_set(self.mistake, edges, set)?;
        let every = all_edges(n as usize);
        let places = self.on_page(edges, page)?;
        let mut lengths: Vec<u64> = table_of(table).0.iter().map(|&length| u64::from(length)).collect();
        for (i, &place) in places.iter().enumerate() {
            let bytes = text.iter().skip(25 * i).take(25).copied().collect::<Vec<u8>>();
            let Some((length, mark)) = self.line_told(every[place].0, every[place].1, &bytes) else {
                return Err(27 + 256 * (i as u64 + 1));
            };
            let at = if self.makes(Mistake::NextEdgeChanged) { (place + 1) % edges } else { place };
            lengths[at] = length;
            marks[at] = mark;
        }
        if text.len() > 25 * places.len() && !self.makes(Mistake::SurplusPassed) {
            return Err(27 + 256 * (places.len() as u64 + if self.makes(Mistake::SurplusAsLast) { 0 } else { 1 }));
        }
        for (i, length) in lengths.iter().enumerate() {
            table[4 * i..4 * i + 4].copy_from_slice(&(*length as u32).to_le_bytes());
        }
        sets::write(self.mistake, &marks, set);
        Ok(0)
    }
}
