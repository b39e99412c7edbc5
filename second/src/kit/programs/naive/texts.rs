//! TSPLIB texts read naively: the line told by conditions over all lines up to it, then tests 1 to 5.

use super::language::{by_row, count, heading, in_order, instance, once, pairs, rows, Instance, Line};
use super::{limit, Mistake, Naive};
use crate::kit::programs::checker::Checker;

/// The whole lines of a text, without their newlines, and what is left behind the last newline.
pub fn whole_lines(text: &[u8]) -> (Vec<&[u8]>, &[u8]) {
    let mut lines: Vec<&[u8]> = text.split(|&byte| byte == b'\n').collect();
    let rest = lines.pop().unwrap();
    (lines, rest)
}

/// What the lines from the section on say: the section and data, of which there may be more to come.
fn body_begins(mistake: Option<Mistake>, (n, rule): (u64, Option<u32>), section: &Line, body: &[&Line]) -> bool {
    let eof = body.iter().position(|line| **line == Line::Eof);
    let Some(rows) = rows(mistake, &body[..eof.unwrap_or(body.len())]) else { return false };
    let total = rows.iter().map(|row| row.len() as u64).sum::<u64>();
    let surplus = mistake == Some(Mistake::WeightPastTheCount);
    let (within, complete) = match (section, rule) {
        (Line::NodeSection, Some(_)) => (rows.len() as u64 <= n && in_order(mistake, &rows), rows.len() as u64 == n),
        (Line::WeightSection, None) => ((total <= pairs(n) || surplus) && by_row(mistake, n, &rows), total >= pairs(n)),
        _ => (false, false),
    };
    within && eof.is_none_or(|at| complete && at + 1 == body.len())
}

/// Whether some text begins with these lines.
fn begins(mistake: Option<Mistake>, lines: &[&Line]) -> bool {
    let section = lines.iter().position(|line| line.is_section());
    let head = &lines[..section.unwrap_or(lines.len())];
    let coordinates = count(head, |line| matches!(line, Line::Rule(_))) > 0;
    let format = count(head, |line| *line == Line::UpperRow) > 0;
    let clash = coordinates && format && mistake != Some(Mistake::FormatWithCoordinates);
    let Some(at) = section else { return once(mistake, head) && !clash };
    heading(mistake, head).is_some_and(|known| body_begins(mistake, known, lines[at], &lines[at + 1..]))
}

impl Naive {
    /// What a text holds, or 19 and its line as C is told.
    fn text(&self, text: &[u8]) -> Result<Instance, u64> {
        let (mut whole, mut rest) = whole_lines(text);
        if self.makes(Mistake::NewlineMissing) && !rest.is_empty() {
            whole.push(rest);
            rest = b"";
        }
        let mut said: Vec<Line> = whole.iter().map(|line| Line::said(self.mistake, line)).collect();
        if let Some(at) = said.iter().position(|line| *line == Line::Eof).filter(|_| self.makes(Mistake::BehindEof)) {
            said.truncate(at + 1);
            rest = b"";
        }
        let lines: Vec<&Line> = said.iter().collect();
        if let Some(instance) = instance(self.mistake, &lines).filter(|_| rest.is_empty()) {
            return Ok(instance);
        }
        let counts: Vec<usize> = (1..=lines.len()).collect();
        let good = counts.partition_point(|&count| begins(self.mistake, &lines[..count])) as u64;
        Err(self.told(good, &lines))
    }

    /// 19 at the line after so many good ones.
    fn told(&self, good: u64, lines: &[&Line]) -> u64 {
        let last = self.makes(Mistake::LastLineTold) && good == lines.len() as u64 && good > 0;
        let late = self.makes(Mistake::LineToldLate) && good < lines.len() as u64;
        let dimension = lines.iter().find_map(|line| if let Line::Dimension(n) = line { Some(*n) } else { None });
        if self.makes(Mistake::PointsBeforeText) && dimension.is_some_and(|n| !(4..=180).contains(&n)) {
            return 1;
        }
        19 + 256 * (good + 1 + u64::from(late) - u64::from(last))
    }

    pub(super) fn read(&self, text: &[u8], table: &mut [u8]) -> Result<u64, u64> {
        let Instance { n, rule, numbers } = self.text(text)?;
        if n < 4 || n > 180 {
            return Err(1);
        }
        let number = n as u32;
        let sized = table.len() as u64 == 4 * pairs(n);
        let bytes: Vec<u8> = numbers.iter().flat_map(|&value| (value as u32).to_le_bytes()).collect();
        let most = limit(2_000_000, self.mistake, Mistake::LengthLimit);
        let long =
            rule.is_none() && numbers.iter().any(|&weight| weight > most) && !self.makes(Mistake::WeightLimitUntested);
        if long && self.makes(Mistake::LengthsBeforeSize) {
            return Err(5);
        }
        if !sized {
            return Err(2);
        }
        if let Some(rule) = rule {
            return if let 0 = self.measure(number, rule, &bytes, table) { Ok(n) } else { Err(4) };
        }
        if !long || self.makes(Mistake::WeightsWrittenFirst) {
            table.copy_from_slice(&bytes[..table.len()]);
        }
        if long {
            Err(5)
        } else {
            Ok(n)
        }
    }

    pub(super) fn points(&self, text: &[u8]) -> Result<u64, u64> {
        let n = self.text(text)?.n;
        if self.makes(Mistake::PointsTested) && !(4..=180).contains(&n) {
            return Err(1);
        }
        Ok(n)
    }
}
