//! The edge page (02, Paper 12): the wall list, written and read by its columns.

use std::ops::Range;

use crate::instance::Instance;
use crate::lengths::edge_count;
use crate::marks::{OPEN, PENDING, STRUCK};
use crate::packed::{mark, put_mark, some_pending};
use crate::refusal::Refusal;

/// "Pages of 60 lines."
pub const LINES: usize = 60;

/// "A line has 24 columns and a newline."
pub const BYTES: usize = 25;

/// The words of the three marks, with blanks to column 24.
const WORDS: [(u8, &[u8; 8]); 3] = [(OPEN, b"open    "), (PENDING, b"pending "), (STRUCK, b"struck  ")];

/// Why a page is not read: a refusal, with the line where it is 27.
pub type Unread = (Refusal, usize);

/// The places of a page's edges: 26 for page 0 and past the last.
pub fn places(n: u16, page: u32) -> Result<Range<usize>, Refusal> {
    let edges = edge_count(n);
    let first = (page as usize).checked_sub(1).ok_or(Refusal::Page)? * LINES;
    if first >= edges {
        return Err(Refusal::Page);
    }
    Ok(first..edges.min(first + LINES))
}

/// All edges, in edge order.
fn edges(n: u16) -> impl Iterator<Item = (u16, u16)> {
    (1..n).flat_map(move |a| (a + 1..=n).map(move |b| (a, b)))
}

/// A number right-aligned in its columns, which hold it.
fn put_number(columns: &mut [u8], mut number: u32) {
    columns.fill(b' ');
    for column in columns.iter_mut().rev() {
        *column = b'0' + (number % 10) as u8;
        number /= 10;
        if number == 0 {
            return;
        }
    }
}

/// The line of an edge.
pub fn line((a, b): (u16, u16), length: u32, mark: u8) -> [u8; BYTES] {
    let mut line = [b' '; BYTES];
    put_number(&mut line[..3], u32::from(a));
    put_number(&mut line[4..7], u32::from(b));
    put_number(&mut line[8..15], length);
    line[16..24].copy_from_slice(WORDS.iter().find(|word| word.0 == mark).unwrap().1);
    line[24] = b'\n';
    line
}

/// Writes a page: 1, 2, 5, 6, 26, 22. Answers how many bytes it has; those past it stay.
pub fn write_page(n: u32, table: &[u32], marks: &[u8], page: u32, text: &mut [u8]) -> Result<usize, Refusal> {
    let n = Instance::table_tests(n, table)?;
    some_pending(n, marks)?;
    let places = places(n, page)?;
    let size = BYTES * places.len();
    let text = text.get_mut(..size).ok_or(Refusal::Buffer)?;
    for ((place, edge), out) in edges(n).enumerate().skip(places.start).zip(text.chunks_exact_mut(BYTES)) {
        out.copy_from_slice(&line(edge, table[place], mark(marks, place)));
    }
    Ok(size)
}

/// The number that columns hold: blanks, then digits, the first of them not 0 but for 0 itself.
fn number(columns: &[u8]) -> Option<u32> {
    let blanks = columns.iter().take_while(|&&byte| byte == b' ').count();
    let digits = &columns[blanks..];
    let plain = digits.iter().all(u8::is_ascii_digit) && !digits.is_empty();
    if !plain || digits.len() > 1 && digits[0] == b'0' {
        return None;
    }
    Some(digits.iter().fold(0, |number, digit| 10 * number + u32::from(digit - b'0')))
}

/// The length and the mark of a line of this edge.
fn read_line(edge: (u16, u16), line: &[u8]) -> Option<(u32, u8)> {
    let points = number(line.get(..3)?)? == u32::from(edge.0) && number(line.get(4..7)?)? == u32::from(edge.1);
    let length = number(line.get(8..15)?)?;
    let mark = WORDS.iter().find(|word| line.get(16..24) == Some(word.1))?.0;
    let between = [line[3], line[7], line[15]] == [b' '; 3] && line.get(24) == Some(&b'\n');
    (points && between && length <= Instance::MOST_LENGTH).then_some((length, mark))
}

/// Reads a page into a table and a packed set: 1, 2, 6, 26, 27. Only its own edges change there.
pub fn read_page(n: u32, page: u32, text: &[u8], table: &mut [u32], marks: &mut [u8]) -> Result<(), Unread> {
    let tested = Instance::point_count(n).and_then(|n| {
        if table.len() != edge_count(n) {
            return Err(Refusal::TableSize);
        }
        some_pending(n, marks)?;
        Ok((n, places(n, page)?))
    });
    let (n, places) = tested.map_err(|refusal| (refusal, 0))?;
    let wrong = |line: usize| (Refusal::PageText, line + 1);
    let mut found = Vec::new();
    let mut lines = text.chunks(BYTES);
    for (i, edge) in edges(n).skip(places.start).take(places.len()).enumerate() {
        found.push(lines.next().and_then(|line| read_line(edge, line)).ok_or(wrong(i))?);
    }
    if lines.next().is_some() {
        return Err(wrong(places.len()));
    }
    for (place, (length, mark)) in places.zip(found) {
        table[place] = length;
        put_mark(marks, place, mark);
    }
    Ok(())
}
