//! The answers for C over little-endian bytes (01, Layers and program; 02).

use crate::desks::{Desks, Lent, Turn};
use crate::marking::{self, Marked};
use crate::refusal::{Fault, Refusal};
use crate::slip::{self, Slip, View};
use crate::tsplib::{self, TextFault};
use crate::{lengths, listing, marks, packed, page, saving, telling, tour};

/// 32-bit entries; a length that is no whole number of entries becomes a wrong size.
pub fn entries(bytes: &[u8]) -> Vec<u32> {
    if bytes.len() % 4 != 0 {
        return Vec::new();
    }
    bytes.chunks_exact(4).map(|e| u32::from_le_bytes(e.try_into().unwrap())).collect()
}

/// 16-bit entries; a length that is no whole number of entries becomes a wrong size.
pub fn numbers(bytes: &[u8]) -> Vec<u16> {
    if bytes.len() % 2 != 0 {
        return Vec::new();
    }
    bytes.chunks_exact(2).map(|e| u16::from_le_bytes(e.try_into().unwrap())).collect()
}

/// The refusal number, or the answer.
fn number(answer: Result<u64, Refusal>) -> u64 {
    answer.unwrap_or_else(|refusal| u64::from(refusal.number()))
}

/// *Measure* for C: the refusal number or 0. On a refusal the table keeps its bytes.
pub fn measure(n: u32, rule: u32, coordinates: &[u8], table: &mut [u8]) -> u64 {
    let mut lengths = entries(table);
    number(lengths::measure(n, rule, &entries(coordinates), &mut lengths).map(|()| {
        write_entries(&lengths, table);
        0
    }))
}

/// Writes 32-bit entries.
fn write_entries(numbers: &[u32], bytes: &mut [u8]) {
    for (place, number) in bytes.chunks_exact_mut(4).zip(numbers) {
        place.copy_from_slice(&number.to_le_bytes());
    }
}

/// The refusal number plus 256 × its line, or 65,536 × n.
fn text_number(answer: Result<u32, TextFault>) -> u64 {
    answer.map_or_else(|fault| u64::from(fault.refusal.number()) + 256 * fault.line, |n| 65_536 * u64::from(n))
}

/// *Read a TSPLIB text* for C. On a refusal the table keeps its bytes.
pub fn read_tsplib(text: &[u8], table: &mut [u8]) -> u64 {
    let mut lengths = entries(table);
    text_number(tsplib::read_tsplib(text, &mut lengths).inspect(|_| write_entries(&lengths, table)))
}

/// The number of points of a TSPLIB text for C.
pub fn tsplib_points(text: &[u8]) -> u64 {
    text_number(tsplib::tsplib_points(text))
}

/// *Fresh marks* for C: the refusal number or 0.
pub fn fresh_marks(n: u32, marks: &mut [u8]) -> u64 {
    number(marks::fresh_marks(n, marks).map(|()| 0))
}

/// Packing a byte set for C: the refusal number or 0.
pub fn pack_marks(n: u32, bytes: &[u8], packed: &mut [u8]) -> u64 {
    number(packed::pack_marks(n, bytes, packed).map(|()| 0))
}

/// Unpacking a packed set for C: the refusal number or 0.
pub fn unpack_marks(n: u32, packed: &[u8], bytes: &mut [u8]) -> u64 {
    number(packed::unpack_marks(n, packed, bytes).map(|()| 0))
}

/// *List pairs* for C: the refusal number, or 65,536 × the number of pairs. The list's places are
/// its whole entries; bytes past the pairs stay.
pub fn list_pairs(n: u32, table: &[u8], marks: &[u8], [a, b, c]: [u16; 3], list: &mut [u8]) -> u64 {
    let table = entries(table);
    written(list, |places| listing::list_pairs(n, &table, marks, (a, b), c, places))
}

/// Writes the pairs that `listing` answers the number of.
fn written(list: &mut [u8], listing: impl FnOnce(&mut [u16]) -> Result<usize, Refusal>) -> u64 {
    let mut places = vec![0; list.len() / 2];
    number(listing(&mut places).map(|pairs| {
        for (place, point) in list.chunks_exact_mut(2).zip(&places[..2 * pairs]) {
            place.copy_from_slice(&point.to_le_bytes());
        }
        65_536 * pairs as u64
    }))
}

/// *List pairs* over two tables for C: the number of `list_pairs`.
pub fn list_between(n: u32, low: &[u8], high: &[u8], marks: &[u8], [a, b, c]: [u16; 3], list: &mut [u8]) -> u64 {
    let (low, high) = (entries(low), entries(high));
    written(list, |places| listing::list_between(n, (&low, &high), marks, (a, b), c, places))
}

/// The refusal number plus 256 × its record.
fn fault_number(fault: Fault) -> u64 {
    u64::from(fault.refusal.number()) + 256 * u64::from(fault.record)
}

/// "The refusal number or 0, plus 256 × the record, plus 16,777,216 × the lines accepted."
pub fn marking_number(marked: Marked) -> u64 {
    marked.fault.map_or(0, fault_number) + 16_777_216 * u64::from(marked.lines)
}

/// *Mark a sheet* for C.
pub fn mark_sheet(n: u32, table: &[u8], marks: &mut [u8], sheet: &[u8]) -> u64 {
    marking_number(marking::mark_sheet(n, &entries(table), marks, &numbers(sheet)))
}

/// *Mark a sheet* over two tables for C: the number of marking.
pub fn mark_between(n: u32, low: &[u8], high: &[u8], marks: &mut [u8], sheet: &[u8]) -> u64 {
    marking_number(marking::mark_between(n, (&entries(low), &entries(high)), marks, &numbers(sheet)))
}

/// *Ask a sheet* for C: the number of marking.
pub fn ask_sheet(n: u32, table: &[u8], marks: &mut [u8], sheet: &[u8]) -> u64 {
    marking_number(marking::ask_sheet(n, &entries(table), marks, &numbers(sheet)))
}

/// *Confirm* for C: the refusal number or 0.
pub fn confirm(n: u32, marks: &mut [u8]) -> u64 {
    number(marks::confirm(n, marks).map(|()| 0))
}

/// *Withdraw* for C: the refusal number or 0.
pub fn withdraw(n: u32, marks: &mut [u8]) -> u64 {
    number(marks::withdraw(n, marks).map(|()| 0))
}

/// *Check a tour* for C: "the refusal number alone, or 65,536 × the length, plus 256 if all
/// edges are open".
pub fn check_tour(n: u32, table: &[u8], marks: &[u8], tour: &[u8]) -> u64 {
    let checked = tour::check_tour(n, &entries(table), marks, &numbers(tour));
    number(checked.map(|answer| 65_536 * answer.length + 256 * u64::from(answer.all_open)))
}

/// A saving for C: the refusal number alone, or 65,536 × the saving.
fn saving_number(answer: Result<i64, Refusal>) -> i64 {
    answer.map_or_else(|refusal| i64::from(refusal.number()), |saving| 65_536 * saving)
}

/// The saving of an exchange for C.
pub fn exchange_saving(n: u32, table: &[u8], pqxy: [u16; 4]) -> i64 {
    saving_number(saving::exchange_saving(n, &entries(table), pqxy))
}

/// The saving of a move for C.
pub fn move_saving(n: u32, table: &[u8], cxyuv: [u16; 5]) -> i64 {
    saving_number(saving::move_saving(n, &entries(table), cxyuv))
}

/// The saving of a crossing for C.
pub fn crossing_saving(n: u32, table: &[u8], pqrsxyzw: [u16; 8]) -> i64 {
    saving_number(saving::crossing_saving(n, &entries(table), pqrsxyzw))
}

/// *Write a page* for C: the refusal number, or 65,536 × the text's length.
pub fn write_page(n: u32, table: &[u8], marks: &[u8], page: u32, text: &mut [u8]) -> u64 {
    number(page::write_page(n, &entries(table), marks, page, text).map(|size| 65_536 * size as u64))
}

/// *Read a page* for C: 27 + 256 × line, another refusal number, or 0. On a refusal the table keeps its bytes.
pub fn read_page(n: u32, page: u32, text: &[u8], table: &mut [u8], marks: &mut [u8]) -> u64 {
    let mut lengths = entries(table);
    match page::read_page(n, page, text, &mut lengths, marks) {
        Err((refusal, line)) => u64::from(refusal.number()) + 256 * line as u64,
        Ok(()) => {
            write_entries(&lengths, table);
            0
        }
    }
}

/// The bytes of the desks' state: numbers of 16 bits.
pub const DESKS_BYTES: usize = 2 * Desks::NUMBERS;

/// The first bytes, which hold the state, as desks; or 22.
pub fn read_desks(bytes: &[u8]) -> Result<Desks, Refusal> {
    let state = bytes.get(..DESKS_BYTES).ok_or(Refusal::Buffer)?;
    Ok(Desks::of(numbers(state).try_into().unwrap()))
}

/// Writes the three numbers of a desk; the other bytes stay.
pub fn write_desk(desks: &Desks, desk: usize, bytes: &mut [u8]) {
    let places = bytes[2..].chunks_exact_mut(2).skip(3 * (desk - 1));
    places.zip(desks.numbers(desk)).for_each(|(place, number)| place.copy_from_slice(&number.to_le_bytes()));
}

/// Writes what a turn has changed: the served desk's numbers, and the last desk served.
pub fn write_turn(desks: &Desks, turn: Turn, bytes: &mut [u8]) {
    bytes[..2].copy_from_slice(&(turn.desk as u16).to_le_bytes());
    write_desk(desks, turn.desk, bytes);
}

/// *Open desks* for C: the refusal number or 0.
pub fn open_desks(desks: &mut [u8]) -> u64 {
    number(desks.get_mut(..DESKS_BYTES).ok_or(Refusal::Buffer).map(|state| {
        state.fill(0);
        0
    }))
}

/// *Hand in* for C: the refusal number or 0.
pub fn hand_in(desks: &mut [u8], desk: u32, n: u32, table: &[u8], marks: &[u8], sheet: &[u8]) -> u64 {
    let (table, sheet) = (entries(table), numbers(sheet));
    number(read_desks(desks).and_then(|mut read| {
        let desk = read.hand_in(desk, Lent { n, table: &table, sheet: &sheet }, marks)?;
        write_desk(&read, desk, desks);
        Ok(0)
    }))
}

/// *Next desk* for C: the refusal number, or 65,536 × the desk, 0 where no desk has a line left.
pub fn next_desk(desks: &[u8]) -> u64 {
    number(read_desks(desks).map(|read| 65_536 * read.next_desk().unwrap_or(0) as u64))
}

/// The answer of marking so far, plus 2⁴⁸ × the desk, plus 2⁵⁶ if it has a line left; "with nothing left, only zeros".
pub fn turn_number(turn: Option<Turn>) -> u64 {
    turn.map_or(0, |turn| marking_number(turn.marked) + ((turn.desk as u64) << 48) + (u64::from(turn.line_left) << 56))
}

/// *Turn* for C.
pub fn turn(desks: &mut [u8], n: u32, table: &[u8], marks: &mut [u8], sheet: &[u8]) -> u64 {
    let (table, sheet) = (entries(table), numbers(sheet));
    number(read_desks(desks).map(|mut read| {
        let turn = read.turn(Lent { n, table: &table, sheet: &sheet }, marks);
        turn.iter().for_each(|&turn| write_turn(&read, turn, desks));
        turn_number(turn)
    }))
}

/// *Tell a line* for C: the refusal number + 256 × record, or 65,536 × the text's length.
pub fn tell_line(n: u32, table: &[u8], marks: &[u8], sheet: &[u8], record: u32, text: &mut [u8]) -> u64 {
    let told = telling::tell_line(n, &entries(table), marks, &numbers(sheet), record, text);
    told.map_or_else(fault_number, |size| 65_536 * size as u64)
}

/// Bit 40 of a slip.
const RELEASED: u64 = 1 << 40;

/// A slip for C: marking's number, "and released in bit 40"; bits above that are ignored.
pub fn slip_of(number: u64) -> Slip {
    Slip {
        refusal: number as u8,
        record: (number >> 8) as u16,
        lines: (number >> 24) as u16,
        released: number & RELEASED != 0,
    }
}

/// The number of a slip, with no bit above it.
pub fn slip_number(slip: Slip) -> u64 {
    let released = if slip.released { RELEASED } else { 0 };
    u64::from(slip.refusal) | u64::from(slip.record) << 8 | u64::from(slip.lines) << 24 | released
}

/// Releasing a slip for C: bit 40 is set, the rest stays.
pub fn release(slip: u64) -> u64 {
    slip_number(slip_of(slip).release()) | (slip >> 41) << 41
}

/// Writes a view for C: the refusal number or 0.
fn write_view(view: View, bytes: &mut [u8]) -> u64 {
    number(slip::write_view(view, bytes).map(|()| 0))
}

/// What the examiner sees, for C.
pub fn examiner_view(slip: u64, bytes: &mut [u8]) -> u64 {
    write_view(slip_of(slip).examiner_view(), bytes)
}

/// What the candidate sees, for C.
pub fn candidate_view(slip: u64, bytes: &mut [u8]) -> u64 {
    write_view(slip_of(slip).candidate_view(), bytes)
}
