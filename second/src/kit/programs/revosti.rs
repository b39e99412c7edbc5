//! Revosti through its archive and its program `mark`.

use std::io::Write;
use std::path::PathBuf;
use std::process::{Command, Stdio};

use crate::kit::programs::checker::Checker;

extern "C" {
    fn revosti_mark_sheet(
        n: u32,
        table: *const u8,
        table_len: usize,
        marks: *mut u8,
        marks_len: usize,
        sheet: *const u8,
        sheet_len: usize,
    ) -> u64;
    fn revosti_ask_sheet(
        n: u32,
        table: *const u8,
        table_len: usize,
        marks: *mut u8,
        marks_len: usize,
        sheet: *const u8,
        sheet_len: usize,
    ) -> u64;
    fn revosti_confirm(n: u32, marks: *mut u8, marks_len: usize) -> u64;
    fn revosti_withdraw(n: u32, marks: *mut u8, marks_len: usize) -> u64;
    fn revosti_check_tour(
        n: u32,
        table: *const u8,
        table_len: usize,
        marks: *const u8,
        marks_len: usize,
        tour: *const u8,
        tour_len: usize,
    ) -> u64;
    fn revosti_measure(
        n: u32,
        rule: u32,
        coordinates: *const u8,
        coordinates_len: usize,
        table: *mut u8,
        table_len: usize,
    ) -> u64;
    fn revosti_fresh_marks(n: u32, marks: *mut u8, marks_len: usize) -> u64;
    fn revosti_pack_marks(n: u32, bytes: *const u8, bytes_len: usize, packed: *mut u8, packed_len: usize) -> u64;
    fn revosti_unpack_marks(n: u32, packed: *const u8, packed_len: usize, bytes: *mut u8, bytes_len: usize) -> u64;
    fn revosti_list_pairs(
        n: u32,
        table: *const u8,
        table_len: usize,
        marks: *const u8,
        marks_len: usize,
        a: u16,
        b: u16,
        c: u16,
        list: *mut u8,
        list_len: usize,
    ) -> u64;
    fn revosti_mark_between(
        n: u32,
        low: *const u8,
        low_len: usize,
        high: *const u8,
        high_len: usize,
        marks: *mut u8,
        marks_len: usize,
        sheet: *const u8,
        sheet_len: usize,
    ) -> u64;
    fn revosti_list_between(
        n: u32,
        low: *const u8,
        low_len: usize,
        high: *const u8,
        high_len: usize,
        marks: *const u8,
        marks_len: usize,
        a: u16,
        b: u16,
        c: u16,
        list: *mut u8,
        list_len: usize,
    ) -> u64;
    fn revosti_exchange_saving(n: u32, table: *const u8, table_len: usize, p: u16, q: u16, x: u16, y: u16) -> i64;
    fn revosti_move_saving(n: u32, table: *const u8, table_len: usize, c: u16, x: u16, y: u16, u: u16, v: u16) -> i64;
    fn revosti_crossing_saving(
        n: u32,
        table: *const u8,
        table_len: usize,
        p: u16,
        q: u16,
        r: u16,
        s: u16,
        x: u16,
        y: u16,
        z: u16,
        w: u16,
    ) -> i64;
    fn revosti_release(slip: u64) -> u64;
    fn revosti_examiner_view(slip: u64, bytes: *mut u8, bytes_len: usize) -> u64;
    fn revosti_candidate_view(slip: u64, bytes: *mut u8, bytes_len: usize) -> u64;
    fn revosti_read_tsplib(text: *const u8, text_len: usize, table: *mut u8, table_len: usize) -> u64;
    fn revosti_tsplib_points(text: *const u8, text_len: usize) -> u64;
    fn revosti_write_page(
        n: u32,
        table: *const u8,
        table_len: usize,
        marks: *const u8,
        marks_len: usize,
        page: u32,
        text: *mut u8,
        text_len: usize,
    ) -> u64;
    fn revosti_read_page(
        n: u32,
        page: u32,
        text: *const u8,
        text_len: usize,
        table: *mut u8,
        table_len: usize,
        marks: *mut u8,
        marks_len: usize,
    ) -> u64;
    fn revosti_open_desks(desks: *mut u8, desks_len: usize) -> u64;
    fn revosti_hand_in(
        desks: *mut u8,
        desks_len: usize,
        desk: u32,
        n: u32,
        table: *const u8,
        table_len: usize,
        marks: *const u8,
        marks_len: usize,
        sheet: *const u8,
        sheet_len: usize,
    ) -> u64;
    fn revosti_next_desk(desks: *const u8, desks_len: usize) -> u64;
    fn revosti_turn(
        desks: *mut u8,
        desks_len: usize,
        n: u32,
        table: *const u8,
        table_len: usize,
        marks: *mut u8,
        marks_len: usize,
        sheet: *const u8,
        sheet_len: usize,
    ) -> u64;
    fn revosti_tell_line(
        n: u32,
        table: *const u8,
        table_len: usize,
        marks: *const u8,
        marks_len: usize,
        sheet: *const u8,
        sheet_len: usize,
        record: u32,
        text: *mut u8,
        text_len: usize,
    ) -> u64;
}

/// Revosti; `mark` is the program's path.
pub struct Revosti {
    pub mark: PathBuf,
}

impl Revosti {
    /// The program's path is in REVOSTI_MARK.
    pub fn from_environment() -> Self {
        Revosti { mark: std::env::var_os("REVOSTI_MARK").expect("REVOSTI_MARK names no program").into() }
    }
}

/// Marking or asking: the two functions have one shape.
type MarkOrAsk = unsafe extern "C" fn(u32, *const u8, usize, *mut u8, usize, *const u8, usize) -> u64;

fn mark_or_ask(function: MarkOrAsk, n: u32, table: &[u8], marks: &mut [u8], sheet: &[u8]) -> u64 {
    unsafe { function(n, table.as_ptr(), table.len(), marks.as_mut_ptr(), marks.len(), sheet.as_ptr(), sheet.len()) }
}

// Each call lends slices with their own lengths for its duration only.
impl Checker for Revosti {
    fn name(&self) -> &'static str {
        "revosti"
    }

    fn measure(&self, n: u32, rule: u32, coordinates: &[u8], table: &mut [u8]) -> u64 {
        unsafe { revosti_measure(n, rule, coordinates.as_ptr(), coordinates.len(), table.as_mut_ptr(), table.len()) }
    }

    fn fresh_marks(&self, n: u32, marks: &mut [u8]) -> u64 {
        unsafe { revosti_fresh_marks(n, marks.as_mut_ptr(), marks.len()) }
    }

    fn pack_marks(&self, n: u32, bytes: &[u8], packed: &mut [u8]) -> u64 {
        unsafe { revosti_pack_marks(n, bytes.as_ptr(), bytes.len(), packed.as_mut_ptr(), packed.len()) }
    }

    fn unpack_marks(&self, n: u32, packed: &[u8], bytes: &mut [u8]) -> u64 {
        unsafe { revosti_unpack_marks(n, packed.as_ptr(), packed.len(), bytes.as_mut_ptr(), bytes.len()) }
    }

    fn mark_sheet(&self, n: u32, table: &[u8], marks: &mut [u8], sheet: &[u8]) -> u64 {
        mark_or_ask(revosti_mark_sheet, n, table, marks, sheet)
    }

    fn ask_sheet(&self, n: u32, table: &[u8], marks: &mut [u8], sheet: &[u8]) -> u64 {
        mark_or_ask(revosti_ask_sheet, n, table, marks, sheet)
    }

    fn confirm(&self, n: u32, marks: &mut [u8]) -> u64 {
        unsafe { revosti_confirm(n, marks.as_mut_ptr(), marks.len()) }
    }

    fn withdraw(&self, n: u32, marks: &mut [u8]) -> u64 {
        unsafe { revosti_withdraw(n, marks.as_mut_ptr(), marks.len()) }
    }

    fn check_tour(&self, n: u32, table: &[u8], marks: &[u8], tour: &[u8]) -> u64 {
        unsafe {
            revosti_check_tour(n, table.as_ptr(), table.len(), marks.as_ptr(), marks.len(), tour.as_ptr(), tour.len())
        }
    }

    fn list_pairs(&self, n: u32, table: &[u8], marks: &[u8], [a, b, c]: [u16; 3], list: &mut [u8]) -> u64 {
        unsafe {
            revosti_list_pairs(
                n,
                table.as_ptr(),
                table.len(),
                marks.as_ptr(),
                marks.len(),
                a,
                b,
                c,
                list.as_mut_ptr(),
                list.len(),
            )
        }
    }

    fn mark_between(&self, n: u32, low: &[u8], high: &[u8], marks: &mut [u8], sheet: &[u8]) -> u64 {
        unsafe {
            revosti_mark_between(
                n,
                low.as_ptr(),
                low.len(),
                high.as_ptr(),
                high.len(),
                marks.as_mut_ptr(),
                marks.len(),
                sheet.as_ptr(),
                sheet.len(),
            )
        }
    }

    fn list_between(&self, n: u32, low: &[u8], high: &[u8], marks: &[u8], [a, b, c]: [u16; 3], list: &mut [u8]) -> u64 {
        unsafe {
            revosti_list_between(
                n,
                low.as_ptr(),
                low.len(),
                high.as_ptr(),
                high.len(),
                marks.as_ptr(),
                marks.len(),
                a,
                b,
                c,
                list.as_mut_ptr(),
                list.len(),
            )
        }
    }

    fn exchange_saving(&self, n: u32, table: &[u8], [p, q, x, y]: [u16; 4]) -> i64 {
        unsafe { revosti_exchange_saving(n, table.as_ptr(), table.len(), p, q, x, y) }
    }

    fn move_saving(&self, n: u32, table: &[u8], [c, x, y, u, v]: [u16; 5]) -> i64 {
        unsafe { revosti_move_saving(n, table.as_ptr(), table.len(), c, x, y, u, v) }
    }

    fn crossing_saving(&self, n: u32, table: &[u8], [p, q, r, s, x, y, z, w]: [u16; 8]) -> i64 {
        unsafe { revosti_crossing_saving(n, table.as_ptr(), table.len(), p, q, r, s, x, y, z, w) }
    }

    fn release(&self, slip: u64) -> u64 {
        unsafe { revosti_release(slip) }
    }

    fn examiner_view(&self, slip: u64, bytes: &mut [u8]) -> u64 {
        unsafe { revosti_examiner_view(slip, bytes.as_mut_ptr(), bytes.len()) }
    }

    fn candidate_view(&self, slip: u64, bytes: &mut [u8]) -> u64 {
        unsafe { revosti_candidate_view(slip, bytes.as_mut_ptr(), bytes.len()) }
    }

    fn read_tsplib(&self, text: &[u8], table: &mut [u8]) -> u64 {
        unsafe { revosti_read_tsplib(text.as_ptr(), text.len(), table.as_mut_ptr(), table.len()) }
    }

    fn tsplib_points(&self, text: &[u8]) -> u64 {
        unsafe { revosti_tsplib_points(text.as_ptr(), text.len()) }
    }

    fn write_page(&self, n: u32, table: &[u8], marks: &[u8], page: u32, text: &mut [u8]) -> u64 {
        unsafe {
            revosti_write_page(
                n,
                table.as_ptr(),
                table.len(),
                marks.as_ptr(),
                marks.len(),
                page,
                text.as_mut_ptr(),
                text.len(),
            )
        }
    }

    fn read_page(&self, n: u32, page: u32, text: &[u8], table: &mut [u8], marks: &mut [u8]) -> u64 {
        unsafe {
            revosti_read_page(
                n,
                page,
                text.as_ptr(),
                text.len(),
                table.as_mut_ptr(),
                table.len(),
                marks.as_mut_ptr(),
                marks.len(),
            )
        }
    }

    fn open_desks(&self, desks: &mut [u8]) -> u64 {
        unsafe { revosti_open_desks(desks.as_mut_ptr(), desks.len()) }
    }

    fn hand_in(&self, desks: &mut [u8], desk: u32, n: u32, table: &[u8], marks: &[u8], sheet: &[u8]) -> u64 {
        unsafe {
            revosti_hand_in(
                desks.as_mut_ptr(),
                desks.len(),
                desk,
                n,
                table.as_ptr(),
                table.len(),
                marks.as_ptr(),
                marks.len(),
                sheet.as_ptr(),
                sheet.len(),
            )
        }
    }

    fn next_desk(&self, desks: &[u8]) -> u64 {
        unsafe { revosti_next_desk(desks.as_ptr(), desks.len()) }
    }

    fn turn(&self, desks: &mut [u8], n: u32, table: &[u8], marks: &mut [u8], sheet: &[u8]) -> u64 {
        unsafe {
            revosti_turn(
                desks.as_mut_ptr(),
                desks.len(),
                n,
                table.as_ptr(),
                table.len(),
                marks.as_mut_ptr(),
                marks.len(),
                sheet.as_ptr(),
                sheet.len(),
            )
        }
    }

    fn tell_line(&self, n: u32, table: &[u8], marks: &[u8], sheet: &[u8], record: u32, text: &mut [u8]) -> u64 {
        unsafe {
            revosti_tell_line(
                n,
                table.as_ptr(),
                table.len(),
                marks.as_ptr(),
                marks.len(),
                sheet.as_ptr(),
                sheet.len(),
                record,
                text.as_mut_ptr(),
                text.len(),
            )
        }
    }

    /// Runs the program. It may stop reading early, so a broken pipe is no failure.
    fn program(&self, file: &[u8]) -> Vec<u8> {
        let mut child = Command::new(&self.mark)
            .stdin(Stdio::piped())
            .stdout(Stdio::piped())
            .spawn()
            .unwrap_or_else(|error| panic!("{}: {error}", self.mark.display()));
        let _ = child.stdin.take().unwrap().write_all(file);
        child.wait_with_output().unwrap().stdout
    }

    fn program_is_cheap(&self) -> bool {
        false
    }
}
