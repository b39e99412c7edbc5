//! What a program under comparison answers. Numbers are those that C sees.

/// One program: the second, the naive one, or Revosti.
pub trait Checker {
    fn name(&self) -> &'static str;
    /// The refusal number or 0.
    fn measure(&self, n: u32, rule: u32, coordinates: &[u8], table: &mut [u8]) -> u64;
    /// The refusal number or 0.
    fn fresh_marks(&self, n: u32, marks: &mut [u8]) -> u64;
    /// The refusal number or 0.
    fn pack_marks(&self, n: u32, bytes: &[u8], packed: &mut [u8]) -> u64;
    /// The refusal number or 0.
    fn unpack_marks(&self, n: u32, packed: &[u8], bytes: &mut [u8]) -> u64;
    /// 01's 64-bit number for marking.
    fn mark_sheet(&self, n: u32, table: &[u8], marks: &mut [u8], sheet: &[u8]) -> u64;
    /// The same number for asking.
    fn ask_sheet(&self, n: u32, table: &[u8], marks: &mut [u8], sheet: &[u8]) -> u64;
    /// The refusal number or 0.
    fn confirm(&self, n: u32, marks: &mut [u8]) -> u64;
    /// The refusal number or 0.
    fn withdraw(&self, n: u32, marks: &mut [u8]) -> u64;
    /// 01's 64-bit number for a tour.
    fn check_tour(&self, n: u32, table: &[u8], marks: &[u8], tour: &[u8]) -> u64;
    /// The refusal number, or 65,536 × the number of pairs.
    fn list_pairs(&self, n: u32, table: &[u8], marks: &[u8], abc: [u16; 3], list: &mut [u8]) -> u64;
    /// The number of `mark_sheet`, over two tables.
    fn mark_between(&self, n: u32, low: &[u8], high: &[u8], marks: &mut [u8], sheet: &[u8]) -> u64;
    /// The number of `list_pairs`, over two tables.
    fn list_between(&self, n: u32, low: &[u8], high: &[u8], marks: &[u8], abc: [u16; 3], list: &mut [u8]) -> u64;
    /// The refusal number alone, or 65,536 × the saving; p, q, x, y.
    fn exchange_saving(&self, n: u32, table: &[u8], pqxy: [u16; 4]) -> i64;
    /// The same; c, x, y, u, v.
    fn move_saving(&self, n: u32, table: &[u8], cxyuv: [u16; 5]) -> i64;
    /// The same; p, q, r, s, x, y, z, w.
    fn crossing_saving(&self, n: u32, table: &[u8], pqrsxyzw: [u16; 8]) -> i64;
    /// The slip, released.
    fn release(&self, slip: u64) -> u64;
    /// The refusal number or 0.
    fn examiner_view(&self, slip: u64, bytes: &mut [u8]) -> u64;
    /// The refusal number or 0.
    fn candidate_view(&self, slip: u64, bytes: &mut [u8]) -> u64;
    /// 19 plus 256 × its line, another refusal number, or 65,536 × n.
    fn read_tsplib(&self, text: &[u8], table: &mut [u8]) -> u64;
    /// 19 plus 256 × its line, or 65,536 × n.
    fn tsplib_points(&self, text: &[u8]) -> u64;
    /// The refusal number, or 65,536 × the text's length.
    fn write_page(&self, n: u32, table: &[u8], marks: &[u8], page: u32, text: &mut [u8]) -> u64;
    /// 27 + 256 × line, another refusal number, or 0.
    fn read_page(&self, n: u32, page: u32, text: &[u8], table: &mut [u8], marks: &mut [u8]) -> u64;
    /// The refusal number or 0.
    fn open_desks(&self, desks: &mut [u8]) -> u64;
    /// The refusal number or 0.
    fn hand_in(&self, desks: &mut [u8], desk: u32, n: u32, table: &[u8], marks: &[u8], sheet: &[u8]) -> u64;
    /// The refusal number, or 65,536 × the desk.
    fn next_desk(&self, desks: &[u8]) -> u64;
    /// 22, 0, or the number of `mark_sheet` plus 2⁴⁸ × the desk, plus 2⁵⁶ if it has a line left.
    fn turn(&self, desks: &mut [u8], n: u32, table: &[u8], marks: &mut [u8], sheet: &[u8]) -> u64;
    /// The refusal number + 256 × record, or 65,536 × the text's length.
    fn tell_line(&self, n: u32, table: &[u8], marks: &[u8], sheet: &[u8], record: u32, text: &mut [u8]) -> u64;
    /// What `mark` prints for a file.
    fn program(&self, file: &[u8]) -> Vec<u8>;
    /// Whether every program text is compared, or a sample only because each starts a process.
    fn program_is_cheap(&self) -> bool {
        true
    }
}

/// The second program.
pub struct Second;

impl Checker for Second {
    fn name(&self) -> &'static str {
        "second"
    }

    fn measure(&self, n: u32, rule: u32, coordinates: &[u8], table: &mut [u8]) -> u64 {
        crate::bytes::measure(n, rule, coordinates, table)
    }

    fn fresh_marks(&self, n: u32, marks: &mut [u8]) -> u64 {
        crate::bytes::fresh_marks(n, marks)
    }

    fn pack_marks(&self, n: u32, bytes: &[u8], packed: &mut [u8]) -> u64 {
        crate::bytes::pack_marks(n, bytes, packed)
    }

    fn unpack_marks(&self, n: u32, packed: &[u8], bytes: &mut [u8]) -> u64 {
        crate::bytes::unpack_marks(n, packed, bytes)
    }

    fn mark_sheet(&self, n: u32, table: &[u8], marks: &mut [u8], sheet: &[u8]) -> u64 {
        crate::bytes::mark_sheet(n, table, marks, sheet)
    }

    fn ask_sheet(&self, n: u32, table: &[u8], marks: &mut [u8], sheet: &[u8]) -> u64 {
        crate::bytes::ask_sheet(n, table, marks, sheet)
    }

    fn confirm(&self, n: u32, marks: &mut [u8]) -> u64 {
        crate::bytes::confirm(n, marks)
    }

    fn withdraw(&self, n: u32, marks: &mut [u8]) -> u64 {
        crate::bytes::withdraw(n, marks)
    }

    fn check_tour(&self, n: u32, table: &[u8], marks: &[u8], tour: &[u8]) -> u64 {
        crate::bytes::check_tour(n, table, marks, tour)
    }

    fn list_pairs(&self, n: u32, table: &[u8], marks: &[u8], abc: [u16; 3], list: &mut [u8]) -> u64 {
        crate::bytes::list_pairs(n, table, marks, abc, list)
    }

    fn mark_between(&self, n: u32, low: &[u8], high: &[u8], marks: &mut [u8], sheet: &[u8]) -> u64 {
        crate::bytes::mark_between(n, low, high, marks, sheet)
    }

    fn list_between(&self, n: u32, low: &[u8], high: &[u8], marks: &[u8], abc: [u16; 3], list: &mut [u8]) -> u64 {
        crate::bytes::list_between(n, low, high, marks, abc, list)
    }

    fn exchange_saving(&self, n: u32, table: &[u8], pqxy: [u16; 4]) -> i64 {
        crate::bytes::exchange_saving(n, table, pqxy)
    }

    fn move_saving(&self, n: u32, table: &[u8], cxyuv: [u16; 5]) -> i64 {
        crate::bytes::move_saving(n, table, cxyuv)
    }

    fn crossing_saving(&self, n: u32, table: &[u8], pqrsxyzw: [u16; 8]) -> i64 {
        crate::bytes::crossing_saving(n, table, pqrsxyzw)
    }

    fn release(&self, slip: u64) -> u64 {
        crate::bytes::release(slip)
    }

    fn examiner_view(&self, slip: u64, bytes: &mut [u8]) -> u64 {
        crate::bytes::examiner_view(slip, bytes)
    }

    fn candidate_view(&self, slip: u64, bytes: &mut [u8]) -> u64 {
        crate::bytes::candidate_view(slip, bytes)
    }

    fn read_tsplib(&self, text: &[u8], table: &mut [u8]) -> u64 {
        crate::bytes::read_tsplib(text, table)
    }

    fn tsplib_points(&self, text: &[u8]) -> u64 {
        crate::bytes::tsplib_points(text)
    }

    fn write_page(&self, n: u32, table: &[u8], marks: &[u8], page: u32, text: &mut [u8]) -> u64 {
        crate::bytes::write_page(n, table, marks, page, text)
    }

    fn read_page(&self, n: u32, page: u32, text: &[u8], table: &mut [u8], marks: &mut [u8]) -> u64 {
        crate::bytes::read_page(n, page, text, table, marks)
    }

    fn open_desks(&self, desks: &mut [u8]) -> u64 {
        crate::bytes::open_desks(desks)
    }

    fn hand_in(&self, desks: &mut [u8], desk: u32, n: u32, table: &[u8], marks: &[u8], sheet: &[u8]) -> u64 {
        crate::bytes::hand_in(desks, desk, n, table, marks, sheet)
    }

    fn next_desk(&self, desks: &[u8]) -> u64 {
        crate::bytes::next_desk(desks)
    }

    fn turn(&self, desks: &mut [u8], n: u32, table: &[u8], marks: &mut [u8], sheet: &[u8]) -> u64 {
        crate::bytes::turn(desks, n, table, marks, sheet)
    }

    fn tell_line(&self, n: u32, table: &[u8], marks: &[u8], sheet: &[u8], record: u32, text: &mut [u8]) -> u64 {
        crate::bytes::tell_line(n, table, marks, sheet, record, text)
    }

    fn program(&self, file: &[u8]) -> Vec<u8> {
        crate::program::mark_text(file).into_bytes()
    }
}
