//! A checker whose writable buffers lie between guards, so that a write past them is seen.

use crate::kit::programs::checker::Checker;

pub struct Guarded<C: Checker>(pub C);

/// Places before and after a buffer.
const GUARD: usize = 16;

/// What guards hold.
const FILLER: u8 = 0x5a;

/// Lends a copy of the buffer between guards, and copies it back.
fn lend(buffer: &mut [u8], call: impl FnOnce(&mut [u8]) -> u64) -> u64 {
    let mut room = vec![FILLER; buffer.len() + 2 * GUARD];
    let end = GUARD + buffer.len();
    room[GUARD..end].copy_from_slice(buffer);
    let answer = call(&mut room[GUARD..end]);
    let kept = room[..GUARD].iter().chain(&room[end..]).all(|&place| place == FILLER);
    assert!(kept, "a place outside of a lent buffer was written");
    buffer.copy_from_slice(&room[GUARD..end]);
    answer
}

impl<C: Checker> Checker for Guarded<C> {
    fn name(&self) -> &'static str {
        self.0.name()
    }

    fn measure(&self, n: u32, rule: u32, coordinates: &[u8], table: &mut [u8]) -> u64 {
        lend(table, |table| self.0.measure(n, rule, coordinates, table))
    }

    fn fresh_marks(&self, n: u32, marks: &mut [u8]) -> u64 {
        lend(marks, |marks| self.0.fresh_marks(n, marks))
    }

    fn pack_marks(&self, n: u32, bytes: &[u8], packed: &mut [u8]) -> u64 {
        lend(packed, |packed| self.0.pack_marks(n, bytes, packed))
    }

    fn unpack_marks(&self, n: u32, packed: &[u8], bytes: &mut [u8]) -> u64 {
        lend(bytes, |bytes| self.0.unpack_marks(n, packed, bytes))
    }

    fn mark_sheet(&self, n: u32, table: &[u8], marks: &mut [u8], sheet: &[u8]) -> u64 {
        lend(marks, |marks| self.0.mark_sheet(n, table, marks, sheet))
    }

    fn ask_sheet(&self, n: u32, table: &[u8], marks: &mut [u8], sheet: &[u8]) -> u64 {
        lend(marks, |marks| self.0.ask_sheet(n, table, marks, sheet))
    }

    fn confirm(&self, n: u32, marks: &mut [u8]) -> u64 {
        lend(marks, |marks| self.0.confirm(n, marks))
    }

    fn withdraw(&self, n: u32, marks: &mut [u8]) -> u64 {
        lend(marks, |marks| self.0.withdraw(n, marks))
    }

    fn check_tour(&self, n: u32, table: &[u8], marks: &[u8], tour: &[u8]) -> u64 {
        self.0.check_tour(n, table, marks, tour)
    }

    fn list_pairs(&self, n: u32, table: &[u8], marks: &[u8], abc: [u16; 3], list: &mut [u8]) -> u64 {
        lend(list, |list| self.0.list_pairs(n, table, marks, abc, list))
    }

    fn mark_between(&self, n: u32, low: &[u8], high: &[u8], marks: &mut [u8], sheet: &[u8]) -> u64 {
        lend(marks, |marks| self.0.mark_between(n, low, high, marks, sheet))
    }

    fn list_between(&self, n: u32, low: &[u8], high: &[u8], marks: &[u8], abc: [u16; 3], list: &mut [u8]) -> u64 {
        lend(list, |list| self.0.list_between(n, low, high, marks, abc, list))
    }

    fn exchange_saving(&self, n: u32, table: &[u8], pqxy: [u16; 4]) -> i64 {
        self.0.exchange_saving(n, table, pqxy)
    }

    fn move_saving(&self, n: u32, table: &[u8], cxyuv: [u16; 5]) -> i64 {
        self.0.move_saving(n, table, cxyuv)
    }

    fn crossing_saving(&self, n: u32, table: &[u8], pqrsxyzw: [u16; 8]) -> i64 {
        self.0.crossing_saving(n, table, pqrsxyzw)
    }

    fn release(&self, slip: u64) -> u64 {
        self.0.release(slip)
    }

    fn examiner_view(&self, slip: u64, bytes: &mut [u8]) -> u64 {
        lend(bytes, |bytes| self.0.examiner_view(slip, bytes))
    }

    fn candidate_view(&self, slip: u64, bytes: &mut [u8]) -> u64 {
        lend(bytes, |bytes| self.0.candidate_view(slip, bytes))
    }

    fn read_tsplib(&self, text: &[u8], table: &mut [u8]) -> u64 {
        lend(table, |table| self.0.read_tsplib(text, table))
    }

    fn tsplib_points(&self, text: &[u8]) -> u64 {
        self.0.tsplib_points(text)
    }

    fn write_page(&self, n: u32, table: &[u8], marks: &[u8], page: u32, text: &mut [u8]) -> u64 {
        lend(text, |text| self.0.write_page(n, table, marks, page, text))
    }

    fn read_page(&self, n: u32, page: u32, text: &[u8], table: &mut [u8], marks: &mut [u8]) -> u64 {
        lend(table, |table| lend(marks, |marks| self.0.read_page(n, page, text, table, marks)))
    }

    fn open_desks(&self, desks: &mut [u8]) -> u64 {
        lend(desks, |desks| self.0.open_desks(desks))
    }

    fn hand_in(&self, desks: &mut [u8], desk: u32, n: u32, table: &[u8], marks: &[u8], sheet: &[u8]) -> u64 {
        lend(desks, |desks| self.0.hand_in(desks, desk, n, table, marks, sheet))
    }

    fn next_desk(&self, desks: &[u8]) -> u64 {
        self.0.next_desk(desks)
    }

    fn turn(&self, desks: &mut [u8], n: u32, table: &[u8], marks: &mut [u8], sheet: &[u8]) -> u64 {
        lend(desks, |desks| lend(marks, |marks| self.0.turn(desks, n, table, marks, sheet)))
    }

    fn tell_line(&self, n: u32, table: &[u8], marks: &[u8], sheet: &[u8], record: u32, text: &mut [u8]) -> u64 {
        lend(text, |text| self.0.tell_line(n, table, marks, sheet, record, text))
    }

    fn program(&self, file: &[u8]) -> Vec<u8> {
        self.0.program(file)
    }

    fn program_is_cheap(&self) -> bool {
        self.0.program_is_cheap()
    }
}
