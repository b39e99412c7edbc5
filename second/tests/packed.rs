//! Paper 4 by hand: packed sets, test 6 at every place of a byte, and the conversions.

mod common;

use common::*;
use second::bytes;
use second::lengths::edge_count;
use second::marks::{fresh_marks, OPEN, PENDING, STRUCK};
use second::packed::{last_byte, mark, pack_marks, packed_size, put_mark, some_pending, unpack_marks};
use second::refusal::Refusal;

/// 1-2 to 3-4: the marks 1, 0, 2, 1 in the first byte, 1, 2 in the second.
const BYTES: [u8; 6] = [1, 0, 2, 1, 1, 2];
const PACKED: [u8; 2] = [0b01_10_00_01, 0b10_01];

#[test]
fn sizes() {
    let sizes = [(4, 2), (5, 3), (6, 4), (7, 6), (8, 7), (9, 9), (10, 12), (11, 14), (12, 17), (180, 4_028)];
    for (n, size) in sizes {
        assert_eq!(packed_size(n), size, "n = {n}");
    }
    let last = [(4, 0x0f), (6, 0x3f), (7, 0x03), (8, 0xff), (177, 0xff), (178, 0x03), (179, 0x3f), (180, 0x0f)];
    for (n, used) in last {
        assert_eq!(last_byte(n), used, "n = {n}");
    }
}

#[test]
fn marks_one_by_one() {
    assert_eq!([0, 1, 2, 3, 4, 5].map(|place| mark(&PACKED, place)), BYTES);
    for (place, new) in (0..6).flat_map(|place| [STRUCK, OPEN, PENDING].map(|mark| (place, mark))) {
        let (mut set, mut bytes) = (PACKED, BYTES);
        put_mark(&mut set, place, new);
        bytes[place] = new;
        assert_eq!([0, 1, 2, 3, 4, 5].map(|place| mark(&set, place)), bytes);
        assert_eq!(set[1] >> 4, 0);
    }
}

#[test]
fn converted() {
    let (mut set, mut bytes) = ([0xff; 2], [0xff; 6]);
    assert_eq!((refusal(pack_marks(4, &BYTES, &mut set)), set), (0, PACKED));
    assert_eq!((refusal(unpack_marks(4, &PACKED, &mut bytes)), bytes), (0, BYTES));
}

/// Bytes of 85, the last one cut.
#[test]
fn fresh_sets() {
    for n in 4..=180 {
        let mut set = vec![0xff; packed_size(n)];
        assert_eq!(refusal(fresh_marks(u32::from(n), &mut set)), 0);
        let (last, before) = set.split_last().unwrap();
        assert!(before.iter().all(|&byte| byte == 85), "n = {n}");
        assert_eq!(*last, [85, 1, 5, 21][edge_count(n) % 4], "n = {n}");
    }
}

/// Every way of calling for a set, with the square's other inputs.
fn all_readers(n: u32, set: &[u8]) -> [u64; 7] {
    let edges = edge_count(n as u16);
    let table = vec![0; 4 * edges];
    let tour: Vec<u8> = (1..=n as u16).flat_map(|v| v.to_le_bytes()).collect();
    let copy = || set.to_vec();
    [
        bytes::mark_sheet(n, &table, &mut copy(), &[0; 16]),
        bytes::ask_sheet(n, &table, &mut copy(), &[0; 16]),
        bytes::confirm(n, &mut copy()),
        bytes::withdraw(n, &mut copy()),
        bytes::list_pairs(n, &table, set, [1, 2, 3], &mut vec![0; 8 * edges]) % 65_536,
        bytes::check_tour(n, &table, set, &tour) % 256,
        bytes::unpack_marks(n, set, &mut vec![0; edges]),
    ]
}

/// A good set, with every fault by hand: 6 from all of them.
#[test]
fn test_6() {
    for n in [4, 5, 6, 7, 8, 9, 177, 178, 179, 180] {
        let (edges, good) = (edge_count(n), fresh(u32::from(n)));
        let refused = |set: &[u8], what| assert_eq!(all_readers(u32::from(n), set), [6; 7], "n = {n}, {what}");
        assert_eq!(all_readers(u32::from(n), &good), [10 + 256, 10 + 256, 21, 21, 0, 0, 0]);
        for place in (0..8).chain(edges.saturating_sub(8)..edges).filter(|&place| place < edges) {
            let mut set = good.clone();
            put_mark(&mut set, place, 3);
            refused(&set, format!("3 at {place}"));
        }
        for place in edges..4 * good.len() {
            for mark in 1..4 {
                let mut set = good.clone();
                put_mark(&mut set, place, mark);
                refused(&set, format!("{mark} in unused bits"));
            }
        }
        refused(&good[1..], "a byte too few".to_string());
        refused(&[&good[..], &[0]].concat(), "a byte too many".to_string());
        refused(&vec![1; edges], "a byte set".to_string());
        refused(&[], "nothing".to_string());
    }
}

/// Pending marks are found in any place of any byte.
#[test]
fn something_pending() {
    for n in 4..=12 {
        let set = fresh(u32::from(n));
        assert_eq!(some_pending(n, &set), Ok(false));
        for place in 0..edge_count(n) {
            let mut set = set.clone();
            put_mark(&mut set, place, PENDING);
            assert_eq!(some_pending(n, &set), Ok(true), "n = {n}, {place}");
        }
    }
}

/// Converts into old bytes, which a refusal leaves.
fn number(convert: fn(u32, &[u8], &mut [u8]) -> Result<(), Refusal>, n: u32, read: &[u8], size: usize) -> u8 {
    let mut written = vec![77; size];
    let number = refusal(convert(n, read, &mut written));
    assert!(number == 0 || written == vec![77; size], "nothing is written");
    number
}

/// 1; 6, the byte set; 6, the size of the packed set.
#[test]
fn packing_refused() {
    let pack = |n, marks: &[u8], size| number(pack_marks, n, marks, size);
    assert_eq!([0, 3, 181, 260, u32::MAX].map(|n| pack(n, &[9; 5], 9)), [1; 5]);
    assert_eq!([pack(4, &BYTES[..5], 2), pack(4, &[1; 7], 2), pack(5, &BYTES, 3), pack(4, &[], 2)], [6; 4]);
    for (place, byte) in (0..6).flat_map(|place| [3, 4, 5, 6, 128, 255].map(|byte| (place, byte))) {
        let mut marks = BYTES;
        marks[place] = byte;
        assert_eq!(pack(4, &marks, 2), 6, "{byte} at {place}");
    }
    assert_eq!([pack(4, &BYTES, 1), pack(4, &BYTES, 3), pack(4, &BYTES, 6), pack(4, &BYTES, 0)], [6; 4]);
    assert_eq!(pack(4, &BYTES, 2), 0);
}

/// 1; 6, the packed set; 6, the size of the byte set.
#[test]
fn unpacking_refused() {
    let unpack = |n, set: &[u8], size| number(unpack_marks, n, set, size);
    assert_eq!([0, 3, 181, 260, u32::MAX].map(|n| unpack(n, &[0xff; 3], 9)), [1; 5]);
    assert_eq!([unpack(4, &PACKED[..1], 6), unpack(4, &[85, 5, 0], 6), unpack(5, &PACKED, 10)], [6; 3]);
    assert_eq!([unpack(4, &[0b11, 5], 6), unpack(4, &[85, 0b11_00], 6), unpack(4, &[85, 0b01_00_00], 6)], [6; 3]);
    assert_eq!([unpack(4, &PACKED, 5), unpack(4, &PACKED, 7), unpack(4, &PACKED, 2)], [6; 3]);
    assert_eq!(unpack(4, &PACKED, 6), 0);
}

#[test]
fn numbers_for_c() {
    let (mut set, mut bytes) = ([0; 2], [0; 6]);
    assert_eq!((bytes::pack_marks(4, &BYTES, &mut set), bytes::unpack_marks(4, &PACKED, &mut bytes)), (0, 0));
    assert_eq!((set, bytes), (PACKED, BYTES));
    assert_eq!((bytes::pack_marks(3, &BYTES, &mut set), bytes::unpack_marks(181, &PACKED, &mut bytes)), (1, 1));
    assert_eq!((bytes::pack_marks(5, &BYTES, &mut set), bytes::unpack_marks(5, &PACKED, &mut bytes)), (6, 6));
}
