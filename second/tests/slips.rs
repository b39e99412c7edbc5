//! Paper 13 by hand: slips of sheets on the square, both views, release, 22.

mod common;

use common::{fresh, square};
use second::bytes::{candidate_view, examiner_view, marking_number, release, slip_number, slip_of};
use second::marking::mark_sheet;
use second::refusal::Refusal;
use second::sheet::Record;
use second::slip::{write_view, Slip, View};

const LINES: [Record; 2] = [[1, 1, 3, 0, 0, 2, 0, 2], [1, 2, 4, 0, 0, 1, 0, 0]];

/// Its second line is refused by 14.
const STOPS: [Record; 2] = [[1, 1, 3, 0, 0, 2, 0, 2], [1, 1, 2, 0, 0, 3, 0, 0]];

const BIT_40: u64 = 1_099_511_627_776;

/// The slip of some records on the square, which is also the one in marking's number.
fn slip(records: &[Record]) -> Slip {
    let marked = mark_sheet(4, &square(), &mut fresh(4), &records.concat());
    let slip = Slip::new(marked);
    assert_eq!(slip_of(marking_number(marked)), slip);
    assert_eq!(slip_number(slip), marking_number(marked));
    slip
}

fn views(slip: Slip) -> [View; 2] {
    [slip.examiner_view(), slip.candidate_view()]
}

#[test]
fn sheets() {
    assert_eq!(slip(&LINES), Slip { refusal: 0, record: 0, lines: 2, released: false });
    assert_eq!(views(slip(&LINES)), [[0, 0, 0, 0, 2, 0]; 2]);
    assert_eq!(slip(&STOPS), Slip { refusal: 14, record: 2, lines: 1, released: false });
    assert_eq!(views(slip(&STOPS)), [[14, 0, 2, 0, 1, 0], [255, 0, 0, 0, 1, 0]]);
    assert_eq!(views(slip(&[])), [[7, 0, 0, 0, 0, 0], [255, 0, 0, 0, 0, 0]]);
}

#[test]
fn released() {
    let slip = slip(&STOPS).release();
    assert_eq!(slip, Slip { refusal: 14, record: 2, lines: 1, released: true });
    assert_eq!(slip.release(), slip);
    assert_eq!(views(slip), [[14, 1, 2, 0, 1, 0]; 2]);
    assert_eq!(views(self::slip(&LINES).release()), [[0, 1, 0, 0, 2, 0]; 2]);
}

#[test]
fn little_endian() {
    let slip = Slip { refusal: 16, record: 4_000, lines: 258, released: false };
    assert_eq!(views(slip), [[16, 0, 160, 15, 2, 1], [255, 0, 0, 0, 2, 1]]);
    assert_eq!(slip_number(slip), 16 + 256 * 4_000 + 16_777_216 * 258);
}

#[test]
fn every_number_is_a_slip() {
    let all = Slip { refusal: 255, record: 65_535, lines: 65_535, released: true };
    assert_eq!(slip_of(u64::MAX), all);
    assert_eq!(slip_of(u64::MAX - BIT_40), Slip { released: false, ..all });
    assert_eq!(slip_of(u64::MAX << 41), Slip { refusal: 0, record: 0, lines: 0, released: false });
    for number in [0, 14, 768, BIT_40, 2 * BIT_40, u64::MAX, u64::MAX - BIT_40, u64::MAX << 41] {
        assert_eq!(release(number), number | BIT_40);
    }
}

#[test]
fn room() {
    let number = 14 + 256 * 4_000 + 16_777_216 * 7;
    for size in 0..10 {
        for (call, view) in [
            (examiner_view as fn(u64, &mut [u8]) -> u64, [14, 0, 160, 15, 7, 0]),
            (candidate_view, [255, 0, 0, 0, 7, 0]),
        ] {
            let mut bytes = vec![9; size];
            let answer = call(number, &mut bytes);
            if size < 6 {
                assert_eq!((answer, bytes), (22, vec![9; size]));
            } else {
                assert_eq!((answer, &bytes[..6]), (0, &view[..]));
                assert!(bytes[6..].iter().all(|&byte| byte == 9));
            }
        }
    }
    assert_eq!(write_view([1; 6], &mut [0; 5]), Err(Refusal::Buffer));
}
