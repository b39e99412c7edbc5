//! Paper 12 by hand: the page of the square, written and read, its refusals and the line that 27 tells.

mod common;

use common::{fresh, square};
use second::page::{read_page, write_page};
use second::refusal::Refusal;

const PAGE: &[u8; 150] = b"  1   2      10 open    \n  1   3      14 open    \n  1   4      10 open    \n  2   3      10 open    \n  2   4      14 open    \n  3   4      10 open    \n";

/// The page with another text at a place.
fn with(at: usize, text: &[u8]) -> Vec<u8> {
    let mut page = PAGE.to_vec();
    page[at..at + text.len()].copy_from_slice(text);
    page
}

/// What reading a text as the square's page answers, into lengths of 1 and fresh marks.
fn read(text: &[u8]) -> Result<(Vec<u32>, Vec<u8>), (Refusal, usize)> {
    let (mut table, mut marks) = (vec![1; 6], fresh(4));
    read_page(4, 1, text, &mut table, &mut marks).map(|()| (table, marks))
}

#[test]
fn written() {
    let mut text = [7; 160];
    assert_eq!(write_page(4, &square(), &fresh(4), 1, &mut text), Ok(150));
    assert_eq!(text[..150], PAGE[..]);
    assert_eq!(text[150..], [7; 10]);
}

#[test]
fn refused() {
    let mut text = [7; 160];
    for (n, table, marks, page, size, refusal) in [
        (4, square().to_vec(), fresh(4), 1, 149, Refusal::Buffer),
        (4, square().to_vec(), fresh(4), 0, 149, Refusal::Page),
        (4, square().to_vec(), fresh(4), 2, 149, Refusal::Page),
        (4, square().to_vec(), vec![3, 0], 0, 149, Refusal::Marks),
        (4, vec![2_000_001; 6], vec![3, 0], 0, 149, Refusal::TableEntry),
        (4, vec![2_000_001; 5], vec![3, 0], 0, 149, Refusal::TableSize),
        (3, vec![2_000_001; 5], vec![3, 0], 0, 149, Refusal::PointCount),
    ] {
        assert_eq!(write_page(n, &table, &marks, page, &mut text[..size]), Err(refusal));
        assert_eq!(text, [7; 160]);
    }
}

#[test]
fn read_again() {
    assert_eq!(read(PAGE), Ok((square().to_vec(), fresh(4))));
    let told = read(&with(41, b"struck  ")).unwrap().1;
    assert_eq!(told, [81, 5]);
    assert_eq!(read(&with(33, b"2000000")).unwrap().0[1], 2_000_000);
    assert_eq!(read(&with(33, b"      0")).unwrap().0[1], 0);
}

#[test]
fn first_wrong_line() {
    let wrong = |line| Err((Refusal::PageText, line));
    for (size, line) in [(0, 1), (1, 1), (24, 1), (25, 2), (125, 6), (149, 6)] {
        assert_eq!(read(&PAGE[..size]), wrong(line));
    }
    assert_eq!(read(&[&PAGE[..], b" "].concat()), wrong(7));
    assert_eq!(read(&[&PAGE[..], &PAGE[..25]].concat()), wrong(7));
    for (at, text) in [
        (33, &b"   0014"[..]),
        (33, b"2000001"),
        (33, b"       "),
        (33, b"14     "),
        (33, b"    +14"),
        (41, b"Open"),
        (41, b"open   x"),
        (25, b"1  "),
        (31, b"4"),
        (49, b" "),
    ] {
        assert_eq!(read(&with(at, text)), wrong(2), "{at}");
    }
}
