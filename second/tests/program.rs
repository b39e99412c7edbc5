//! The program's text, and `second-mark` from standard input to standard output.

mod common;

use std::io::Write;
use std::process::{Command, Stdio};

use common::*;
use second::program::mark_text;

const RECORDS: [[u16; 8]; 2] = [[1, 1, 3, 0, 0, 2, 0, 2], [1, 2, 4, 0, 0, 1, 0, 0]];

#[test]
fn the_square() {
    let text = mark_text(&file(1, 4, &SQUARE, &RECORDS));
    assert_eq!(text, "points 4 edges 6\nstruck 1 3\nstruck 2 4\nverdict 0 record 0 open 4\n");
}

#[test]
fn strikes_in_edge_order() {
    let records = [[1, 4, 2, 0, 0, 1, 0, 2], [1, 3, 1, 0, 0, 2, 0, 0]];
    let text = mark_text(&file(1, 4, &SQUARE, &records));
    assert_eq!(text, "points 4 edges 6\nstruck 1 3\nstruck 2 4\nverdict 0 record 0 open 4\n");
}

/// Rule 5 gives the square's sides and diagonals one length, so that no edge can be struck; rule 4 is as rule 1.
#[test]
fn rules() {
    let marked = |rule| mark_text(&file(rule, 4, &SQUARE, &RECORDS));
    assert_eq!(marked(4), marked(1));
    assert_eq!(marked(5), "points 4 edges 6\nverdict 14 record 1 open 6\n");
    for rule in [0, 6, u32::MAX] {
        assert_eq!(marked(rule), "verdict 3 record 0 open 0\n");
    }
}

#[test]
fn refusals() {
    let refused = "verdict 7 record 0 open 0\n";
    let all_lines = "points 4 edges 6\nverdict 7 record 0 open 6\n";
    let whole = file(1, 4, &SQUARE, &RECORDS);
    assert_eq!(mark_text(&[]), refused);
    assert_eq!(mark_text(&whole[..39]), refused);
    assert_eq!(mark_text(&whole[..40]), all_lines, "no records");
    assert_eq!(mark_text(&whole[..71]), all_lines, "a broken record");
    let stopped = file(1, 4, &SQUARE, &[[1, 1, 3, 0, 0, 2, 0, 1]]);
    assert_eq!(mark_text(&stopped), "points 4 edges 6\nstruck 1 3\nverdict 9 record 1 open 5\n");
}

#[test]
fn sizes() {
    let with = |bytes: usize| {
        let mut file = file(1, 4, &SQUARE, &RECORDS);
        file.resize(bytes, 0);
        mark_text(&file)
    };
    assert!(with(40 + 64_000).ends_with("verdict 0 record 0 open 4\n"), "4,000 records");
    assert!(with(40 + 64_016).ends_with("verdict 7 record 0 open 6\n"), "4,001 records");
    assert_eq!(with(65_448).lines().count(), 2);
    assert_eq!(with(65_449), "verdict 7 record 0 open 0\n");
}

#[test]
fn standard_input_to_output() {
    let mut child =
        Command::new(env!("CARGO_BIN_EXE_second-mark")).stdin(Stdio::piped()).stdout(Stdio::piped()).spawn().unwrap();
    let file = file(1, 4, &SQUARE, &RECORDS);
    child.stdin.take().unwrap().write_all(&file).unwrap();
    assert_eq!(child.wait_with_output().unwrap().stdout, mark_text(&file).into_bytes());
}
