//! Runs from fresh marks on boards up to thirty points, of sheets marked and asked, confirmed and withdrawn: no
//! shortest tour has an edge struck or pending, nor has one that three exchanges cannot shorten.

use second::bytes::{ask_sheet, confirm, fresh_marks, mark_sheet, withdraw};
use second::intervals::Intervals;
use second::kit::generate::boards::{self, Board};
use second::kit::generate::drafts::sheet_bytes;
use second::kit::generate::rng::Rng;
use second::kit::generate::sets::packed;
use second::kit::generate::sheets::{self, Plan};
use second::kit::met::coverage::Coverage;
use second::kit::oracle::brute::Shortest;
use second::kit::oracle::kept::{Kept, RunMarks};
use second::kit::oracle::three_opt::MOST_POINTS;
use second::lengths::Lengths;
use second::packed::packed_size;

/// One sheet of any sort.
fn sheet(rng: &mut Rng, lengths: &Intervals, marks: &[u8]) -> Vec<u8> {
    let plan = Plan::random(rng, lengths.order.n);
    let draft = sheets::valid(rng, lengths, marks, plan);
    match rng.below(3) {
        0 => sheets::noise(rng, draft.n),
        1 if !draft.records.is_empty() => sheets::damaged(rng, &draft),
        _ => sheet_bytes(&draft.records),
    }
}

/// A sheet marked or asked, or what is pending confirmed or withdrawn; the lines accepted.
fn step(rng: &mut Rng, lengths: &Intervals, table: &[u8], marks: &mut RunMarks) -> u64 {
    let (n, mut set) = (u32::from(lengths.order.n), marks.set.clone());
    let sheet = sheet(rng, lengths, &set);
    let lines = match rng.below(5) {
        0 => confirm(n, &mut set),
        1 => withdraw(n, &mut set),
        2 => mark_sheet(n, table, &mut set, &sheet),
        _ => ask_sheet(n, table, &mut set, &sheet),
    } >> 24;
    marks.marked(set, &sheet, lines);
    lines
}

/// Takes step after step and answers the number of lines accepted.
fn run(rng: &mut Rng, board: &Board, steps: usize) -> u64 {
    let lengths = Intervals::exact(board.n, &board.table);
    let kept = Kept::new(rng, board);
    let table: Vec<u8> = board.table.iter().flat_map(|l| l.to_le_bytes()).collect();
    let mut marks = RunMarks::new(vec![0; packed_size(board.n)]);
    fresh_marks(u32::from(board.n), &mut marks.set);
    let mut strikes = 0;
    for _ in 0..steps {
        strikes += step(rng, &lengths, &table, &mut marks);
        let held = kept.hold(board, &marks, strikes, &mut Coverage::default());
        assert_eq!(held, Ok(()), "{board:?}");
    }
    strikes
}

#[test]
fn no_tour_loses_an_edge() {
    let (mut strikes, mut large) = (0, 0);
    for case in 0..250 {
        let mut rng = Rng::new(11, case);
        let board = boards::board(&mut rng);
        if board.n <= MOST_POINTS {
            let struck = run(&mut rng, &board, 40);
            strikes += struck;
            large += if board.n > 20 { struck } else { 0 };
        }
    }
    assert!(strikes > 1_000 && large > 100, "only {strikes} strikes, {large} on large boards");
}

/// The square's shortest tours have its four sides.
#[test]
fn shortest_tours_of_the_square() {
    let table = [10, 14, 10, 10, 14, 10];
    let shortest = Shortest::of(&Lengths::new(4, &table));
    assert_eq!((shortest.length, &shortest.useful[..]), (40, &[1, 0, 1, 1, 0, 1][..]));
    assert_eq!(Shortest::of(&Lengths::new(4, &[10; 6])).useful, [1; 6]);
    assert_eq!(shortest.lost_edge(&packed(&[1, 0, 1, 1, 0, 1])), None);
    assert_eq!(shortest.lost_edge(&packed(&[1, 0, 0, 1, 0, 1])), Some(2));
    assert_eq!(shortest.lost_edge(&packed(&[1, 2, 1, 1, 0, 1])), None);
    assert_eq!(shortest.lost_edge(&packed(&[1, 2, 1, 1, 0, 2])), Some(5));
}
