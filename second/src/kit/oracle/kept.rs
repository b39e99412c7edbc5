//! What marks keep through any run from fresh marks: the edges of all shortest tours (demand 3) stay open, neither
//! struck nor pending (02, Paper 3), and so two open edges at every point and n in all (Paper 9); and without records
//! of kind 4 those of tours that three exchanges cannot shorten (Papers 9 and 10).

use std::cmp::Reverse;

use crate::bytes::numbers;
use crate::kit::generate::boards::Board;
use crate::kit::generate::drafts::sheet_bytes;
use crate::kit::generate::rng::Rng;
use crate::kit::generate::sets;
use crate::kit::met::coverage::{Coverage, Event};
use crate::kit::met::segments::SegmentEvent;
use crate::kit::oracle::brute::{self, Shortest};
use crate::kit::oracle::three_opt;
use crate::lengths::Lengths;
use crate::marks::{OPEN, PENDING};
use crate::sheet::Sheet;

/// Tours sought on a board.
const TOURS: usize = 8;

/// What is known of a board before its run.
pub struct Kept {
    /// For boards that are small enough.
    shortest: Option<Shortest>,
    /// Tours that three exchanges cannot shorten, the longest first; none on a large board.
    tours: Vec<Vec<u16>>,
    /// How many of them are longer than the shortest tour that is known.
    longer: usize,
}

/// Marks that a run has left.
#[derive(Clone, Debug)]
pub struct RunMarks {
    pub set: Vec<u8>,
    /// Whether a sheet with a record of kind 4 has struck an edge on the way to them.
    pub reordered: bool,
}

impl RunMarks {
    pub fn new(set: Vec<u8>) -> RunMarks {
        RunMarks { set, reordered: false }
    }

    /// The marks that a sheet has left, of which so many lines were accepted.
    pub fn marked(&mut self, set: Vec<u8>, sheet: &[u8], lines: u64) {
        self.reordered |= lines > 0 && has_reordering(sheet);
        self.set = set;
    }
}

/// Whether a sheet has a record of kind 4.
pub fn has_reordering(sheet: &[u8]) -> bool {
    numbers(sheet).chunks_exact(Sheet::FIELDS).any(|record| record[0] == Sheet::CASE_REORDERING)
}

/// What marks have lost: its name and what there is to see.
pub type Loss = (&'static str, String);

impl Kept {
    pub fn new(rng: &mut Rng, board: &Board) -> Kept {
        Kept::of(rng, board, TOURS)
    }

    /// With so many tours that three exchanges cannot shorten, if the board is small enough for any.
    pub fn of(rng: &mut Rng, board: &Board, tours: usize) -> Kept {
        let lengths = Lengths::new(board.n, &board.table);
        let shortest = (board.n <= brute::MOST_POINTS).then(|| Shortest::of(&lengths));
        let tours = if board.n <= three_opt::MOST_POINTS { tours } else { 0 };
        let mut tours: Vec<Vec<u16>> = (0..tours).map(|_| three_opt::search(rng, &lengths)).collect();
        tours.sort_by_key(|tour| Reverse(three_opt::length(&lengths, tour)));
        let found: Vec<i32> = tours.iter().map(|tour| three_opt::length(&lengths, tour)).collect();
        let least = shortest.as_ref().map(|shortest| shortest.length).or(found.last().copied());
        let longer = found.iter().filter(|&&length| Some(length) > least).count();
        Kept { shortest, tours, longer }
    }

    /// With this tour alone, which is longer than a shortest one.
    pub fn with_longer(board: &Board, tour: &[u16]) -> Kept {
        let shortest = Shortest::of(&Lengths::new(board.n, &board.table));
        Kept { shortest: Some(shortest), tours: vec![tour.to_vec()], longer: 1 }
    }

    /// All shortest tours, of a board that is small enough.
    pub fn shortest(&self) -> Option<&Shortest> {
        self.shortest.as_ref()
    }

    pub fn has_tours(&self) -> bool {
        !self.tours.is_empty()
    }

    /// A sheet with one line, without cases, for an edge of a tour, if there is one; of a longer one if possible.
    pub fn attempt(&self, rng: &mut Rng) -> Option<Vec<u8>> {
        let tours = if self.longer > 0 { &self.tours[..self.longer] } else { &self.tours };
        let tour = tours.get(rng.below(tours.len().max(1)))?;
        let (at, c) = (rng.below(tour.len()), rng.pick(tour));
        Some(sheet_bytes(&[[Sheet::LINE, tour[at], tour[(at + 1) % tour.len()], 0, 0, c, 0, 0]]))
    }

    /// Holds marks that a run has left against all of this; `lines` are those that its last step accepted.
    pub fn hold(&self, board: &Board, marks: &RunMarks, lines: u64, coverage: &mut Coverage) -> Result<(), Loss> {
        self.lost(board, marks)?;
        let open = open_edges(board.n, &marks.set);
        self.count(&open, lines, coverage);
        let pending = sets::marks(&marks.set).filter(|&mark| mark == PENDING).count() as u64;
        if self.shortest.is_some() {
            coverage.event(Event::PendingShortest, pending);
        }
        if marks.reordered {
            coverage.segments.event(SegmentEvent::ThreeOptStruck, self.struck(board, &marks.set));
        } else {
            self.count_tours(&open, pending, coverage);
        }
        Ok(())
    }

    /// The first that marks have lost of all of this; tours that three exchanges cannot shorten count where no new
    /// order has struck an edge.
    pub fn lost(&self, board: &Board, marks: &RunMarks) -> Result<(), Loss> {
        let lengths = Lengths::new(board.n, &board.table);
        enough_open(&open_edges(board.n, &marks.set))?;
        for tour in self.tours.iter().filter(|_| !marks.reordered) {
            if let Some((a, b)) = three_opt::lost_edge(&lengths, tour, &marks.set) {
                return Err(("3-opt tour", format!("edge {a}-{b} of {tour:?}\n")));
            }
        }
        match self.shortest.as_ref().and_then(|shortest| shortest.lost_edge(&marks.set)) {
            Some(place) => Err(("lost edge", format!("place {place}\n"))),
            None => Ok(()),
        }
    }

    /// How many longer tours that three exchanges cannot shorten have an edge struck or pending.
    pub fn struck(&self, board: &Board, marks: &[u8]) -> u64 {
        let lengths = Lengths::new(board.n, &board.table);
        let lost = |tour: &&Vec<u16>| three_opt::lost_edge(&lengths, tour, marks).is_some();
        self.tours[..self.longer].iter().filter(lost).count() as u64
    }

    fn count(&self, open: &[usize], lines: u64, coverage: &mut Coverage) {
        if self.shortest.is_some() {
            coverage.event(Event::BruteForce, 1);
            coverage.event(Event::BruteForceStrikes, lines);
        }
        if some_struck(open) {
            let all: usize = open.iter().sum();
            coverage.event(Event::OpenCounted, 1);
            coverage.event(Event::TwoOpen, open.iter().filter(|&&edges| edges == 2).count() as u64);
            coverage.event(Event::LeastOpen, u64::from(all == 2 * open.len()));
        }
    }

    /// Counts the tours that three exchanges cannot shorten.
    fn count_tours(&self, open: &[usize], pending: u64, coverage: &mut Coverage) {
        if some_struck(open) {
            let tours = if self.shortest.is_some() { Event::ThreeOptSmall } else { Event::ThreeOptLarge };
            coverage.event(tours, self.tours.len() as u64);
            coverage.event(Event::ThreeOptLonger, self.longer as u64);
        }
        if self.shortest.is_none() && !self.tours.is_empty() {
            coverage.event(Event::PendingThreeOpt, pending);
        }
    }
}

/// The number of open edges at each point; pending ones are not.
fn open_edges(n: u16, marks: &[u8]) -> Vec<usize> {
    let n = usize::from(n);
    let mut open = vec![0; n];
    let edges = (0..n).flat_map(|a| (a + 1..n).map(move |b| (a, b)));
    for ((a, b), _) in edges.zip(sets::marks(marks)).filter(|&(_, mark)| mark == OPEN) {
        open[a] += 1;
        open[b] += 1;
    }
    open
}

/// Whether not all edges are open.
fn some_struck(open: &[usize]) -> bool {
    open.iter().sum::<usize>() < open.len() * (open.len() - 1)
}

/// Two at each point, and n in all.
fn enough_open(open: &[usize]) -> Result<(), Loss> {
    if let Some(at) = open.iter().position(|&edges| edges < 2) {
        return Err(("open edges", format!("{} at point {}\n", open[at], at + 1)));
    }
    let all = open.iter().sum::<usize>() / 2;
    if all < open.len() {
        return Err(("open edges", format!("{all} in all\n")));
    }
    Ok(())
}
