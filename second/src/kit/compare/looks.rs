//! *List pairs* and *check a tour*, over pending marks too.

use super::steps::Run;
use super::{hex, hex_call, Checked, Comparison};
use crate::kit::damage::spoil::{self, Lent};
use crate::kit::generate::rng::Rng;
use crate::kit::generate::sets::{self, old_bytes, pending};
use crate::kit::met::coverage::{Event, Operation};
use crate::marks::{OPEN, PENDING, STRUCK};

/// A pending edge, if there is one.
fn pending_edge(rng: &mut Rng, n: u16, marks: &[u8]) -> Option<(u16, u16)> {
    let edges = (1..=n).flat_map(|a| (a + 1..=n).map(move |b| (a, b)));
    let edges: Vec<(u16, u16)> =
        edges.zip(sets::marks(marks)).filter(|&(_, mark)| mark == PENDING).map(|(edge, _)| edge).collect();
    edges.get(rng.below(edges.len().max(1))).copied()
}

/// The same call over marks whose pending edges are struck.
fn with_pending_struck(lent: &Lent) -> Lent {
    let struck = sets::marks(&lent.marks).map(|mark| if mark == PENDING { STRUCK } else { mark });
    Lent { marks: sets::packed(&struck.collect::<Vec<u8>>()), ..lent.clone() }
}

impl Comparison<'_> {
    /// A listing or a tour check.
    pub fn look(&mut self, rng: &mut Rng, run: &Run, marks: &[u8]) -> Checked {
        if rng.chance(50) {
            self.listing(rng, run, marks)
        } else {
            self.tour(rng, run, marks)
        }
    }

    /// *List pairs* with lists that are too short, just right and too long.
    pub fn listing(&mut self, rng: &mut Rng, run: &Run, marks: &[u8]) -> Checked {
        let mut lent = Lent::new(&run.board, marks);
        if rng.chance(12) {
            spoil::call(rng, &mut lent);
        }
        let mut abc = spoil::three_points(rng, run.board.n);
        if rng.chance(30) {
            if let Some((a, b)) = pending_edge(rng, run.board.n, marks) {
                (abc[0], abc[1]) = (a, b);
            }
        }
        let pairs = self.pairs(&lent, abc);
        let size = spoil::list_size(rng, pairs.len() / 2);
        let bytes = 2 * size + usize::from(rng.chance(20));
        let mut list = old_bytes(rng, bytes);
        let (before, mut other_list) = (list.clone(), list.clone());
        let answer = self.one.list_pairs(lent.n, &lent.table, &lent.marks, abc, &mut list);
        let other = self.other.list_pairs(lent.n, &lent.table, &lent.marks, abc, &mut other_list);
        self.count_listing(answer, size);
        self.coverage.sets.count(Operation::ListPairs, lent.n, &lent.marks, answer % 65_536);
        if answer % 65_536 == 0 && pending(&lent.marks) {
            self.count_pending(&lent, abc, &pairs);
        }
        self.same("list pairs", (answer, list), (other, other_list), || {
            let call = hex_call(lent.n, &lent.table, &lent.marks);
            format!("{call}a, b, c {abc:?}\nlist {}\n", hex(&before))
        })
    }

    /// The bytes of all pairs; none on a refusal.
    fn pairs(&self, lent: &Lent, abc: [u16; 3]) -> Vec<u8> {
        let mut room = vec![0; lent.table.len()];
        let pairs = self.one.list_pairs(lent.n, &lent.table, &lent.marks, abc, &mut room) / 65_536;
        room.truncate(4 * pairs as usize);
        room
    }

    fn count_listing(&mut self, answer: u64, size: usize) {
        self.coverage.number(Operation::ListPairs, answer % 65_536);
        if answer % 65_536 == 0 {
            let pairs = answer / 65_536;
            self.coverage.event(if pairs == 0 { Event::NoPairs } else { Event::SomePairs }, 1);
            self.coverage.event(Event::PlacesPast, u64::from(size as u64 > 2 * pairs));
        }
    }

    /// Whether the pairs would be others, or 12 told, if pending edges were struck.
    fn count_pending(&mut self, lent: &Lent, abc: [u16; 3], pairs: &[u8]) {
        let struck = with_pending_struck(lent);
        let answer = self.one.list_pairs(struck.n, &struck.table, &struck.marks, abc, &mut []);
        if answer == 12 {
            self.coverage.event(Event::PendingListed, 1);
        } else {
            self.coverage.event(Event::PendingPairs, u64::from(self.pairs(&struck, abc) != pairs));
        }
    }

    /// *Check a tour*.
    pub fn tour(&mut self, rng: &mut Rng, run: &Run, marks: &[u8]) -> Checked {
        let mut lent = Lent::new(&run.board, marks);
        if rng.chance(20) {
            let other = rng.pick(&[OPEN, PENDING]);
            lent.marks = sets::packed(&run.board.table.iter().map(|_| rng.pick(&[OPEN, other])).collect::<Vec<u8>>());
        }
        if rng.chance(20) {
            spoil::call(rng, &mut lent);
        }
        let edge = if rng.chance(50) { pending_edge(rng, run.board.n, marks) } else { None };
        let tour = match edge {
            Some(edge) => spoil::tour_with(rng, run.board.n, edge),
            None => spoil::tour(rng, run.board.n),
        };
        let answer = self.one.check_tour(lent.n, &lent.table, &lent.marks, &tour);
        let other = self.other.check_tour(lent.n, &lent.table, &lent.marks, &tour);
        self.coverage.number(Operation::CheckTour, answer % 256);
        self.coverage.sets.count(Operation::CheckTour, lent.n, &lent.marks, answer % 256);
        if answer % 256 == 0 {
            let open = answer % 65_536 == 256;
            self.coverage.event(if open { Event::TourOpen } else { Event::TourStruck }, 1);
            let struck = with_pending_struck(&lent);
            let answer_struck = self.one.check_tour(struck.n, &struck.table, &struck.marks, &tour);
            self.coverage.event(Event::PendingTour, u64::from(answer_struck != answer));
        }
        self.same("check a tour", answer, other, || {
            let call = hex_call(lent.n, &lent.table, &lent.marks);
            format!("{call}tour {}\n", hex(&tour))
        })
    }
}
