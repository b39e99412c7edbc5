//! Pairs at a further split, each held against the moves of all settled points (02, Paper 7).

use super::{hex, Checked, Comparison};
use crate::edge_set::EdgeSet;
use crate::intervals::Intervals;
use crate::kit::damage::spoil::Lent;
use crate::kit::generate::boards::{self, Board};
use crate::kit::generate::drafts::sheet_bytes;
use crate::kit::generate::rng::Rng;
use crate::kit::generate::savings::Saving;
use crate::kit::generate::sets;
use crate::kit::met::moved::{self, Moved, Mover};
use crate::kit::met::moves::Place;
use crate::kit::programs::checker::Checker;
use crate::marks::{Marks, OPEN, STRUCK};
use crate::packed::put_mark;
use crate::pairs::Split;
use crate::sheet::{Record, Sheet};

/// Sheets made on a board.
const SHEETS: usize = 2;

/// Sheets that are tried for one as wished.
const SHEETS_TRIED: usize = 4;

/// Points that are tried for a split, and pairs that are tried at each.
const TRIES: usize = 8;

/// A sheet that is judged by its last record: a case whose pair is the only one at its split that passes all tests but
/// 5 for other points than the split point. The cases before it are the first pairs of their splits.
struct PairSheet {
    marks: Vec<u8>,
    records: Vec<Record>,
    /// K without the last pair.
    known: EdgeSet,
    c: u16,
    pair: (u16, u16),
    moved: Moved,
}

/// A sheet in the making.
struct Maker<'a> {
    lengths: &'a Intervals<'a>,
    marks: Vec<u8>,
    records: Vec<Record>,
    known: EdgeSet,
}

/// What the last pair shall be: where it is, and whether it is shut out or has a move that saves 0.
#[derive(Clone, Copy)]
struct Wish {
    place: Place,
    shut_out: bool,
}

impl Wish {
    fn random(rng: &mut Rng) -> Wish {
        Wish { place: rng.pick(&Place::all()), shut_out: rng.chance(75) }
    }

    fn met_by(self, moved: &Moved) -> bool {
        moved.decides() == Some(self.place.mover) && moved.shuts_out() == self.shut_out
    }
}

impl<'a> Maker<'a> {
    /// A line for any edge.
    fn new(rng: &mut Rng, lengths: &'a Intervals<'a>) -> Maker<'a> {
        let n = lengths.order.n;
        let (a, open) = (rng.point(n), rng.pick(&[100, 100, 80, 50]));
        let b = a % n + 1;
        let mut marks = sets::packed(&boards::random_marks(rng, n, open));
        put_mark(&mut marks, lengths.order.place(a, b), OPEN);
        Maker { lengths, marks, records: vec![[Sheet::LINE, a, b, 0, 0, 0, 0, 0]], known: EdgeSet::one(a, b) }
    }

    /// An end of K, or a point off it.
    fn some_point(&self, rng: &mut Rng, on_k: bool) -> Option<u16> {
        let fits = |&v: &u16| self.known.degree(v) == usize::from(on_k);
        let points: Vec<u16> = (1..=self.lengths.order.n).filter(fits).collect();
        (!points.is_empty()).then(|| rng.pick(&points))
    }

    /// Adds the record of a case at the split c, which the record before has.
    fn push(&mut self, c: u16, record: Record) {
        self.records.push(record);
        let index = self.records.len();
        (self.records[index - 2][5], self.records[index - 2][6]) = (c, index as u16);
    }

    /// Splits at some point; its first pair is the next case.
    fn deeper(&mut self, rng: &mut Rng) -> Option<()> {
        let on_k = rng.chance(40);
        let split = |c| {
            let pair = Split::new(self.lengths, Marks::in_sheet(&self.marks), &self.known, c).next_pair();
            pair.map(|pair| (c, pair))
        };
        let (c, pair) = (0..TRIES).find_map(|_| self.some_point(rng, on_k).and_then(split))?;
        self.push(c, [Sheet::CASE_SPLIT, pair.0, pair.1, 0, 0, 0, 0, 0]);
        self.known.add_pair(c, pair);
        Some(())
    }

    /// Some pairs at c with what they bring; the point that shall move is on K.
    fn some_pairs(&self, rng: &mut Rng, c: u16, mover: Mover) -> Vec<(u16, (u16, u16), Moved)> {
        let on_k = |&(x, y): &(u16, u16)| match mover {
            Mover::Lower => self.known.degree(x) > 0,
            Mover::Higher => self.known.degree(y) > 0,
            Mover::Other => true,
        };
        let pairs = moved::pairs(self.lengths, Marks::in_sheet(&self.marks), &self.known, c);
        let mut pairs: Vec<(u16, u16)> = pairs.filter(on_k).collect();
        rng.shuffle(&mut pairs);
        pairs.truncate(TRIES);
        pairs.into_iter().map(|pair| (c, pair, Moved::of(self.lengths, &self.known, c, pair))).collect()
    }

    /// A split point and a pair there, as wished if there is one.
    fn last(&self, rng: &mut Rng, wish: Wish) -> Option<(u16, (u16, u16), Moved)> {
        let mut found = None;
        for _ in 0..TRIES {
            let c = self.some_point(rng, wish.place.on_k)?;
            for pair in self.some_pairs(rng, c, wish.place.mover) {
                found = Some(pair);
                if wish.met_by(&pair.2) {
                    return found;
                }
            }
        }
        found
    }

    /// Strikes all edges at c, but for those of K and of the pair. The first pairs of the splits before stay what they
    /// are.
    fn strike_others(&mut self, c: u16, (x, y): (u16, u16)) {
        let others = |&v: &u16| v != c && v != x && v != y && !self.known.contains(c, v);
        for v in (1..=self.lengths.order.n).filter(others) {
            put_mark(&mut self.marks, self.lengths.order.place(c, v), STRUCK);
        }
    }
}

impl PairSheet {
    /// One as wished, or one that is only as deep, if there are any.
    fn wished(rng: &mut Rng, lengths: &Intervals, wish: Wish) -> Option<PairSheet> {
        let mut found = None;
        for _ in 0..SHEETS_TRIED {
            let sheet = PairSheet::new(rng, lengths, wish);
            let met = sheet.as_ref().is_some_and(|sheet| wish.met_by(&sheet.moved));
            found = sheet.or(found);
            if met {
                break;
            }
        }
        found
    }

    fn new(rng: &mut Rng, lengths: &Intervals, wish: Wish) -> Option<PairSheet> {
        let mut maker = Maker::new(rng, lengths);
        for _ in 1..wish.place.depth {
            maker.deeper(rng)?;
        }
        let (c, pair, moved) = maker.last(rng, wish)?;
        maker.strike_others(c, pair);
        let (x, y) = pair;
        maker.push(c, [Sheet::CASE_CROSSING, x, y, x, y, x, y, 0]);
        let Maker { marks, records, known, .. } = maker;
        Some(PairSheet { marks, records, known, c, pair, moved })
    }

    /// Whether a program's savings shut the pair out: some move of a settled point saves more than 0.
    fn shut_out(&self, checker: &dyn Checker, lent: &Lent) -> bool {
        let mut more = self.known.clone();
        more.add_pair(self.c, self.pair);
        let saves = |w: u16, s: u16, t: u16, &(u, v): &(u16, u16)| {
            u != w && v != w && Saving::Move.call(checker, lent.n, &lent.table, &[w, s, t, u, v]) > 0
        };
        let mut settled = more.settled();
        settled.any(|(w, s, t)| more.edges().iter().any(|uv| saves(w, s, t, uv)))
    }
}

impl Comparison<'_> {
    /// Sheets with any number of splits one inside another from 2 on, on this board and on one of their own.
    pub fn moves(&mut self, rng: &mut Rng, board: &Board) -> Checked {
        if board.n <= moved::MOST_POINTS {
            self.pairs_by_moves(rng, board)?;
        }
        let (n, most) = (rng.between(12, 20), rng.pick(&[5, 10, 1000]));
        let board = boards::points_of(rng, n as u16, most);
        self.pairs_by_moves(rng, &board)
    }

    fn pairs_by_moves(&mut self, rng: &mut Rng, board: &Board) -> Checked {
        let lengths = Intervals::exact(board.n, &board.table);
        for _ in 0..SHEETS {
            let wish = Wish::random(rng);
            if let Some(sheet) = PairSheet::wished(rng, &lengths, wish) {
                self.pair_by_moves(board, &sheet, wish.place)?;
            }
        }
        Ok(())
    }

    /// The last record gets 14 exactly where some move saves more than 0; else 15, for a crossing that is none.
    fn pair_by_moves(&mut self, board: &Board, sheet: &PairSheet, place: Place) -> Checked {
        let lent = Lent::new(board, &sheet.marks);
        let records = sheet_bytes(&sheet.records);
        for checker in [self.one, self.other] {
            let number = if sheet.shut_out(checker, &lent) { 14 } else { 15 };
            let due = number + 256 * sheet.records.len() as u64;
            let answer = checker.mark_sheet(lent.n, &lent.table, &mut sheet.marks.clone(), &records);
            if answer != due {
                let call = format!("n {}\ntable {}\nmarks {}\n", lent.n, hex(&lent.table), hex(&lent.marks));
                let text = format!("{call}sheet {}\nanswer {answer}, due {due}\n", hex(&records));
                return Err(self.difference("pair by moves", format!("{}: {text}", checker.name())));
            }
        }
        if let Some(mover) = sheet.moved.decides() {
            self.coverage.moves.named(Place { mover, ..place }, sheet.moved.shuts_out());
        }
        Ok(())
    }
}
