//! Savings of any points, in three programs; and the rules that they tell: the pairs that a list leaves out, and the
//! crossings that a sheet may not close a case by.

use super::{hex, Checked, Comparison, Difference};
use crate::bytes::numbers;
use crate::crossing::Crossing;
use crate::edge_set::EdgeSet;
use crate::intervals::Intervals;
use crate::kit::damage::spoil::Lent;
use crate::kit::generate::boards::{self, Board};
use crate::kit::generate::drafts::sheet_bytes;
use crate::kit::generate::rng::Rng;
use crate::kit::generate::savings::{Saving, SavingCall, SavingFault};
use crate::kit::generate::search::crossings;
use crate::kit::generate::sets;
use crate::kit::met::savings::NUMBERS;
use crate::kit::programs::checker::Checker;
use crate::marks::{Marks, OPEN};
use crate::packed::put_mark;
use crate::pairs::Split;
use crate::sheet::{Record, Sheet};

/// Good calls for each saving in a case; each is made with one fault and with two, too.
const CALLS: usize = 4;

/// Pairs of a list that are held against savings.
const PAIRS: usize = 12;

/// Sheets that are tried for one with a crossing.
const SHEETS: usize = 8;

/// A crossing in a sheet: its record is the third, behind a line and a split.
pub struct CrossingSheet {
    pub marks: Vec<u8>,
    pub records: [Record; 3],
    /// p, q, r, s, x, y, z, w.
    points: [u16; 8],
}

impl CrossingSheet {
    /// Closes the first pair of the first pair of a line by any crossing that passes 15, if there is one.
    pub fn new(rng: &mut Rng, lengths: &Intervals) -> Option<CrossingSheet> {
        let n = lengths.order.n;
        let [a, b, c, d] = rng.points(n, 4).try_into().unwrap();
        let open = rng.pick(&[100, 80, 50]);
        let mut marks = sets::packed(&boards::random_marks(rng, n, open));
        put_mark(&mut marks, lengths.order.place(a, b), OPEN);
        let mut known = EdgeSet::one(a, b);
        let mut add_first = |c| {
            let pair = Split::new(lengths, Marks::in_sheet(&marks), &known, c).next_pair()?;
            known.add_pair(c, pair);
            Some(pair)
        };
        let (first, second) = (add_first(c)?, add_first(d)?);
        let all = crossings(known.edges(), n);
        let Crossing { p, q, r, s } = *all.get(rng.below(all.len().max(1)))?;
        let records = [
            [Sheet::LINE, a, b, 0, 0, c, 2, 0],
            [Sheet::CASE_SPLIT, first.0, first.1, 0, 0, d, 3, 0],
            [Sheet::CASE_CROSSING, second.0, second.1, p, q, r, s, 0],
        ];
        let (xy, zw) = (known.ends(r), known.ends(s));
        Some(CrossingSheet { marks, records, points: [p, q, r, s, xy[0], xy[1], zw[0], zw[1]] })
    }

    /// What the crossing saves.
    pub fn saving(&self, lengths: &Intervals) -> i64 {
        let [p, q, r, s, x, y, z, w] = self.points;
        Crossing { p, q, r, s }.saving(lengths, (x, y), (z, w))
    }
}

/// What a pair x, y at c brings with it under K = {ab}.
fn pair_savings(checker: &dyn Checker, lent: &Lent, [a, b, c]: [u16; 3], [x, y]: [u16; 2]) -> [(Saving, i64); 3] {
    let saving = |kind: Saving, points: &[u16]| (kind, kind.call(checker, lent.n, &lent.table, points) / 65_536);
    [
        saving(Saving::Exchange, &[a, b, c, x]),
        saving(Saving::Exchange, &[a, b, c, y]),
        saving(Saving::Move, &[c, x, y, a, b]),
    ]
}

impl Comparison<'_> {
    /// All three savings on a board, and the rules that they tell.
    pub fn savings(&mut self, rng: &mut Rng, board: &Board) -> Checked {
        for saving in Saving::ALL {
            for _ in 0..CALLS {
                let call = SavingCall::new(rng, board, saving);
                let answer = self.saving(&call)?;
                self.coverage.savings.saved(&call, answer / 65_536);
                self.faulty_saving(rng, call.clone())?;
                self.twice_faulty_saving(rng, call)?;
            }
        }
        self.pairs_by_savings(rng, board)?;
        let lengths = Intervals::exact(board.n, &board.table);
        match (0..SHEETS).find_map(|_| CrossingSheet::new(rng, &lengths)) {
            Some(sheet) => self.crossing_by_saving(board, &sheet),
            None => Ok(()),
        }
    }

    /// A call in three programs; answers the number for C.
    fn saving(&mut self, call: &SavingCall) -> Result<i64, Difference> {
        let [one, other, naive] = [self.one, self.other, self.naive].map(|checker| call.run(checker));
        let operation = call.saving.operation();
        self.coverage.number(operation, (one & 0xff) as u64);
        self.same(operation.name(), one, other, || hex_saving(call))?;
        self.same_as(operation.name(), one, ("naive", naive), || hex_saving(call))?;
        Ok(one)
    }

    /// A call with one fault.
    fn faulty_saving(&mut self, rng: &mut Rng, mut call: SavingCall) -> Checked {
        let fault = rng.pick(&SavingFault::all(call.saving));
        fault.make(rng, &mut call);
        self.refused_saving(&call, fault.number())?;
        self.coverage.savings.refused(call.saving, fault);
        Ok(())
    }

    /// A call with two faults of different numbers: the first is told.
    fn twice_faulty_saving(&mut self, rng: &mut Rng, mut call: SavingCall) -> Checked {
        let first = rng.below(NUMBERS.len() - 1);
        let later = rng.between(first + 1, NUMBERS.len() - 1);
        for number in [NUMBERS[later], NUMBERS[first]] {
            SavingFault::of(rng, call.saving, number).make(rng, &mut call);
        }
        self.refused_saving(&call, NUMBERS[first])?;
        self.coverage.savings.order(call.saving, NUMBERS[first], NUMBERS[later]);
        Ok(())
    }

    /// A call that this number is due for.
    fn refused_saving(&mut self, call: &SavingCall, due: i64) -> Checked {
        let answer = self.saving(call)?;
        if answer != due {
            let what = format!("{}, refused", call.saving.operation().name());
            return Err(self.difference(&what, format!("{}answer {answer}, due {due}\n", hex_saving(call))));
        }
        Ok(())
    }

    /// Pairs listed from fresh marks for K = {ab} and a point c off it: x and y, not both on ab, stand exactly where no
    /// saving is above 0.
    fn pairs_by_savings(&mut self, rng: &mut Rng, board: &Board) -> Checked {
        let abc: [u16; 3] = rng.points(board.n, 3).try_into().unwrap();
        let others: Vec<u16> = (1..=board.n).filter(|&v| v != abc[2]).collect();
        let lent = Lent::new(board, &sets::fresh(board.n));
        let pairs: Vec<[u16; 2]> = (0..PAIRS).map(|_| [rng.pick(&others), rng.pick(&others)]).collect();
        let standable = |&[x, y]: &[u16; 2]| x < y && !(abc.contains(&x) && abc.contains(&y));
        for checker in [self.one, self.other] {
            let listed = listed(checker, &lent, abc);
            for pair in pairs.iter().copied().filter(standable) {
                let savings = pair_savings(checker, &lent, abc, pair);
                self.deciding(savings);
                if listed.contains(&pair) != savings.iter().all(|&(_, saving)| saving <= 0) {
                    let text = format!("n {}\ntable {}\n", lent.n, hex(&lent.table));
                    let call = format!("a, b, c {abc:?}, x, y {pair:?}\n{savings:?}\n");
                    return Err(self.difference("list pairs by savings", format!("{}: {text}{call}", checker.name())));
                }
            }
        }
        Ok(())
    }

    /// Counts each saving whose sign tells whether the pair stands, since the others are not above 0.
    fn deciding(&mut self, savings: [(Saving, i64); 3]) {
        for (at, &(kind, saving)) in savings.iter().enumerate() {
            let others = savings.iter().enumerate().filter(|&(other, _)| other != at);
            if others.map(|(_, &(_, saving))| saving).all(|saving| saving <= 0) {
                self.coverage.savings.rule(kind, saving);
            }
        }
    }

    /// The crossing's record gets 16 exactly where its saving is not above 0; where it is, pairs may be left (14).
    fn crossing_by_saving(&mut self, board: &Board, sheet: &CrossingSheet) -> Checked {
        let lent = Lent::new(board, &sheet.marks);
        let records = sheet_bytes(&sheet.records);
        for checker in [self.one, self.other] {
            let saving = Saving::Crossing.call(checker, lent.n, &lent.table, &sheet.points) / 65_536;
            let answer = checker.mark_sheet(lent.n, &lent.table, &mut sheet.marks.clone(), &records);
            let due: &[u64] = if saving > 0 { &[0, 14] } else { &[16] };
            self.coverage.savings.rule(Saving::Crossing, saving);
            if !due.contains(&(answer % 256)) {
                let text = format!("n {}\ntable {}\nsheet {}\n", lent.n, hex(&lent.table), hex(&records));
                let answer = format!("points {:?}: {saving}, {answer}\n", sheet.points);
                return Err(self.difference("crossing by its saving", format!("{}: {text}{answer}", checker.name())));
            }
        }
        Ok(())
    }
}

/// The pairs that a program lists.
fn listed(checker: &dyn Checker, lent: &Lent, abc: [u16; 3]) -> Vec<[u16; 2]> {
    let mut list = vec![0; lent.table.len()];
    let pairs = checker.list_pairs(lent.n, &lent.table, &lent.marks, abc, &mut list) / 65_536;
    numbers(&list[..4 * pairs as usize]).chunks_exact(2).map(|pair| [pair[0], pair[1]]).collect()
}

fn hex_saving(call: &SavingCall) -> String {
    format!("n {}\ntable {}\npoints {:?}\n", call.n, hex(&call.table), call.points)
}
