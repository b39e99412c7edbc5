//! Calls of marking and listing over two tables (02, Paper 11).

use crate::kit::generate::limits::Limited;
use crate::kit::generate::rng::Rng;
use crate::kit::generate::sets;
use crate::kit::met::coverage::Operation;
use crate::kit::programs::checker::Checker;

/// One of the two operations.
#[derive(Clone, Copy, Debug, PartialEq, Eq)]
pub enum Between {
    Mark,
    List,
}

impl Between {
    pub const ALL: [Between; 2] = [Between::Mark, Between::List];

    pub fn operation(self) -> Operation {
        match self {
            Between::Mark => Operation::MarkBetween,
            Between::List => Operation::ListBetween,
        }
    }

    /// The refusal numbers of its tests before any record, in their order.
    pub fn numbers(self) -> &'static [u64] {
        match self {
            Between::Mark => &[1, 2, 5, 25, 6, 20, 7],
            Between::List => &[1, 2, 5, 25, 6, 11, 12, 18],
        }
    }
}

/// One call of either.
#[derive(Clone, Debug)]
pub struct BetweenCall {
    pub between: Between,
    pub n: u32,
    pub low: Vec<u8>,
    pub high: Vec<u8>,
    pub marks: Vec<u8>,
    pub sheet: Vec<u8>,
    pub abc: [u16; 3],
    pub list: Vec<u8>,
}

fn table(lengths: &[u32]) -> Vec<u8> {
    lengths.iter().flat_map(|l| l.to_le_bytes()).collect()
}

impl BetweenCall {
    pub fn mark(limited: &Limited, marks: &[u8], sheet: &[u8]) -> BetweenCall {
        let (n, low, high) = (u32::from(limited.n), table(&limited.low), table(&limited.high));
        let (marks, sheet) = (marks.to_vec(), sheet.to_vec());
        BetweenCall { between: Between::Mark, n, low, high, marks, sheet, abc: [0; 3], list: vec![] }
    }

    pub fn list(limited: &Limited, marks: &[u8], abc: [u16; 3], list: Vec<u8>) -> BetweenCall {
        BetweenCall { between: Between::List, abc, list, ..BetweenCall::mark(limited, marks, &[]) }
    }

    /// The number that a program answers.
    pub fn run(&mut self, checker: &dyn Checker) -> u64 {
        let BetweenCall { n, low, high, marks, sheet, abc, list, .. } = self;
        match self.between {
            Between::Mark => checker.mark_between(*n, low, high, marks, sheet),
            Between::List => checker.list_between(*n, low, high, marks, *abc, list),
        }
    }

    /// The same call with the low table as both, in one place.
    pub fn run_shared(&mut self, checker: &dyn Checker) -> u64 {
        let BetweenCall { n, low, marks, sheet, abc, list, .. } = self;
        match self.between {
            Between::Mark => checker.mark_between(*n, low, low, marks, sheet),
            Between::List => checker.list_between(*n, low, low, marks, *abc, list),
        }
    }

    /// The same call over one table, lent once to the operation that reads one.
    pub fn run_exact(&mut self, checker: &dyn Checker) -> u64 {
        let BetweenCall { n, low, marks, sheet, abc, list, .. } = self;
        match self.between {
            Between::Mark => checker.mark_sheet(*n, low, marks, sheet),
            Between::List => checker.list_pairs(*n, low, marks, *abc, list),
        }
    }

    /// The same call over the low table twice, and over the high one.
    pub fn over_low(&self) -> BetweenCall {
        BetweenCall { high: self.low.clone(), ..self.clone() }
    }

    pub fn over_high(&self) -> BetweenCall {
        BetweenCall { low: self.high.clone(), ..self.clone() }
    }
}

/// A listing from fresh marks with pairs and just enough room for them, if one is found.
pub fn good_listing(rng: &mut Rng, limited: &Limited, checker: &dyn Checker) -> Option<BetweenCall> {
    let room = 4 * limited.low.len();
    (0..8).find_map(|_| {
        let abc: [u16; 3] = rng.points(limited.n, 3).try_into().unwrap();
        let mut call = BetweenCall::list(limited, &sets::fresh(limited.n), abc, sets::old_bytes(rng, room));
        let pairs = call.run(checker) / 65_536;
        call.list = sets::old_bytes(rng, 4 * pairs as usize);
        (pairs > 0).then_some(call)
    })
}
