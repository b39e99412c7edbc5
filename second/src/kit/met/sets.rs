//! Which packed sets operations met: how many points they were for, and what was wrong with those that 6 refused.

use std::fmt;

use crate::instance::Instance;
use crate::kit::damage::sets::SetFault;
use crate::kit::met::coverage::Operation::{self, *};

/// Numbers of points that have to be met: small and large, with each number of unused bits.
pub const POINTS: [u16; 13] = [4, 5, 6, 7, 8, 9, 10, 11, 12, 177, 178, 179, 180];

/// The operations that test a packed set in full.
pub const READERS: [Operation; 9] =
    [MarkSheet, AskSheet, Confirm, Withdraw, ListPairs, CheckTour, UnpackMarks, MarkBetween, ListBetween];

/// Those that test its size alone, and the program, which is lent none.
const OTHERS: [Operation; 3] = [FreshMarks, PackMarks, Program];

/// What one operation met.
#[derive(Clone, Default)]
struct Met {
    /// Results, by `POINTS`.
    results: [u64; POINTS.len()],
    /// Answers held against those of the naive checker, by `POINTS`.
    naive: [u64; POINTS.len()],
    /// Sets refused by 6 that have one fault, by `SetFault::all`.
    refused: Vec<u64>,
    /// A faulty set refused by an earlier test, and one refused by 6 in a call that a later test would refuse.
    earlier: u64,
    later: u64,
}

#[derive(Clone)]
pub struct SetsMet {
    operations: [Met; Operation::COUNT],
}

impl Default for SetsMet {
    fn default() -> Self {
        let met = Met { refused: vec![0; SetFault::all().len()], ..Met::default() };
        SetsMet { operations: std::array::from_fn(|_| met.clone()) }
    }
}

/// The place of n in `POINTS`.
fn position(n: u32) -> Option<usize> {
    POINTS.iter().position(|&points| u32::from(points) == n)
}

impl SetsMet {
    /// An operation on this set, as it was before, and the refusal number or 0.
    pub fn count(&mut self, operation: Operation, n: u32, set: &[u8], number: u64) {
        let met = &mut self.operations[operation as usize];
        match (number, position(n)) {
            (0, Some(at)) => met.results[at] += 1,
            (6, _) => {
                let fault = Instance::point_count(n).ok().and_then(|n| SetFault::sole(n, set));
                let place = SetFault::all().iter().position(|&other| Some(other) == fault);
                place.into_iter().for_each(|place| met.refused[place] += 1);
            }
            _ => {}
        }
    }

    /// An operation that answers as the naive checker.
    pub fn count_naive(&mut self, operation: Operation, n: u32) {
        position(n).into_iter().for_each(|at| self.operations[operation as usize].naive[at] += 1);
    }

    /// A call with a faulty set, and the number of the same call with a good one.
    pub fn count_order(&mut self, operation: Operation, repaired: u64) {
        let met = &mut self.operations[operation as usize];
        match repaired {
            1 | 2 | 5 | 25 => met.earlier += 1,
            0 => {}
            _ => met.later += 1,
        }
    }

    /// What was never met.
    pub fn missing(&self) -> Vec<String> {
        let mut missing = Vec::new();
        for operation in READERS.into_iter().chain(OTHERS) {
            let unmet = self.operations[operation as usize].missing(operation);
            missing.extend(unmet.iter().map(|unmet| format!("{}: {unmet}", operation.name())));
        }
        missing
    }
}

impl Met {
    fn missing(&self, operation: Operation) -> Vec<String> {
        let reads = READERS.contains(&operation);
        let results = POINTS.iter().zip(self.results).filter(|&(_, times)| times == 0);
        let mut missing: Vec<String> = results.map(|(n, _)| format!("a result for {n} points")).collect();
        let naive = POINTS.iter().zip(self.naive).filter(|&(_, times)| reads && times == 0);
        missing.extend(naive.map(|(n, _)| format!("held against the naive checker for {n} points")));
        let size = |fault: &SetFault| [SetFault::Shorter, SetFault::Longer].contains(fault);
        let demanded = |fault: &SetFault| reads || operation != Program && size(fault);
        let unmet = SetFault::all().into_iter().zip(&self.refused).filter(|&(_, &times)| times == 0);
        missing.extend(unmet.filter(|(fault, _)| demanded(fault)).map(|(fault, _)| format!("refused for {fault}")));
        if reads && self.earlier == 0 {
            missing.push("a faulty set refused by a test before 6".to_string());
        }
        if reads && operation != UnpackMarks && self.later == 0 {
            missing.push("a faulty set refused by 6 before a later test".to_string());
        }
        missing
    }
}

impl fmt::Display for SetsMet {
    fn fmt(&self, f: &mut fmt::Formatter) -> fmt::Result {
        let least = |counts: &[u64]| counts.iter().min().copied().unwrap_or(0);
        write!(
            f,
            "packed sets, the least for any of 13 numbers of points, then for any of {} faults:",
            SetFault::all().len()
        )?;
        for operation in READERS {
            let met = &self.operations[operation as usize];
            write!(f, " {}: {} {};", operation.name(), least(&met.results), least(&met.refused))?;
        }
        let two = |operation: Operation| least(&self.operations[operation as usize].refused[..2]);
        write!(f, " wrong size alone: fresh marks {}, pack marks {}", two(FreshMarks), two(PackMarks))
    }
}
