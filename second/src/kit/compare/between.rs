//! Calls of marking and listing over two tables (02, Paper 11), in both programs or three: as over one where the tables
//! are equal, and with every fault, alone or beside another.

use super::{hex, Checked, Comparison, Difference, Hex};
use crate::kit::damage::limits::LimitFault;
use crate::kit::generate::between::{good_listing, Between, BetweenCall};
use crate::kit::generate::drafts::sheet_bytes;
use crate::kit::generate::limits::Limited;
use crate::kit::generate::rng::Rng;
use crate::kit::generate::sets;
use crate::kit::met::limits::LimitEvent;
use crate::sheet::Sheet;

/// Calls with one fault of each operation, and calls with two.
const FAULTS: usize = 3;
const TWO_FAULTS: usize = 6;

/// Boards up to this many points are given to the naive checker, too.
const NAIVE_POINTS: u32 = 20;

/// What a call shows: the answer and what it may have written.
fn shown(call: &BetweenCall, answer: u64) -> (u64, Hex<'_>, Hex<'_>) {
    (answer, Hex(&call.marks), Hex(&call.list))
}

pub fn hex_between(call: &BetweenCall) -> String {
    let tables = format!("n {}\nlow {}\nhigh {}\n", call.n, hex(&call.low), hex(&call.high));
    let buffers = format!("marks {}\nsheet {}\nlist {}\n", hex(&call.marks), hex(&call.sheet), hex(&call.list));
    format!("{tables}{buffers}a, b, c {:?}\n", call.abc)
}

/// The refusal number of an answer, or 0.
fn refusal(between: Between, answer: u64) -> u64 {
    match between {
        Between::Mark => answer % 256,
        Between::List => answer % 65_536,
    }
}

impl Comparison<'_> {
    /// A call in both programs, on a small board in three; over equal tables also as a call over one. Marking makes a
    /// slip. Answers the number for C.
    pub fn between(&mut self, call: &mut BetweenCall) -> Result<u64, Difference> {
        let (before, operation) = (call.clone(), call.between.operation());
        let answer = call.run(self.one);
        let number = refusal(call.between, answer);
        self.coverage.number(operation, number);
        self.coverage.sets.count(operation, before.n, &before.marks, number);
        let third = (call.n <= NAIVE_POINTS).then_some(self.naive);
        for checker in [Some(self.other), third].into_iter().flatten() {
            let mut other_call = before.clone();
            let other = other_call.run(checker);
            let (one, other) = (shown(call, answer), shown(&other_call, other));
            self.same_as(operation.name(), one, (checker.name(), other), || hex_between(&before))?;
        }
        if before.low == before.high {
            self.as_over_one(&before, call, answer)?;
        }
        if call.between == Between::Mark {
            self.sheet_slip(answer)?;
        }
        Ok(answer)
    }

    /// "Where low and high agree everywhere, verdicts are those of one table."
    fn as_over_one(&mut self, before: &BetweenCall, call: &BetweenCall, answer: u64) -> Checked {
        let what = format!("{} over equal tables", call.between.operation().name());
        for checker in [self.one, self.other] {
            let mut exact = before.clone();
            let number = exact.run_exact(checker);
            let name = format!("{} over one table", checker.name());
            self.same_as(&what, shown(call, answer), (&name, shown(&exact, number)), || hex_between(before))?;
            let mut shared = before.clone();
            let number = shared.run_shared(checker);
            let name = format!("{} over one table lent twice", checker.name());
            self.same_as(&what, shown(call, answer), (&name, shown(&shared, number)), || hex_between(before))?;
        }
        let accepted = match call.between {
            Between::Mark => LimitEvent::EqualMarked,
            Between::List => LimitEvent::EqualListed,
        };
        if refusal(call.between, answer) != 0 {
            self.coverage.limits.event(LimitEvent::EqualRefused, 1);
        } else if answer > 0 {
            self.coverage.limits.event(accepted, 1);
        }
        Ok(())
    }

    /// Each operation with one fault, and with two of different numbers.
    pub fn limited_faults(&mut self, rng: &mut Rng) -> Checked {
        let limited = Limited::random(rng, 12);
        let line = sheet_bytes(&[[Sheet::LINE, 1, 2, 0, 0, 3, 0, 0]]);
        let marking = BetweenCall::mark(&limited, &sets::fresh(limited.n), &line);
        let listing = good_listing(rng, &limited, self.one);
        for call in [Some(marking), listing].into_iter().flatten() {
            for _ in 0..FAULTS {
                self.faulty_between(rng, call.clone())?;
            }
            for _ in 0..TWO_FAULTS {
                self.twice_faulty_between(rng, call.clone())?;
            }
        }
        Ok(())
    }

    fn faulty_between(&mut self, rng: &mut Rng, mut call: BetweenCall) -> Checked {
        let fault = rng.pick(&LimitFault::all(call.between));
        fault.make(rng, &mut call);
        self.refused_between(&call, fault)?;
        self.coverage.limits.refused(call.between, fault);
        Ok(())
    }

    /// Two faults of different numbers: the first is told.
    fn twice_faulty_between(&mut self, rng: &mut Rng, mut call: BetweenCall) -> Checked {
        let numbers = call.between.numbers();
        let first = rng.below(numbers.len() - 1);
        let later = rng.between(first + 1, numbers.len() - 1);
        let [first, later] = [first, later].map(|at| LimitFault::of(rng, call.between, numbers[at]));
        later.make(rng, &mut call);
        first.make(rng, &mut call);
        self.refused_between(&call, first)?;
        self.coverage.limits.order(call.between, first, later);
        Ok(())
    }

    /// A call that this fault's number is due for; it writes nothing.
    fn refused_between(&mut self, before: &BetweenCall, fault: LimitFault) -> Checked {
        let mut call = before.clone();
        let answer = self.between(&mut call)?;
        if shown(&call, answer) != shown(before, fault.number()) {
            let what = format!("{} for {fault}", call.between.operation().name());
            let text = format!("{}answer {answer}, due {}\n", hex_between(before), fault.number());
            return Err(self.difference(&what, text));
        }
        Ok(())
    }
}
