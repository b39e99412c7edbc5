//! Which savings were met, of which points, what was refused, and which rules were held against them.

use std::fmt;

use crate::kit::generate::savings::{Saving, SavingCall, SavingFault};

/// The refusal numbers of a saving, in their order.
pub const NUMBERS: [i64; 4] = [1, 2, 5, 11];

const SIGNS: [&str; 3] = ["below 0", "of 0", "above 0"];

/// Where counts by sign have this saving.
fn sign(saving: i64) -> usize {
    (saving.signum() + 1) as usize
}

/// What one saving met.
#[derive(Clone)]
struct Met {
    saving: Saving,
    /// Savings of different points, by their sign.
    signs: [u64; SIGNS.len()],
    /// Savings where two points are the same, by `Saving::may_meet`.
    meeting: Vec<u64>,
    /// Refusals of one fault, by `SavingFault::all`.
    refused: Vec<u64>,
    /// Refusals by one number where a later one is for the call, too.
    orders: [[u64; NUMBERS.len()]; NUMBERS.len()],
    /// Savings by their sign that alone decide what a pair list or a sheet answers.
    rules: [u64; SIGNS.len()],
}

#[derive(Clone)]
pub struct SavingsMet {
    savings: [Met; Saving::ALL.len()],
}

impl Default for SavingsMet {
    fn default() -> Self {
        SavingsMet { savings: Saving::ALL.map(Met::new) }
    }
}

impl SavingsMet {
    /// A call that was answered by this saving.
    pub fn saved(&mut self, call: &SavingCall, saving: i64) {
        let met = &mut self.savings[call.saving as usize];
        met.signs[sign(saving)] += u64::from(call.different());
        for ((i, j), times) in call.saving.may_meet().into_iter().zip(&mut met.meeting) {
            *times += u64::from(call.points[i] == call.points[j]);
        }
    }

    /// A call that was refused for its only fault.
    pub fn refused(&mut self, saving: Saving, fault: SavingFault) {
        let place = SavingFault::all(saving).iter().position(|&other| other == fault).unwrap();
        self.savings[saving as usize].refused[place] += 1;
    }

    /// A call that was refused by the first of two numbers.
    pub fn order(&mut self, saving: Saving, first: i64, later: i64) {
        let [first, later] = [first, later].map(|number| NUMBERS.iter().position(|&other| other == number).unwrap());
        self.savings[saving as usize].orders[first][later] += 1;
    }

    /// A saving that alone decides what a pair list or a sheet answers.
    pub fn rule(&mut self, kind: Saving, saving: i64) {
        self.savings[kind as usize].rules[sign(saving)] += 1;
    }

    /// What was never met.
    pub fn missing(&self) -> Vec<String> {
        let named = |met: &Met| {
            let name = met.saving.operation().name();
            met.missing().into_iter().map(move |unmet| format!("{name}: {unmet}"))
        };
        self.savings.iter().flat_map(named).collect()
    }
}

impl Met {
    fn new(saving: Saving) -> Met {
        Met {
            saving,
            signs: [0; SIGNS.len()],
            meeting: vec![0; saving.may_meet().len()],
            refused: vec![0; SavingFault::all(saving).len()],
            orders: [[0; NUMBERS.len()]; NUMBERS.len()],
            rules: [0; SIGNS.len()],
        }
    }

    fn missing(&self) -> Vec<String> {
        let name = |place: usize| char::from(self.saving.points()[place]);
        let signs = SIGNS.iter().zip(self.signs).filter(|&(_, times)| times == 0);
        let mut missing: Vec<String> =
            signs.map(|(sign, _)| format!("different points with a saving {sign}")).collect();
        let meeting = self.saving.may_meet().into_iter().zip(&self.meeting).filter(|&(_, &times)| times == 0);
        missing.extend(meeting.map(|((i, j), _)| format!("a saving with {} = {}", name(i), name(j))));
        let refused = SavingFault::all(self.saving).into_iter().zip(&self.refused).filter(|&(_, &times)| times == 0);
        missing.extend(refused.map(|(fault, _)| format!("refused for {}", fault.told(self.saving))));
        let orders = self.orders().into_iter().filter(|&(_, _, times)| times == 0);
        missing.extend(orders.map(|(first, later, _)| format!("refused by {first} before {later}")));
        let rules = SIGNS.iter().zip(self.rules).filter(|&(_, times)| times == 0);
        missing.extend(rules.map(|(sign, _)| format!("a rule held against a saving {sign}")));
        missing
    }

    /// Each two numbers in their order, and how often the first was told before the other.
    fn orders(&self) -> Vec<(i64, i64, u64)> {
        let later = |first: usize| (first + 1..NUMBERS.len()).map(move |later| (first, later));
        let two = (0..NUMBERS.len()).flat_map(later);
        two.map(|(first, later)| (NUMBERS[first], NUMBERS[later], self.orders[first][later])).collect()
    }
}

impl fmt::Display for SavingsMet {
    fn fmt(&self, f: &mut fmt::Formatter) -> fmt::Result {
        self.savings.iter().try_for_each(|met| writeln!(f, "{met}"))
    }
}

impl fmt::Display for Met {
    fn fmt(&self, f: &mut fmt::Formatter) -> fmt::Result {
        let signs = |counts: [u64; 3]| counts.map(|times| times.to_string()).join(", ");
        let least = |counts: &[u64]| counts.iter().min().copied().unwrap_or(0);
        let orders: Vec<u64> = self.orders().into_iter().map(|(_, _, times)| times).collect();
        write!(
            f,
            "{}: {} of different points below 0, of 0, above 0;",
            self.saving.operation().name(),
            signs(self.signs)
        )?;
        write!(f, " {} that decide a rule; the least for two points that are the same:", signs(self.rules))?;
        let [meeting, refused, orders] = [&self.meeting, &self.refused, &orders].map(|counts| least(counts));
        write!(f, " {meeting}, for a fault: {refused}, for two faults: {orders}")
    }
}
