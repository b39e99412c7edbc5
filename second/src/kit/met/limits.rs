//! What was met over two tables: refusals and their order, lines and pairs, and the tables between them (02, Paper 11).

use std::fmt;

use crate::kit::damage::limits::LimitFault;
use crate::kit::generate::between::Between;
use crate::kit::generate::limits::Width;
use crate::kit::met::coverage::{Coverage, Event};
use crate::sheet::Sheet;

/// Outcomes over two tables.
#[derive(Clone, Copy, Debug, PartialEq, Eq)]
pub enum LimitEvent {
    /// Over equal tables, as over one: sheets with accepted lines, refused calls, lists with pairs.
    EqualMarked,
    EqualRefused,
    EqualListed,
    /// Pairs that stand over two tables and would not over the low one alone, over the high one alone, over either
    /// alone.
    NotByLow,
    NotByHigh,
    ByNeither,
    /// Sheets that are accepted over two tables and refused over the low one alone, over the high one alone.
    AcceptedNotByLow,
    AcceptedNotByHigh,
    /// Sheets that are accepted over the low table alone, over the high one alone, and refused over two.
    GoodByLow,
    GoodByHigh,
    /// Crossings that save over one table alone and not over two, and those that do over two.
    CrossingByLow,
    CrossingByHigh,
    CrossingSaves,
    /// Strikes over two different tables, held against all shortest tours of a table between them.
    StrikesLow,
    StrikesHigh,
    StrikesEnds,
    StrikesInside,
    /// The same held against tours that three exchanges cannot shorten, on boards of more than nine points.
    StrikesThreeOpt,
    /// Tables between the two whose shortest tours have edges that no shortest tour over all low or all high lengths
    /// has.
    OtherTours,
    /// Accepted crossings over two different tables.
    Crossings,
}

use LimitEvent::*;

const EVENTS: [(LimitEvent, &str); 20] = [
    (EqualMarked, "sheets with accepted lines over equal tables, as over one"),
    (EqualRefused, "calls refused over equal tables, as over one"),
    (EqualListed, "lists with pairs over equal tables, as over one"),
    (NotByLow, "pairs that stand over two tables, not over the low one alone"),
    (NotByHigh, "pairs that stand over two tables, not over the high one alone"),
    (ByNeither, "pairs that stand over two tables, over neither alone"),
    (AcceptedNotByLow, "sheets accepted over two tables, refused over the low one alone"),
    (AcceptedNotByHigh, "sheets accepted over two tables, refused over the high one alone"),
    (GoodByLow, "sheets accepted over the low table alone, refused over two"),
    (GoodByHigh, "sheets accepted over the high table alone, refused over two"),
    (CrossingByLow, "crossings that save over the low table alone, not over two"),
    (CrossingByHigh, "crossings that save over the high table alone, not over two"),
    (CrossingSaves, "crossings that save over two different tables"),
    (StrikesLow, "strikes over two tables held against all shortest tours, lengths low"),
    (StrikesHigh, "strikes over two tables held against all shortest tours, lengths high"),
    (StrikesEnds, "strikes over two tables held against all shortest tours, each length low or high"),
    (StrikesInside, "strikes over two tables held against all shortest tours, lengths between"),
    (StrikesThreeOpt, "strikes over two tables held against 3-opt tours of more than nine points"),
    (OtherTours, "tables between two with shortest tours of other edges than at both ends"),
    (Crossings, "accepted crossings over two different tables"),
];

/// What one operation met.
#[derive(Clone)]
struct Met {
    between: Between,
    /// Calls refused for their only fault, by `LimitFault::all`.
    refused: Vec<u64>,
    /// Calls with two faults that were refused for the first of them, by `orders`.
    orders: Vec<u64>,
}

/// A fault, by its group, and the number of a later one.
fn orders(between: Between) -> Vec<(String, u64)> {
    let mut groups: Vec<(u64, String)> = Vec::new();
    for fault in LimitFault::all(between) {
        let group = (fault.number(), fault.group());
        if !groups.contains(&group) {
            groups.push(group);
        }
    }
    let later = |number| between.numbers().iter().skip_while(move |&&other| other != number).skip(1);
    groups.into_iter().flat_map(|(number, group)| later(number).map(move |&later| (group.clone(), later))).collect()
}

impl Met {
    fn new(between: Between) -> Met {
        let (refused, orders) = (vec![0; LimitFault::all(between).len()], vec![0; orders(between).len()]);
        Met { between, refused, orders }
    }

    fn missing(&self) -> Vec<String> {
        let name = self.between.operation().name();
        let refused = LimitFault::all(self.between).into_iter().zip(&self.refused).filter(|&(_, &times)| times == 0);
        let mut missing: Vec<String> = refused.map(|(fault, _)| format!("{name}: refused for {fault}")).collect();
        let orders = orders(self.between).into_iter().zip(&self.orders).filter(|&(_, &times)| times == 0);
        missing.extend(orders.map(|((group, later), _)| format!("{name}: refused by {group} before {later}")));
        missing
    }
}

#[derive(Clone)]
pub struct LimitsMet {
    operations: [Met; Between::ALL.len()],
    events: [u64; EVENTS.len()],
    /// Accepted lines by how far the tables lie apart.
    lines: [u64; Width::ALL.len()],
    /// Lists with pairs, likewise.
    lists: [u64; Width::ALL.len()],
    /// Lines accepted over different tables by the number of splits one inside another, from 1.
    depths: [u64; Sheet::MOST_SPLITS + 1],
}

impl Default for LimitsMet {
    /// Nothing met.
    fn default() -> Self {
        LimitsMet {
            operations: Between::ALL.map(Met::new),
            events: [0; EVENTS.len()],
            lines: [0; Width::ALL.len()],
            lists: [0; Width::ALL.len()],
            depths: [0; Sheet::MOST_SPLITS + 1],
        }
    }
}

impl LimitsMet {
    pub fn event(&mut self, event: LimitEvent, times: u64) {
        self.events[event as usize] += times;
    }

    /// A call that was refused for its only fault.
    pub fn refused(&mut self, between: Between, fault: LimitFault) {
        let place = LimitFault::all(between).iter().position(|&other| other == fault).unwrap();
        self.operations[between as usize].refused[place] += 1;
    }

    /// A call that was refused for a fault before a later one.
    pub fn order(&mut self, between: Between, fault: LimitFault, later: LimitFault) {
        let two = (fault.group(), later.number());
        let place = orders(between).iter().position(|other| *other == two).unwrap();
        self.operations[between as usize].orders[place] += 1;
    }

    /// Accepted lines, with what they hold.
    pub fn lines(&mut self, width: Width, lines: u64, held: &Coverage) {
        self.lines[width as usize] += lines;
        if width != Width::Equal {
            (1..=Sheet::MOST_SPLITS).for_each(|depth| self.depths[depth] += held.lines_at(depth));
            self.event(Crossings, held.times(Event::CrossingShared) + held.times(Event::CrossingApart));
        }
    }

    /// A list with pairs.
    pub fn list(&mut self, width: Width) {
        self.lists[width as usize] += 1;
    }

    /// What was never met.
    pub fn missing(&self) -> Vec<String> {
        let mut missing: Vec<String> = self.operations.iter().flat_map(Met::missing).collect();
        let unmet = EVENTS.iter().filter(|&&(event, _)| self.events[event as usize] == 0);
        missing.extend(unmet.map(|(_, name)| name.to_string()));
        for (what, counts) in [("a line accepted", self.lines), ("a list with pairs", self.lists)] {
            let unmet = Width::ALL.iter().filter(|&&width| counts[width as usize] == 0);
            missing.extend(unmet.map(|width| format!("{what} over {}", width.name())));
        }
        let unmet = (1..=Sheet::MOST_SPLITS).filter(|&depth| self.depths[depth] == 0);
        missing.extend(unmet.map(|depth| format!("a line accepted over two tables at depth {depth}")));
        missing
    }
}

impl fmt::Display for LimitsMet {
    fn fmt(&self, f: &mut fmt::Formatter) -> fmt::Result {
        for (event, name) in EVENTS {
            writeln!(f, "{name}: {}", self.events[event as usize])?;
        }
        let least = |counts: &[u64]| counts.iter().min().copied().unwrap_or(0);
        for met in &self.operations {
            let (name, refused, orders) = (met.between.operation().name(), least(&met.refused), least(&met.orders));
            writeln!(f, "{name}: the least for a fault: {refused}, for two faults: {orders}")?;
        }
        write!(f, "lines accepted, lists with pairs over:")?;
        for width in Width::ALL {
            write!(f, " {}: {}, {};", width.name(), self.lines[width as usize], self.lists[width as usize])?;
        }
        let depths: Vec<String> = self.depths[1..].iter().map(u64::to_string).collect();
        writeln!(f, "\nlines accepted over two different tables by depth: {}", depths.join(", "))
    }
}
