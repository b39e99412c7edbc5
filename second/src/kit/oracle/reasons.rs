//! What is due for each pair at the first split of an accepted line, by the page's shortcuts for K = {ab}: a third edge
//! is at c, the loop is a, b, c, an exchange is of ab with c-x or c-y, and where the pair has an end of ab, that end
//! and c save the same when they are moved.

use crate::bytes::{entries, numbers};
use crate::kit::generate::halls::Folder;
use crate::kit::generate::tellings::struck;
use crate::kit::met::reasons::Reasoned;
use crate::lengths::Lengths;
use crate::marks::PENDING;
use crate::packed::mark;
use crate::sheet::Sheet;

type Edge = (u16, u16);

fn rising(a: u16, b: u16) -> Edge {
    (a.min(b), a.max(b))
}

/// An accepted line, with the pairs of its cases and the points of their splits.
pub struct Due<'a> {
    lengths: Lengths<'a>,
    marks: &'a [u8],
    ab: Edge,
    c: u16,
    cases: Vec<(Edge, u16)>,
}

/// The sentence of a pair, and what was met with it.
pub type Sentence = (String, Vec<Reasoned>);

impl<'a> Due<'a> {
    /// The line at `index` of the folder's sheet; none if a case of it is no further split.
    pub fn new(folder: &'a Folder, table: &'a [u32], index: usize) -> Option<Due<'a>> {
        let sheet = numbers(&folder.sheet);
        let record = |at: u16| &sheet[Sheet::FIELDS * (usize::from(at) - 1)..][..Sheet::FIELDS];
        let line = record(index as u16);
        let (mut cases, mut at) = (Vec::new(), line[6]);
        while at != 0 {
            let case = record(at);
            if case[0] != Sheet::CASE_SPLIT {
                return None;
            }
            cases.push(((case[1], case[2]), case[5]));
            at = case[7];
        }
        let lengths = Lengths::new(folder.n as u16, table);
        Some(Due { lengths, marks: &folder.marks, ab: rising(line[1], line[2]), c: line[5], cases })
    }

    pub fn table(folder: &Folder) -> Vec<u32> {
        entries(&folder.table)
    }

    fn l(&self, a: u16, b: u16) -> i64 {
        i64::from(self.lengths.between(a, b))
    }

    /// What exchanging ab and c-x saves.
    fn exchange(&self, x: u16) -> i64 {
        let ((a, b), c) = (self.ab, self.c);
        let (straight, crossed) = (self.l(a, c) + self.l(b, x), self.l(a, x) + self.l(b, c));
        self.l(a, b) + self.l(c, x) - straight.max(crossed)
    }

    /// What moving c from between x and y to between a and b saves.
    fn moved(&self, x: u16, y: u16) -> i64 {
        let ((a, b), c) = (self.ab, self.c);
        self.l(a, b) + self.l(c, x) + self.l(c, y) - self.l(x, y) - self.l(a, c) - self.l(b, c)
    }

    /// Test 1: the lower of c-x and c-y that is not open.
    fn struck(&self, x: u16, y: u16) -> Option<Sentence> {
        let place = |point: u16| self.lengths.order.place(self.c, point);
        let [first, second] = [x, y].map(|point| struck(self.marks, place(point)));
        let at = if first { x } else { y };
        let (u, v) = rising(self.c, at);
        let mut met = vec![match (first, second) {
            (true, true) => Reasoned::StruckBoth,
            (true, false) => Reasoned::StruckFirst,
            (false, true) => Reasoned::StruckSecond,
            _ => return None,
        }];
        if mark(self.marks, place(at)) == PENDING {
            met.push(if first { Reasoned::PendingFirst } else { Reasoned::PendingSecond });
        }
        let later = self.by_edges(x, y).or_else(|| self.by_savings(x, y)).and_then(|(_, met)| met.first().copied());
        met.extend(match later {
            Some(Reasoned::ThirdEdge) => Some(Reasoned::StruckBeforeThird),
            Some(Reasoned::Loop) => Some(Reasoned::StruckBeforeLoop),
            Some(Reasoned::ExchangeFirst | Reasoned::ExchangeSecond | Reasoned::ExchangeBoth) => {
                Some(Reasoned::StruckBeforeExchange)
            }
            Some(_) => Some(Reasoned::StruckBeforeMove),
            None => None,
        });
        Some((format!("Struck edge {u}-{v} shuts out"), met))
    }

    fn at_end(&self) -> bool {
        [self.ab.0, self.ab.1].contains(&self.c)
    }

    /// The end of ab that is in the pair, if there is one; c is none.
    fn end_in(&self, x: u16, y: u16) -> Option<u16> {
        [self.ab.0, self.ab.1].into_iter().find(|&end| !self.at_end() && (end == x || end == y))
    }

    /// Tests 2 and 3.
    fn by_edges(&self, x: u16, y: u16) -> Option<Sentence> {
        let ((a, b), c) = (self.ab, self.c);
        if self.at_end() && ![a, b].contains(&x) && ![a, b].contains(&y) {
            return Some((format!("Third edge at {c} shuts out"), vec![Reasoned::ThirdEdge]));
        }
        if !self.at_end() && (x, y) == (a, b) {
            let mut points = [a, b, c];
            points.sort();
            let [p, q, r] = points;
            return Some((format!("Loop {p}-{q}-{r} shuts out"), vec![Reasoned::Loop]));
        }
        None
    }

    /// Tests 4 and 5, where c is no end of ab.
    fn by_savings(&self, x: u16, y: u16) -> Option<Sentence> {
        if self.at_end() {
            return None;
        }
        let ((a, b), [first, second], moved) = (self.ab, [x, y].map(|point| self.exchange(point)), self.moved(x, y));
        if first > 0 || second > 0 {
            let (at, saving) = if first > 0 { (x, first) } else { (y, second) };
            let (u, v) = rising(self.c, at);
            let mut met = vec![match (first > 0, second > 0) {
                (true, true) => Reasoned::ExchangeBoth,
                (true, false) => Reasoned::ExchangeFirst,
                _ => Reasoned::ExchangeSecond,
            }];
            met.extend((first > 0 && second > first).then_some(Reasoned::ExchangeLess));
            met.extend((moved > 0).then_some(Reasoned::ExchangeBeforeMove));
            return Some((format!("Exchanging {u}-{v} and {a}-{b} saves {saving} and shuts out"), met));
        }
        (moved > 0).then(|| self.moved_told(x, y, moved))
    }

    /// The lower of c and of the end of ab in the pair, which is moved to between c and the pair's other point.
    fn moved_told(&self, x: u16, y: u16, saving: i64) -> Sentence {
        let ((a, b), c) = (self.ab, self.c);
        let (point, (u, v), met) = match self.end_in(x, y) {
            Some(end) if end < c => (end, rising(c, if end == x { y } else { x }), Reasoned::MoveEnd),
            Some(_) => (c, (a, b), Reasoned::MoveSplit),
            None => (c, (a, b), Reasoned::MoveFree),
        };
        (format!("Moving {point} between {u} and {v} saves {saving} and shuts out"), vec![met])
    }

    /// The sentences of all pairs in order; none if the cases are not those of the pairs that stand.
    pub fn sentences(&self) -> Option<Vec<Sentence>> {
        let (n, c) = (self.lengths.order.n, self.c);
        let mut cases = self.cases.iter();
        let mut all = Vec::new();
        for x in (1..=n).filter(|&x| x != c) {
            for y in (x + 1..=n).filter(|&y| y != c) {
                let shut_out = self.struck(x, y).or_else(|| self.by_edges(x, y)).or_else(|| self.by_savings(x, y));
                let (words, met) = match shut_out {
                    Some(told) => told,
                    None => self.standing(x, y, cases.next()?)?,
                };
                all.push((format!("{words} {x} and {y} as neighbours of {c}.\n"), met));
            }
        }
        cases.next().is_none().then_some(all)
    }

    /// A pair that stands, by its case.
    fn standing(&self, x: u16, y: u16, &(pair, point): &(Edge, u16)) -> Option<Sentence> {
        let mut met = vec![Reasoned::Split];
        if !self.at_end() && self.end_in(x, y).is_none() {
            met.extend((self.exchange(x) == 0 || self.exchange(y) == 0).then_some(Reasoned::ExchangeTie));
            met.extend((self.moved(x, y) == 0).then_some(Reasoned::MoveTie));
        }
        (pair == (x, y)).then(|| (format!("Further split at {point} settles"), met))
    }
}
