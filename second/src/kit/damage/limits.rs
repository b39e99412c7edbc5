//! What can be wrong with a call of marking or listing over two tables (02, Paper 11).

use std::fmt;

use crate::instance::Instance;
use crate::kit::damage::spoil;
use crate::kit::generate::between::{Between, BetweenCall};
use crate::kit::generate::rng::Rng;
use crate::lengths::EdgeOrder;
use crate::packed::put_mark;

fn entry(table: &[u8], place: usize) -> u32 {
    u32::from_le_bytes(table[4 * place..4 * place + 4].try_into().unwrap())
}

fn put(table: &mut [u8], place: usize, length: u32) {
    table[4 * place..4 * place + 4].copy_from_slice(&length.to_le_bytes());
}

/// Which of the two tables is at fault.
#[derive(Clone, Copy, Debug, PartialEq, Eq)]
pub enum Tables {
    Low,
    High,
    Both,
}

impl Tables {
    const ALL: [Tables; 3] = [Tables::Low, Tables::High, Tables::Both];

    fn name(self) -> &'static str {
        match self {
            Tables::Low => "the low table",
            Tables::High => "the high table",
            Tables::Both => "both tables",
        }
    }

    fn of(self, call: &mut BetweenCall) -> Vec<&mut Vec<u8>> {
        match self {
            Tables::Low => vec![&mut call.low],
            Tables::High => vec![&mut call.high],
            Tables::Both => vec![&mut call.low, &mut call.high],
        }
    }
}

/// Where a low length is above its high one.
#[derive(Clone, Copy, Debug, PartialEq, Eq)]
pub enum At {
    First,
    Last,
    Any,
}

/// What is wrong with a call.
#[derive(Clone, Copy, Debug, PartialEq, Eq)]
pub enum LimitFault {
    Count,
    /// So many bytes too few or too many.
    Shorter(Tables, usize),
    Longer(Tables, usize),
    Entry(Tables),
    Above(At),
    SetSize,
    MarkThree,
    Pending,
    NoRecord,
    BrokenRecord,
    /// a, b or c by its place: 0, or n + 1.
    Zero(usize),
    AboveCount(usize),
    SameEnds,
    Struck,
    ShortList,
}

use LimitFault::*;

impl LimitFault {
    pub fn all(between: Between) -> Vec<LimitFault> {
        let sizes = |tables| [Shorter(tables, 1), Shorter(tables, 4), Longer(tables, 1), Longer(tables, 4)];
        let mut all = vec![Count];
        all.extend(Tables::ALL.into_iter().flat_map(sizes));
        all.extend(Tables::ALL.map(Entry));
        all.extend([Above(At::First), Above(At::Last), Above(At::Any), SetSize, MarkThree]);
        match between {
            Between::Mark => all.extend([Pending, NoRecord, BrokenRecord]),
            Between::List => {
                all.extend((0..3).flat_map(|place| [Zero(place), AboveCount(place)]));
                all.extend([SameEnds, Struck, ShortList]);
            }
        }
        all
    }

    /// A fault that this number is for; not at the last edge, since another one may cut that off.
    pub fn of(rng: &mut Rng, between: Between, number: u64) -> LimitFault {
        let fits = |fault: &LimitFault| fault.number() == number && *fault != Above(At::Last);
        let all: Vec<LimitFault> = LimitFault::all(between).into_iter().filter(fits).collect();
        rng.pick(&all)
    }

    /// The refusal number.
    pub fn number(self) -> u64 {
        match self {
            Count => 1,
            Shorter(..) | Longer(..) => 2,
            Entry(_) => 5,
            Above(_) => 25,
            SetSize | MarkThree => 6,
            Pending => 20,
            NoRecord | BrokenRecord => 7,
            Zero(_) | AboveCount(_) | SameEnds => 11,
            Struck => 12,
            ShortList => 18,
        }
    }

    /// Its number, and the table at fault where 2 or 5 tells one of two.
    pub fn group(self) -> String {
        match self {
            Shorter(tables, _) | Longer(tables, _) | Entry(tables) => {
                format!("{} for {}", self.number(), tables.name())
            }
            _ => self.number().to_string(),
        }
    }

    /// Puts the fault into a call that has not got it.
    pub fn make(self, rng: &mut Rng, call: &mut BetweenCall) {
        let n = call.n as u16;
        match self {
            Count => call.n = spoil::no_count(rng, call.n),
            Shorter(tables, bytes) => tables.of(call).into_iter().for_each(|table| table.truncate(table.len() - bytes)),
            Longer(tables, bytes) => tables.of(call).into_iter().for_each(|table| table.resize(table.len() + bytes, 0)),
            Entry(tables) => long_entry(rng, call, tables),
            Above(at) => low_above_high(rng, call, at),
            SetSize => call.marks.push(0),
            MarkThree => put_mark(&mut call.marks, 0, 3),
            Pending => put_mark(&mut call.marks, 1, 2),
            NoRecord => call.sheet.clear(),
            BrokenRecord => call.sheet.push(0),
            Zero(place) => call.abc[place] = 0,
            AboveCount(place) => call.abc[place] = n + 1,
            SameEnds => call.abc[1] = call.abc[0],
            Struck => put_mark(&mut call.marks, EdgeOrder::new(n).place(call.abc[0], call.abc[1]), 0),
            ShortList => drop(call.list.pop()),
        }
    }
}

/// The places at which the low length is not above the high one, but for the last.
fn kept_places(call: &BetweenCall) -> Vec<usize> {
    let places = 0..call.low.len().min(call.high.len()) / 4 - 1;
    places.filter(|&place| entry(&call.low, place) <= entry(&call.high, place)).collect()
}

/// An entry above its limit at a place that is not told by 25; in the low table alone it is above the high one, too.
fn long_entry(rng: &mut Rng, call: &mut BetweenCall, tables: Tables) {
    let length = rng.pick(&[Instance::MOST_LENGTH + 1, 1 << 31, u32::MAX]);
    let place = rng.pick(&kept_places(call));
    tables.of(call).into_iter().for_each(|table| put(table, place, length));
}

/// A low length above its high one, often by 1, both within their limit.
fn low_above_high(rng: &mut Rng, call: &mut BetweenCall, at: At) {
    let places = call.low.len() / 4;
    let place = match at {
        At::First => 0,
        At::Last => places - 1,
        At::Any => rng.below(places - 1),
    };
    let high = entry(&call.high, place).min(Instance::MOST_LENGTH - 1);
    let low =
        if rng.chance(50) { high + 1 } else { rng.between(high as usize + 1, Instance::MOST_LENGTH as usize) as u32 };
    put(&mut call.high, place, high);
    put(&mut call.low, place, low);
}

impl fmt::Display for LimitFault {
    fn fmt(&self, f: &mut fmt::Formatter) -> fmt::Result {
        let name = |place: usize| ["a", "b", "c"][place];
        match *self {
            Count => write!(f, "n outside 4 to 180"),
            Shorter(tables, bytes) => write!(f, "{} too short by {bytes}", tables.name()),
            Longer(tables, bytes) => write!(f, "{} too long by {bytes}", tables.name()),
            Entry(tables) => write!(f, "an entry above 2,000,000 in {}", tables.name()),
            Above(At::First) => write!(f, "a low length above its high one at the first edge"),
            Above(At::Last) => write!(f, "a low length above its high one at the last edge"),
            Above(At::Any) => write!(f, "a low length above its high one at any edge"),
            SetSize => write!(f, "a set a byte too long"),
            MarkThree => write!(f, "a mark of 3"),
            Pending => write!(f, "a pending mark"),
            NoRecord => write!(f, "no record"),
            BrokenRecord => write!(f, "a broken record"),
            Zero(place) => write!(f, "{} = 0", name(place)),
            AboveCount(place) => write!(f, "{} = n + 1", name(place)),
            SameEnds => write!(f, "a = b"),
            Struck => write!(f, "a struck edge"),
            ShortList => write!(f, "a list a byte too short"),
        }
    }
}
