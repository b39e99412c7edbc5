//! What is done to a TSPLIB text at one of its lines; some of it leaves a good text.

use crate::kit::generate::rng::Rng;
use crate::kit::generate::texts::{joined, Kind, Text};
use crate::kit::listed::listed;

listed! {
    #[derive(Clone, Copy, Debug, PartialEq, Eq)]
    pub enum Damage {
        ALL: [
            Emptied,
            Blanked,
            Tab,
            Return,
            UnknownLine,
            LowerCase,
            ColonDropped,
            ColonAdded,
            ValueDropped,
            OtherValue,
            WordMore,
            Signed,
            Plus,
            Fraction,
            Exponent,
            Of33Bits,
            OfManyDigits,
            NumberMore,
            NumberLess,
            OtherPlace,
            Doubled,
            Swapped,
            Moved,
            Dropped,
            NewlineDropped,
            CutBefore,
            CutWithin,
            CutAtNewline,
            ItemBefore,
            SectionBefore,
            NumbersBefore,
            EofBefore,
            ByteChanged,
            ByteInserted,
            ByteDeleted,
        ]
    }
}

use Damage::*;

impl Damage {
    /// Whether it is for lines of this kind.
    pub fn is_for(self, kind: Kind) -> bool {
        match self {
            ColonDropped | ValueDropped | OtherValue => kind.is_item(),
            LowerCase => !matches!(kind, Kind::Node | Kind::Weights),
            ColonAdded => !kind.is_item(),
            Signed | Plus | Fraction | Exponent | Of33Bits | OfManyDigits | NumberMore | NumberLess => {
                kind.has_numbers()
            }
            OtherPlace => kind == Kind::Node,
            Swapped => kind != Kind::Eof,
            _ => true,
        }
    }

    /// The text with the line at this place, from 0, so damaged.
    pub fn make(self, rng: &mut Rng, text: &Text, place: usize) -> Vec<u8> {
        let mut lines: Vec<Vec<u8>> = text.lines.iter().map(|line| line.bytes.clone()).collect();
        let start: usize = lines[..place].iter().map(|line| line.len() + 1).sum();
        let end = start + lines[place].len();
        match self {
            Doubled => lines.insert(place, lines[place].clone()),
            Swapped => lines.swap(place, place + 1),
            Moved => {
                let line = lines.remove(place);
                lines.insert(rng.below(lines.len() + 1), line);
            }
            Dropped => drop(lines.remove(place)),
            ItemBefore => lines.insert(place, rng.pick(&ITEMS).to_vec()),
            SectionBefore => lines.insert(place, rng.pick(&SECTIONS).to_vec()),
            NumbersBefore => lines.insert(place, rng.pick(&NUMBERS).to_vec()),
            EofBefore => lines.insert(place, b"EOF".to_vec()),
            NewlineDropped | CutBefore | CutWithin | CutAtNewline | ByteChanged | ByteInserted | ByteDeleted => {
                return self.bytes(rng, joined(&lines), start, end);
            }
            _ => self.line(rng, &mut lines[place]),
        }
        joined(&lines)
    }

    /// Damage to a text's bytes at the line from start to the newline at end.
    fn bytes(self, rng: &mut Rng, mut text: Vec<u8>, start: usize, end: usize) -> Vec<u8> {
        let at = rng.between(start, end);
        let byte = if rng.chance(50) { rng.pick(b" :\n\t\r0159AE") } else { rng.word() as u8 };
        match self {
            NewlineDropped => drop(text.remove(end)),
            CutBefore => text.truncate(start),
            CutWithin => text.truncate(at.max(start + 1).min(end)),
            CutAtNewline => text.truncate(end),
            ByteChanged => text[at] = byte,
            ByteInserted => text.insert(at, byte),
            _ => drop(text.remove(at)),
        }
        text
    }

    /// Damage to one line's bytes.
    fn line(self, rng: &mut Rng, line: &mut Vec<u8>) {
        let colon = line.iter().position(|&byte| byte == b':');
        match self {
            Emptied => line.clear(),
            Blanked => *line = vec![b' '; rng.between(1, 3)],
            Tab => line.insert(rng.below(line.len() + 1), b'\t'),
            Return => line.push(b'\r'),
            UnknownLine => *line = rng.pick(&UNKNOWN).to_vec(),
            LowerCase => line.make_ascii_lowercase(),
            ColonDropped => drop(line.remove(colon.unwrap())),
            ColonAdded => line.extend(b" :"),
            ValueDropped => line.truncate(colon.unwrap() + 1),
            OtherValue => {
                line.truncate(colon.unwrap() + 1);
                line.extend(rng.pick(&VALUES));
            }
            WordMore => line.extend(b" A"),
            OtherPlace => other_place(rng, line),
            _ => self.number(rng, line),
        }
    }

    /// Damage to one of a line's numbers.
    fn number(self, rng: &mut Rng, line: &mut Vec<u8>) {
        let words = words(line).into_iter().filter(|&(start, _)| line[start].is_ascii_digit()).collect::<Vec<_>>();
        let (start, end) = rng.pick(&words);
        let new: &[u8] = match self {
            Signed => &[b"-", &line[start..end]].concat(),
            Plus => &[b"+", &line[start..end]].concat(),
            Fraction => &[&line[start..end], b".0"].concat(),
            Exponent => &[&line[start..end], b"e0"].concat(),
            Of33Bits => rng.pick(&[&b"4294967296"[..], b"4294967297", b"04294967300", b"8589934591"]),
            OfManyDigits => {
                rng.pick(&[&b"18446744073709551616"[..], b"18446744073709551617", b"99999999999999999999999999"])
            }
            NumberMore => &[&line[start..end], b" ", &line[start..end]].concat(),
            _ => b"",
        };
        let new = new.to_vec();
        line.splice(start..end, new);
    }
}

/// A node's place one lower, one higher or 256 higher, so that it is another one.
fn other_place(rng: &mut Rng, line: &mut Vec<u8>) {
    let (start, end) = words(line)[0];
    let place: u64 = String::from_utf8_lossy(&line[start..end]).parse().unwrap();
    let other = rng.pick(&[place - 1, place + 1, place + 256, place + (1 << 32)]);
    line.splice(start..end, other.to_string().into_bytes());
}

/// The words of a line, parted by blanks or a colon, by their first byte and the one behind their last.
fn words(line: &[u8]) -> Vec<(usize, usize)> {
    let part = |&byte: &u8| byte == b' ' || byte == b':';
    let mut words = Vec::new();
    let mut start = 0;
    for word in line.split(part) {
        if !word.is_empty() {
            words.push((start, start + word.len()));
        }
        start += word.len() + 1;
    }
    words
}

const ITEMS: [&[u8]; 9] = [
    b"NAME : x",
    b"COMMENT : x",
    b"TYPE : TSP",
    b"DIMENSION : 4",
    b"DIMENSION : 5",
    b"EDGE_WEIGHT_TYPE : EUC_2D",
    b"EDGE_WEIGHT_TYPE : EXPLICIT",
    b"EDGE_WEIGHT_FORMAT : UPPER_ROW",
    b"DISPLAY_DATA_TYPE : NO_DISPLAY",
];

const SECTIONS: [&[u8]; 3] = [b"NODE_COORD_SECTION", b"EDGE_WEIGHT_SECTION", b"TOUR_SECTION"];

const NUMBERS: [&[u8]; 3] = [b"1", b"1 2 3", b"7 7 7 7"];

const UNKNOWN: [&[u8]; 7] = [b"CAPACITY : 3", b"-1", b"x", b"EOF EOF", b"NAME", b": :", b"DIMENSION 4"];

const VALUES: [&[u8]; 16] = [
    b" ATSP",
    b"TSP",
    b" TSP TSP",
    b" GEO",
    b" EXPLICIT",
    b" EUC_2D",
    b" MAN_2D ",
    b" EUC_3D",
    b" CEIL_2D",
    b" FULL_MATRIX",
    b" UPPER_ROW",
    b" 5",
    b" 4 4",
    b" 0x4",
    b": 4",
    b" 4294967295",
];
