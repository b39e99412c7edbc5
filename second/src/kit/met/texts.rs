//! Which TSPLIB texts were met: their shapes, what was done to them, and which lines were told.

use std::fmt;

use crate::kit::damage::texts::Damage;
use crate::kit::generate::texts::{Kind, Shape, Text};
use crate::kit::listed::listed;

/// The refusal numbers of reading a text, in their order; 5 has the place of 4.
const NUMBERS: [u64; 4] = [19, 1, 2, 4];

listed! {
    /// What is wrong with a table's size.
    #[derive(Clone, Copy, Debug, PartialEq, Eq)]
    pub enum Size {
        ALL: [
            None,
            ByteLess,
            EntryLess,
            ByteMore,
            EntryMore,
        ]
    }
}

/// The line that 19 tells.
#[derive(Clone, Copy, Debug, PartialEq, Eq)]
pub enum Told {
    /// A whole line that was one of this kind, or has come before one.
    Line(Kind),
    Unfinished,
    Missing,
    BehindEof,
}

impl Told {
    pub fn all() -> Vec<Told> {
        let lines = Kind::ALL.map(Told::Line).into_iter();
        lines.chain([Told::Unfinished, Told::Missing, Told::BehindEof]).collect()
    }
}

listed! {
    /// Texts that are made in turn, each with coordinates and with weights.
    #[derive(Clone, Copy, Debug, PartialEq, Eq)]
    pub enum Special {
        ALL: [
            CutAtEveryByte,
            EachDamageAtEachLine,
            EachByteChanged,
            /// DIMENSION is this, and so many points are there; the last two have fewer.
            Points0,
            Points1,
            Points3,
            Points180,
            Points181,
            Points260,
            Points4294967295,
            Points4294967296,
        ]
    }
}

use Special::*;

impl Special {
    /// The value of DIMENSION.
    pub fn dimension(self) -> Option<u64> {
        match self {
            CutAtEveryByte | EachDamageAtEachLine | EachByteChanged => None,
            Points0 => Some(0),
            Points1 => Some(1),
            Points3 => Some(3),
            Points180 => Some(180),
            Points181 => Some(181),
            Points260 => Some(260),
            Points4294967295 => Some(4_294_967_295),
            Points4294967296 => Some(4_294_967_296),
        }
    }
}

const BODIES: [&str; 2] = ["coordinates", "weights"];

#[derive(Clone)]
pub struct TextsMet {
    /// Texts compared.
    pub texts: u64,
    /// Those read into a table, by their rule, 0 for weights.
    rules: [u64; 6],
    /// Good ones by their shape.
    shapes: [u64; Shape::ALL.len()],
    /// By what was done to a line, and its kind.
    damages: [[u64; Kind::ALL.len()]; Damage::ALL.len()],
    /// Those that 19 was told for.
    refused: [u64; Damage::ALL.len()],
    /// 19 by its line, and of these the ones held against all completions.
    told: Vec<u64>,
    held: Vec<u64>,
    /// Texts made line by line, complete at last.
    walked: u64,
    /// Special texts, with coordinates and with weights.
    specials: [[u64; 2]; Special::ALL.len()],
    /// Wrong sizes alone, likewise.
    sizes: [[u64; 2]; Size::ALL.len()],
    /// Calls refused by one number where a later one, or none, is for the call too; likewise.
    orders: [[[u64; 2]; NUMBERS.len()]; NUMBERS.len()],
}

impl Default for TextsMet {
    fn default() -> Self {
        TextsMet {
            texts: 0,
            rules: [0; 6],
            shapes: [0; Shape::ALL.len()],
            damages: [[0; Kind::ALL.len()]; Damage::ALL.len()],
            refused: [0; Damage::ALL.len()],
            told: vec![0; Told::all().len()],
            held: vec![0; Told::all().len()],
            walked: 0,
            specials: [[0; 2]; Special::ALL.len()],
            sizes: [[0; 2]; Size::ALL.len()],
            orders: [[[0; 2]; NUMBERS.len()]; NUMBERS.len()],
        }
    }
}

/// 0 for coordinates, 1 for weights.
fn body(text: &Text) -> usize {
    usize::from(text.held.rule() == 0)
}

impl TextsMet {
    /// A text that was read into a table.
    pub fn read(&mut self, text: &Text) {
        self.rules[text.held.rule() as usize] += 1;
        text.shapes.iter().for_each(|&shape| self.shapes[shape as usize] += 1);
    }

    /// A text with one line damaged.
    pub fn damaged(&mut self, damage: Damage, kind: Kind, answer: u64) {
        self.damages[damage as usize][kind as usize] += 1;
        self.refused[damage as usize] += u64::from(answer % 256 == 19);
    }

    /// A line that was told, and whether it was held against all completions.
    pub fn told(&mut self, told: Told, held: bool) {
        let place = Told::all().iter().position(|&other| other == told).unwrap();
        self.told[place] += 1;
        self.held[place] += u64::from(held);
    }

    /// A text made line by line that is none of 19's: it has few points.
    pub fn walked(&mut self, answer: u64) {
        self.walked += u64::from(answer == 1);
    }

    pub fn special(&mut self, special: Special, text: &Text) {
        self.specials[special as usize][body(text)] += 1;
    }

    /// A call that was refused for the table's size alone.
    pub fn size(&mut self, size: Size, text: &Text) {
        self.sizes[size as usize][body(text)] += 1;
    }

    /// A call that was refused by the first of these numbers, all of which are for it.
    pub fn order(&mut self, numbers: &[u64], text: &Text) {
        let place = |number| NUMBERS.iter().position(|&other| other == number).unwrap_or(NUMBERS.len() - 1);
        for &later in numbers {
            self.orders[place(numbers[0])][place(later)][body(text)] += 1;
        }
    }

    /// Each thing that has to be met, and how often it was.
    fn counts(&self) -> Vec<(String, u64)> {
        let bodies = |name: String, counts: [u64; 2]| {
            let named = move |(body, times)| (format!("a text with {body}: {name}"), times);
            BODIES.into_iter().zip(counts).map(named)
        };
        let mut all: Vec<(String, u64)> = Vec::new();
        all.extend((0..6).map(|rule| (format!("a text read by rule {rule}"), self.rules[rule])));
        all.extend(Shape::ALL.map(|shape| (format!("a text read with {shape:?}"), self.shapes[shape as usize])));
        for damage in Damage::ALL {
            let kinds = Kind::ALL.into_iter().filter(|&kind| damage.is_for(kind));
            let times = |kind| self.damages[damage as usize][kind as usize];
            all.extend(kinds.map(|kind| (format!("{damage:?} at {kind:?}"), times(kind))));
            all.push((format!("19 for {damage:?}"), self.refused[damage as usize]));
        }
        for (told, (times, held)) in Told::all().iter().zip(self.told.iter().zip(&self.held)) {
            all.push((format!("19 at {told:?}"), *times));
            all.push((format!("19 at {told:?}, held against completions"), *held));
        }
        all.push(("a text made line by line".to_string(), self.walked));
        for special in Special::ALL {
            all.extend(bodies(format!("{special:?}"), self.specials[special as usize]));
        }
        for size in Size::ALL {
            all.extend(bodies(format!("refused for the table's size, {size:?}"), self.sizes[size as usize]));
        }
        for (first, later) in
            (0..NUMBERS.len()).flat_map(|first| (first..NUMBERS.len()).map(move |later| (first, later)))
        {
            let name = format!("refused by {} where {} is due", NUMBERS[first], NUMBERS[later]);
            all.extend(bodies(name, self.orders[first][later]));
        }
        all
    }

    /// What was never met.
    pub fn missing(&self) -> Vec<String> {
        self.counts().into_iter().filter(|&(_, times)| times == 0).map(|(name, _)| name).collect()
    }
}

impl fmt::Display for TextsMet {
    fn fmt(&self, f: &mut fmt::Formatter) -> fmt::Result {
        let listed = |counts: &[u64]| counts.iter().map(u64::to_string).collect::<Vec<_>>().join(" ");
        let least = |counts: Vec<u64>| counts.into_iter().min().unwrap_or(0);
        let damages = Damage::ALL.into_iter().flat_map(|damage| {
            let kinds = Kind::ALL.into_iter().filter(move |&kind| damage.is_for(kind));
            kinds.map(move |kind| self.damages[damage as usize][kind as usize])
        });
        writeln!(f, "texts: {}; read by EXPLICIT and rules 1 to 5: {};", self.texts, listed(&self.rules))?;
        write!(
            f,
            "the least for a shape: {}, for a damage at a kind of line: {},",
            least(self.shapes.to_vec()),
            least(damages.collect())
        )?;
        writeln!(f, " for a special text: {};", least(self.specials.concat()))?;
        writeln!(f, "complete texts made line by line: {};", self.walked)?;
        writeln!(f, "19 by the kind of its line, unfinished, missing, behind EOF: {}", listed(&self.told))?;
        write!(f, "held against all completions: {}", listed(&self.held))
    }
}
