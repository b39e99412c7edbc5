//! Good TSPLIB texts in many shapes (02, Paper 1).

use crate::instance::Instance;
use crate::kit::generate::rng::Rng;
use crate::kit::listed::listed;
use crate::kit::programs::naive::language::NAMES;

listed! {
    /// What a line of a text is.
    #[derive(Clone, Copy, Debug, PartialEq, Eq)]
    pub enum Kind {
        ALL: [
            Name,
            Comment,
            Type,
            Dimension,
            WeightType,
            Format,
            NodeSection,
            WeightSection,
            Node,
            Weights,
            Eof,
        ]
    }
}

impl Kind {
    pub fn is_item(self) -> bool {
        (self as usize) < Kind::NodeSection as usize
    }

    /// Whether its line has numbers.
    pub fn has_numbers(self) -> bool {
        matches!(self, Kind::Dimension | Kind::Node | Kind::Weights)
    }
}

listed! {
    /// How a good text looks.
    #[derive(Clone, Copy, Debug, PartialEq, Eq)]
    pub enum Shape {
        ALL: [
            /// EDGE_WEIGHT_TYPE before DIMENSION, and EDGE_WEIGHT_FORMAT before EDGE_WEIGHT_TYPE.
            TypeFirst,
            FormatFirst,
            FormatLater,
            NoName,
            EmptyName,
            /// Bytes that are at fault elsewhere: a tab, a carriage return, 0, above 127.
            AnyBytes,
            ColonInName,
            /// A value that is a whole line of another kind.
            EofInName,
            NoComment,
            SeveralComments,
            EmptyComment,
            NoType,
            NoBlanks,
            BlanksBeforeKeyword,
            BlanksBeforeColon,
            BlanksAfterColon,
            BlanksAfterValue,
            BlanksAtSection,
            BlanksAtEof,
            BlanksAtBothEnds,
            SeveralBlanksBetween,
            ZerosInDimension,
            ZerosInNumbers,
            /// More digits than a number of 32 bits has.
            ManyZeros,
            WeightsOnOneLine,
            OneWeightALine,
            RowsByLine,
            LinesAcrossRows,
        ]
    }
}

/// What a text holds.
#[derive(Clone, Debug)]
pub enum Held {
    Coordinates { rule: u32, coordinates: Vec<u32> },
    Weights(Vec<u32>),
}

impl Held {
    /// Random numbers within the limits, now and then a limit itself. The rule is 1 to 5, or 0 for weights.
    pub fn random(rng: &mut Rng, n: u32, rule: u32) -> Held {
        let numbers = |rng: &mut Rng, count: u64, most: u32| {
            let small = if rng.chance(50) { 30 } else { most };
            (0..count).map(|_| if rng.chance(2) { most } else { rng.between(0, small as usize) as u32 }).collect()
        };
        let n = u64::from(n);
        match rule {
            0 => Held::Weights(numbers(rng, n * n.saturating_sub(1) / 2, Instance::MOST_LENGTH)),
            _ => Held::Coordinates { rule, coordinates: numbers(rng, 2 * n, Instance::MOST_COORDINATE) },
        }
    }

    pub fn numbers(&mut self) -> &mut Vec<u32> {
        match self {
            Held::Coordinates { coordinates, .. } => coordinates,
            Held::Weights(weights) => weights,
        }
    }

    /// 1 to 5, or 0 for weights.
    pub fn rule(&self) -> u32 {
        match self {
            Held::Coordinates { rule, .. } => *rule,
            Held::Weights(_) => 0,
        }
    }
}

#[derive(Clone, Debug)]
pub struct Line {
    pub kind: Kind,
    /// Without the newline.
    pub bytes: Vec<u8>,
}

/// A good text by its lines.
#[derive(Clone, Debug)]
pub struct Text {
    pub n: u32,
    pub held: Held,
    pub lines: Vec<Line>,
    pub shapes: Vec<Shape>,
}

impl Text {
    /// A text in some shape.
    pub fn new(rng: &mut Rng, n: u32, held: Held) -> Text {
        let dress = Dress { blanks: rng.pick(&[0, 30, 60]), zeros: rng.pick(&[0, 0, 30]) };
        let mut text = Text { n, held: held.clone(), lines: vec![], shapes: vec![] };
        text.heading(rng, dress);
        match &held {
            Held::Coordinates { coordinates, .. } => {
                text.alone(rng, dress, Kind::NodeSection, b"NODE_COORD_SECTION");
                text.nodes(rng, dress, coordinates);
            }
            Held::Weights(weights) => {
                text.alone(rng, dress, Kind::WeightSection, b"EDGE_WEIGHT_SECTION");
                text.weights(rng, dress, weights);
            }
        }
        text.alone(rng, dress, Kind::Eof, b"EOF");
        text
    }

    pub fn bytes(&self) -> Vec<u8> {
        joined(&self.lines.iter().map(|line| line.bytes.clone()).collect::<Vec<_>>())
    }

    /// The lines of this kind, by their places from 0.
    pub fn places(&self, kind: Kind) -> Vec<usize> {
        (0..self.lines.len()).filter(|&place| self.lines[place].kind == kind).collect()
    }

    fn shape(&mut self, is: bool, shape: Shape) {
        if is && !self.shapes.contains(&shape) {
            self.shapes.push(shape);
        }
    }

    /// The keyword lines, in any order.
    fn heading(&mut self, rng: &mut Rng, dress: Dress) {
        let mut kinds = vec![Kind::Dimension, Kind::WeightType];
        let comments = rng.pick(&[0, 1, 2, 4]);
        kinds.extend(rng.chance(60).then_some(Kind::Name));
        kinds.extend(rng.chance(60).then_some(Kind::Type));
        kinds.extend((self.held.rule() == 0).then_some(Kind::Format));
        kinds.extend((0..comments).map(|_| Kind::Comment));
        rng.shuffle(&mut kinds);
        let place = |kind| kinds.iter().position(|&other| other == kind);
        self.shape(place(Kind::WeightType) < place(Kind::Dimension), Shape::TypeFirst);
        self.shape(place(Kind::Format).is_some() && place(Kind::Format) < place(Kind::WeightType), Shape::FormatFirst);
        self.shape(place(Kind::Format) > place(Kind::WeightType), Shape::FormatLater);
        self.shape(place(Kind::Name).is_none(), Shape::NoName);
        self.shape(place(Kind::Type).is_none(), Shape::NoType);
        self.shape(comments == 0, Shape::NoComment);
        self.shape(comments > 1, Shape::SeveralComments);
        kinds.into_iter().for_each(|kind| self.item(rng, dress, kind));
    }

    fn item(&mut self, rng: &mut Rng, dress: Dress, kind: Kind) {
        let (keyword, value): (&[u8], Vec<u8>) = match kind {
            Kind::Name => (b"NAME", self.name(rng)),
            Kind::Comment => (b"COMMENT", any_value(rng)),
            Kind::Type => (b"TYPE", b"TSP".to_vec()),
            Kind::Dimension => (b"DIMENSION", dress.number(rng, u64::from(self.n))),
            Kind::WeightType => (b"EDGE_WEIGHT_TYPE", weight_type(self.held.rule()).to_vec()),
            _ => (b"EDGE_WEIGHT_FORMAT", b"UPPER_ROW".to_vec()),
        };
        let gaps = [(); 4].map(|()| dress.gap(rng));
        self.shape(kind == Kind::Comment && value.is_empty(), Shape::EmptyComment);
        self.shape(kind == Kind::Dimension && value.starts_with(b"0") && value.len() > 1, Shape::ZerosInDimension);
        let dressed = [Shape::BlanksBeforeKeyword, Shape::BlanksBeforeColon, Shape::BlanksAfterColon];
        gaps.iter().zip(dressed).for_each(|(gap, shape)| self.shape(!gap.is_empty(), shape));
        let any = matches!(kind, Kind::Name | Kind::Comment);
        self.shape(!gaps[3].is_empty() && !any, Shape::BlanksAfterValue);
        self.shape(gaps.iter().all(Vec::is_empty) && !any, Shape::NoBlanks);
        let bytes = [&gaps[0], keyword, &gaps[1], b":", &gaps[2], &value[..], &gaps[3]].concat();
        self.lines.push(Line { kind, bytes });
    }

    fn name(&mut self, rng: &mut Rng) -> Vec<u8> {
        let value = any_value(rng);
        self.shape(value.is_empty(), Shape::EmptyName);
        self.shape(value.iter().any(|byte| !(32..127).contains(byte)), Shape::AnyBytes);
        self.shape(value.contains(&b':'), Shape::ColonInName);
        self.shape(value == b"EOF", Shape::EofInName);
        value
    }

    /// A word by itself.
    fn alone(&mut self, rng: &mut Rng, dress: Dress, kind: Kind, word: &[u8]) {
        let bytes = [&dress.gap(rng), word, &dress.gap(rng)].concat();
        let shape = if kind == Kind::Eof { Shape::BlanksAtEof } else { Shape::BlanksAtSection };
        self.shape(bytes.len() > word.len(), shape);
        self.lines.push(Line { kind, bytes });
    }

    fn nodes(&mut self, rng: &mut Rng, dress: Dress, coordinates: &[u32]) {
        for (place, point) in (1..).zip(coordinates.chunks_exact(2)) {
            self.data(rng, dress, Kind::Node, &[place, point[0], point[1]]);
        }
    }

    /// Weights a row a line, one a line, all on one, or broken anywhere.
    fn weights(&mut self, rng: &mut Rng, dress: Dress, weights: &[u32]) {
        let rows: Vec<usize> = (1..self.n as usize).rev().collect();
        let way = rng.below(4);
        let (mut left, mut row) = (weights, rows.iter());
        while !left.is_empty() {
            let count = match way {
                0 => *row.next().unwrap(),
                1 => 1,
                2 => left.len(),
                _ => rng.between(1, 2 * self.n as usize).min(left.len()),
            };
            let (line, rest) = left.split_at(count);
            self.data(rng, dress, Kind::Weights, line);
            left = rest;
        }
        let shapes = [Shape::RowsByLine, Shape::OneWeightALine, Shape::WeightsOnOneLine, Shape::LinesAcrossRows];
        self.shape(weights.len() > 1, shapes[way]);
    }

    /// A line of numbers.
    fn data(&mut self, rng: &mut Rng, dress: Dress, kind: Kind, numbers: &[u32]) {
        let mut bytes = dress.gap(rng);
        let (begins, mut wide) = (bytes.len(), false);
        for (place, &number) in numbers.iter().enumerate() {
            if place > 0 {
                let gap = dress.gap(rng);
                wide |= !gap.is_empty();
                bytes.extend([&gap[..], b" "].concat());
            }
            let word = dress.number(rng, u64::from(number));
            self.shape(word.starts_with(b"0") && word.len() > 1, Shape::ZerosInNumbers);
            self.shape(word.starts_with(b"0") && word.len() > 10, Shape::ManyZeros);
            bytes.extend(word);
        }
        let end = dress.gap(rng);
        self.shape(begins > 0 && !end.is_empty(), Shape::BlanksAtBothEnds);
        self.shape(wide, Shape::SeveralBlanksBetween);
        bytes.extend(end);
        self.lines.push(Line { kind, bytes });
    }
}

/// Lines, each with its newline.
pub fn joined(lines: &[Vec<u8>]) -> Vec<u8> {
    lines.iter().flat_map(|line| [&line[..], b"\n"].concat()).collect()
}

fn weight_type(rule: u32) -> &'static [u8] {
    match rule {
        0 => b"EXPLICIT",
        _ => NAMES[rule as usize - 1].as_bytes(),
    }
}

/// A value of NAME or COMMENT: none, a word, a line of another kind, any bytes but a newline.
fn any_value(rng: &mut Rng) -> Vec<u8> {
    match rng.below(5) {
        0 => vec![],
        1 => b"berlin 52".to_vec(),
        2 => rng.pick(&[&b"EOF"[..], b"DIMENSION : 5", b"a:b", b": :", b"1 2 3"]).to_vec(),
        3 => b"\ttab \r".to_vec(),
        _ => {
            let size = rng.between(1, 12);
            (0..size).map(|_| rng.word() as u8).map(|byte| if byte == b'\n' { 0 } else { byte }).collect()
        }
    }
}

/// How much a text is dressed up, in a hundred: blanks that need not be, and leading zeros.
#[derive(Clone, Copy)]
struct Dress {
    blanks: usize,
    zeros: usize,
}

impl Dress {
    fn gap(self, rng: &mut Rng) -> Vec<u8> {
        let size = if rng.chance(self.blanks) { rng.between(1, 3) } else { 0 };
        vec![b' '; size]
    }

    fn number(self, rng: &mut Rng, number: u64) -> Vec<u8> {
        let zeros = if rng.chance(self.zeros) { rng.pick(&[1, 2, 12]) } else { 0 };
        format!("{}{number}", "0".repeat(zeros)).into_bytes()
    }
}
