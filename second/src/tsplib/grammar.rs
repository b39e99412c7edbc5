//! The grammar of a TSPLIB text, by recursive descent over its lines (02, Paper 1):
//!
//! ```text
//! text    = heading, section, body, eof.
//! heading = {item}: each once but for COMMENT, in any order, DIMENSION and EDGE_WEIGHT_TYPE among them,
//!           and EDGE_WEIGHT_FORMAT exactly with EXPLICIT.
//! body    = n nodes, or lines of n(n - 1)/2 weights.
//! ```
//!
//! What has been read of a text can always be completed, so the line told is the first that does not fit.

use super::lines::{self, Item, Section, WeightType};

/// What a text holds.
pub struct Instance {
    pub n: u32,
    pub body: Body,
}

pub enum Body {
    Coordinates { rule: u32, coordinates: Vec<u32> },
    Weights(Vec<u32>),
}

/// The line told by 19.
#[derive(Clone, Copy, Debug, PartialEq, Eq)]
pub struct FaultyLine(pub u64);

/// The part of a text that is still to be read.
struct Reader<'a> {
    rest: &'a [u8],
    /// Lines read so far.
    lines: u64,
}

/// Reads a whole text.
pub fn text(bytes: &[u8]) -> Result<Instance, FaultyLine> {
    let mut reader = Reader { rest: bytes, lines: 0 };
    let (n, weight_type) = reader.heading()?;
    let body = match weight_type {
        WeightType::Rule(rule) => Body::Coordinates { rule, coordinates: reader.nodes(n)? },
        WeightType::Explicit => Body::Weights(reader.weights(pairs(n))?),
    };
    reader.line(lines::eof)?;
    reader.end()?;
    Ok(Instance { n, body })
}

/// n(n − 1)/2.
fn pairs(n: u32) -> u64 {
    u64::from(n) * u64::from(n.saturating_sub(1)) / 2
}

impl Reader<'_> {
    /// The next line, if it is a whole one that the parser takes. Otherwise it is the faulty one.
    fn line<T>(&mut self, parser: impl FnOnce(&[u8]) -> Option<T>) -> Result<T, FaultyLine> {
        let fault = FaultyLine(self.lines + 1);
        let end = self.rest.iter().position(|&byte| byte == b'\n').ok_or(fault)?;
        let parsed = parser(&self.rest[..end]).ok_or(fault)?;
        self.rest = &self.rest[end + 1..];
        self.lines += 1;
        Ok(parsed)
    }

    /// "EOF is last."
    fn end(&self) -> Result<(), FaultyLine> {
        self.rest.is_empty().then_some(()).ok_or(FaultyLine(self.lines + 1))
    }

    /// The keyword lines and the section's name.
    fn heading(&mut self) -> Result<(u32, WeightType), FaultyLine> {
        let mut heading = Heading::default();
        loop {
            let section = self.line(|line| match lines::section(line) {
                Some(section) => heading.closed(section).map(Some),
                None => heading.item(lines::item(line)?).map(|()| None),
            })?;
            if let Some(known) = section {
                return Ok(known);
            }
        }
    }

    /// "Node lines must come in order 1 to n."
    fn nodes(&mut self, n: u32) -> Result<Vec<u32>, FaultyLine> {
        let mut coordinates = Vec::new();
        for place in 1..=n {
            coordinates.extend(self.line(|line| lines::node(line, place))?);
        }
        Ok(coordinates)
    }

    /// So many weights, which "may break over lines".
    fn weights(&mut self, count: u64) -> Result<Vec<u32>, FaultyLine> {
        let mut weights = Vec::new();
        while (weights.len() as u64) < count {
            self.line(|line| weight_line(line, count, &mut weights))?;
        }
        Ok(weights)
    }
}

/// One weight or more, and not more than there are to be.
fn weight_line(line: &[u8], count: u64, weights: &mut Vec<u32>) -> Option<()> {
    let before = weights.len();
    for number in lines::numbers(line) {
        weights.push(number?);
    }
    (weights.len() > before && weights.len() as u64 <= count).then_some(())
}

/// The keyword lines read so far.
#[derive(Default)]
struct Heading {
    name: Option<()>,
    problem_type: Option<()>,
    dimension: Option<u32>,
    weight_type: Option<WeightType>,
    upper_row: Option<()>,
}

/// Fills a place that is free.
fn once<T>(place: &mut Option<T>, value: T) -> Option<()> {
    place.replace(value).is_none().then_some(())
}

impl Heading {
    /// One more keyword line: "only COMMENT may repeat", and "EXPLICIT alone has EDGE_WEIGHT_FORMAT too".
    fn item(&mut self, item: Item) -> Option<()> {
        match item {
            Item::Name => once(&mut self.name, ())?,
            Item::Comment => {}
            Item::Type => once(&mut self.problem_type, ())?,
            Item::Dimension(n) => once(&mut self.dimension, n)?,
            Item::WeightType(weight_type) => once(&mut self.weight_type, weight_type)?,
            Item::UpperRow => once(&mut self.upper_row, ())?,
        }
        let measured = matches!(self.weight_type, Some(WeightType::Rule(_)));
        (!measured || self.upper_row.is_none()).then_some(())
    }

    /// The heading before a section's name: n and a type of the section's kind are known.
    fn closed(&self, section: Section) -> Option<(u32, WeightType)> {
        let known = (self.dimension?, self.weight_type?);
        let fits = match (section, known.1) {
            (Section::NodeCoord, WeightType::Rule(_)) => true,
            (Section::EdgeWeight, WeightType::Explicit) => self.upper_row.is_some(),
            _ => false,
        };
        fits.then_some(known)
    }
}
