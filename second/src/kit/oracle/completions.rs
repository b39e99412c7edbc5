//! Whether "some text of the language begins with these lines", in the most literal way: by trying completions, for
//! small texts.

use crate::kit::programs::naive::language::{instance, Line};
use crate::kit::programs::naive::texts::whole_lines;

/// The most points of a text that is completed.
const MOST_POINTS: u64 = 6;

/// Whether a text has few enough points to be completed.
pub fn small(text: &[u8]) -> bool {
    in_reach(&whole_lines(text).0.iter().map(|line| Line::said(None, line)).collect::<Vec<_>>())
}

fn in_reach(said: &[Line]) -> bool {
    !said.iter().any(|line| matches!(line, Line::Dimension(n) if *n > MOST_POINTS))
}

/// Lines that complete a text, with all that they are put together from.
pub struct Completions {
    /// Keyword lines that may be missing: of each row one, or none.
    keywords: [Vec<Line>; 3],
    sections: [Line; 2],
    /// Node lines 1 to MOST_POINTS.
    nodes: Vec<Line>,
    /// Lines with so many weights, from 1.
    weights: Vec<Line>,
    eof: Line,
}

impl Default for Completions {
    fn default() -> Self {
        let most = MOST_POINTS * (MOST_POINTS - 1) / 2;
        Completions {
            keywords: [
                [0, 1, 4].map(Line::Dimension).to_vec(),
                vec![Line::Rule(1), Line::Explicit],
                vec![Line::UpperRow],
            ],
            sections: [Line::NodeSection, Line::WeightSection],
            nodes: (1..=MOST_POINTS).map(|place| Line::Numbers(vec![place, 0, 0])).collect(),
            weights: (1..=most).map(|weights| Line::Numbers(vec![0; weights as usize])).collect(),
            eof: Line::Eof,
        }
    }
}

impl Completions {
    /// Whether the number of points of a text, or 19 and its line, is the right answer. None where a text outside the
    /// language has too many points to be completed here.
    pub fn agree(&self, text: &[u8], answer: u64) -> Option<bool> {
        let (whole, rest) = whole_lines(text);
        let said: Vec<Line> = whole.iter().map(|line| Line::said(None, line)).collect();
        let instance = instance(None, &said.iter().collect::<Vec<_>>()).filter(|_| rest.is_empty());
        if let Some(instance) = instance {
            return Some(answer == 65_536 * instance.n);
        }
        if answer % 256 != 19 {
            return Some(false);
        }
        in_reach(&said).then(|| self.tells(&said, answer / 256))
    }

    /// Whether the line told is 1 + the number of leading whole lines that some text begins with.
    fn tells(&self, said: &[Line], line: u64) -> bool {
        let good = (line as usize).wrapping_sub(1);
        if good > said.len() {
            return false;
        }
        let next = good == said.len() || !self.complete(&said[..good + 1]);
        next && self.complete(&said[..good])
    }

    /// Whether some completion makes these lines an instance.
    pub fn complete(&self, lines: &[Line]) -> bool {
        let mut all: Vec<&Line> = lines.iter().collect();
        instance(None, &all).is_some() || self.keywords(&mut all, 0)
    }

    /// Tries each keyword line of this row and of those behind it, and none.
    fn keywords<'a>(&'a self, all: &mut Vec<&'a Line>, row: usize) -> bool {
        let Some(keywords) = self.keywords.get(row) else { return self.sections(all) };
        self.keywords(all, row + 1) || keywords.iter().any(|line| with(all, [line], |all| self.keywords(all, row + 1)))
    }

    /// Tries each section, and none.
    fn sections<'a>(&'a self, all: &mut Vec<&'a Line>) -> bool {
        self.bodies(all) || self.sections.iter().any(|line| with(all, [line], |all| self.bodies(all)))
    }

    /// Tries no data, node lines of each place to each other, and each number of weights.
    fn bodies<'a>(&'a self, all: &mut Vec<&'a Line>) -> bool {
        let most = self.nodes.len();
        let mut stretches = (0..most).flat_map(|first| (first..most).map(move |last| &self.nodes[first..=last]));
        self.ends(all)
            || stretches.any(|nodes| with(all, nodes, |all| self.ends(all)))
            || self.weights.iter().any(|line| with(all, [line], |all| self.ends(all)))
    }

    /// Ends in EOF.
    fn ends<'a>(&'a self, all: &mut Vec<&'a Line>) -> bool {
        with(all, [&self.eof], |all| instance(None, all).is_some())
    }
}

/// Tries the lines with some more, which are taken back.
fn with<'a>(
    all: &mut Vec<&'a Line>,
    more: impl IntoIterator<Item = &'a Line>,
    tries: impl FnOnce(&mut Vec<&'a Line>) -> bool,
) -> bool {
    let before = all.len();
    all.extend(more);
    let found = tries(all);
    all.truncate(before);
    found
}
