//! The language of TSPLIB texts, told naively: what each line says by itself, and which lines make an instance.

use super::Mistake;

/// What one line says.
#[derive(Clone, Debug, PartialEq, Eq)]
pub enum Line {
    Name,
    Comment,
    Type,
    Dimension(u64),
    Rule(u32),
    Explicit,
    UpperRow,
    NodeSection,
    WeightSection,
    Numbers(Vec<u64>),
    Eof,
    Other,
}

use Line::*;

/// What lines that make an instance hold.
#[derive(Clone, Debug, PartialEq, Eq)]
pub struct Instance {
    pub n: u64,
    /// None for weights.
    pub rule: Option<u32>,
    /// Coordinates or weights.
    pub numbers: Vec<u64>,
}

/// The values of EDGE_WEIGHT_TYPE but EXPLICIT, by their rules from 1.
pub const NAMES: [&str; 5] = ["EUC_2D", "CEIL_2D", "ATT", "MAN_2D", "MAX_2D"];

/// n(n − 1)/2.
pub fn pairs(n: u64) -> u64 {
    if n == 0 {
        0
    } else {
        n * (n - 1) / 2
    }
}

impl Line {
    /// What these bytes say: their words, the first colon being one.
    pub fn said(mistake: Option<Mistake>, line: &[u8]) -> Line {
        let makes = |wrong| mistake == Some(wrong);
        let line = if makes(Mistake::ReturnEnds) { line.strip_suffix(b"\r").unwrap_or(line) } else { line };
        let colons = if makes(Mistake::EveryColon) { line.len() + 1 } else { 2 };
        let spaced = line.splitn(colons, |&byte| byte == b':').collect::<Vec<_>>().join(&b" : "[..]);
        let spaced = if makes(Mistake::AnyCase) { spaced.to_ascii_uppercase() } else { spaced };
        let blank = |&byte: &u8| byte == b' ' || makes(Mistake::TabIsBlank) && byte == b'\t';
        let words: Vec<&[u8]> = spaced.split(blank).filter(|word| !word.is_empty()).collect();
        match words[..] {
            [b"NAME", b":"] | [b"COMMENT", b":"] if makes(Mistake::ValueNeeded) => Other,
            [b"NAME", b":", _, b":", ..] if makes(Mistake::EveryColon) => Other,
            [b"NAME", b":", ..] => Name,
            [b"COMMENT", b":", ..] => Comment,
            [b"TYPE", b":", b"TSP"] => Type,
            [b"TYPE", b":", _] if makes(Mistake::AnyType) => Type,
            [b"DIMENSION", b":", value] => number(mistake, value).map_or(Other, |n| dimension(mistake, n)),
            [b"EDGE_WEIGHT_TYPE", b":", b"EXPLICIT"] => Explicit,
            [b"EDGE_WEIGHT_TYPE", b":", value] => rule(mistake, value),
            [b"EDGE_WEIGHT_FORMAT", b":", b"UPPER_ROW"] => UpperRow,
            [b"NODE_COORD_SECTION"] => NodeSection,
            [b"EDGE_WEIGHT_SECTION"] => WeightSection,
            [b"EOF"] => Eof,
            [b"EOF", b":"] if makes(Mistake::EofColon) => Eof,
            [] => {
                if makes(Mistake::BlankLines) {
                    Comment
                } else {
                    Other
                }
            }
            _ => words.iter().map(|word| number(mistake, word)).collect::<Option<_>>().map_or(Other, Numbers),
        }
    }

    fn is_keyword(&self) -> bool {
        matches!(self, Name | Comment | Type | Dimension(_) | Rule(_) | Explicit | UpperRow)
    }

    pub fn is_section(&self) -> bool {
        matches!(self, NodeSection | WeightSection)
    }
}

fn dimension(mistake: Option<Mistake>, n: u64) -> Line {
    if mistake == Some(Mistake::PointsInLanguage) && !(4..=180).contains(&n) {
        return Other;
    }
    Dimension(n)
}

fn rule(mistake: Option<Mistake>, value: &[u8]) -> Line {
    let names = if mistake == Some(Mistake::TwoNames) { &NAMES[..2] } else { &NAMES[..] };
    let place = names.iter().position(|name| name.as_bytes() == value);
    place.map_or(Other, |place| Rule(place as u32 + 1))
}

/// A word of digits that fits 32 bits.
fn number(mistake: Option<Mistake>, word: &[u8]) -> Option<u64> {
    let word = if mistake == Some(Mistake::PlusSign) { word.strip_prefix(b"+").unwrap_or(word) } else { word };
    if word.is_empty() || word.iter().any(|byte| !b"0123456789".contains(byte)) {
        return None;
    }
    if mistake == Some(Mistake::TenDigits) && word.len() > 10 {
        return None;
    }
    let value = word.iter().fold(0, |value: u128, byte| (value * 10 + u128::from(byte - 48)).min(1 << 100));
    if mistake == Some(Mistake::NumberOf33Bits) && value >> 33 == 0 {
        return Some(value as u64 % (1 << 32));
    }
    (value <= 4_294_967_295).then_some(value as u64)
}

/// How many of the lines are so.
pub fn count(lines: &[&Line], is: impl Fn(&Line) -> bool) -> usize {
    lines.iter().filter(|line| is(line)).count()
}

/// Keyword lines that a text may have before its section, if they are all.
pub fn heading(mistake: Option<Mistake>, head: &[&Line]) -> Option<(u64, Option<u32>)> {
    let makes = |wrong| mistake == Some(wrong);
    let n = head.iter().find_map(|line| if let Dimension(n) = line { Some(*n) } else { None })?;
    let rule = head.iter().find_map(|line| match line {
        Rule(rule) => Some(Some(*rule)),
        Explicit => Some(None),
        _ => None,
    })?;
    let formats = count(head, |line| *line == UpperRow);
    let due = match rule {
        Some(_) => formats == 0 || makes(Mistake::FormatWithCoordinates),
        None => formats == 1 || makes(Mistake::FormatMissing) && formats == 0,
    };
    (due && once(mistake, head)).then_some((n, rule))
}

/// Keyword lines alone, and none but COMMENT twice.
pub fn once(mistake: Option<Mistake>, head: &[&Line]) -> bool {
    let dimensions = count(head, |line| matches!(line, Dimension(_)));
    head.iter().all(|line| line.is_keyword())
        && (count(head, |line| *line == Name) <= 1 || mistake == Some(Mistake::SecondName))
        && count(head, |line| *line == Type) <= 1
        && (dimensions <= 1 || mistake == Some(Mistake::SecondDimension))
        && count(head, |line| matches!(line, Rule(_) | Explicit)) <= 1
        && count(head, |line| *line == UpperRow) <= 1
}

/// The numbers of a body: lines of numbers and nothing else.
pub fn rows<'a>(mistake: Option<Mistake>, body: &[&'a Line]) -> Option<Vec<&'a [u64]>> {
    let read = |line: &&'a Line| match line {
        Numbers(row) => Some(Some(&row[..])),
        Comment if mistake == Some(Mistake::CommentInBody) => None,
        _ => Some(None),
    };
    body.iter().filter_map(read).collect()
}

/// Whether node lines come in order from 1.
pub fn in_order(mistake: Option<Mistake>, rows: &[&[u64]]) -> bool {
    let place =
        |(place, row): (u64, &&[u64])| row.len() == 3 && (row[0] == place || mistake == Some(Mistake::AnyOrder));
    (1..).zip(rows).all(place)
}

/// Whether weights come row by row, as they need not.
pub fn by_row(mistake: Option<Mistake>, n: u64, rows: &[&[u64]]) -> bool {
    mistake != Some(Mistake::RowsByLine) || (1..).zip(rows).all(|(place, row)| row.len() as u64 + place == n)
}

/// "Keywords, a section, its body, EOF": what the lines hold, if they are all of a text.
pub fn instance(mistake: Option<Mistake>, lines: &[&Line]) -> Option<Instance> {
    let (last, rest) = lines.split_last()?;
    if **last != Eof {
        return None;
    }
    let section = rest.iter().position(|line| line.is_section())?;
    let (n, rule) = heading(mistake, &rest[..section])?;
    let rows = rows(mistake, &rest[section + 1..])?;
    let total: usize = rows.iter().map(|row| row.len()).sum();
    let numbers: Vec<u64> = match rule {
        Some(_) => {
            let good = *rest[section] == NodeSection && rows.len() as u64 == n && in_order(mistake, &rows);
            good.then(|| rows.iter().flat_map(|row| row[1..].to_vec()).collect())?
        }
        None => {
            let surplus = mistake == Some(Mistake::WeightPastTheCount) && total as u64 > pairs(n);
            let good = (total as u64 == pairs(n) || surplus) && by_row(mistake, n, &rows);
            (*rest[section] == WeightSection && good).then(|| rows.concat())?
        }
    };
    Some(Instance { n, rule, numbers })
}
