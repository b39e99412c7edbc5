//! What one line of a TSPLIB text says, without its newline (02, Paper 1).

/// A keyword line.
pub enum Item {
    Name,
    Comment,
    Type,
    Dimension(u32),
    WeightType(WeightType),
    /// EDGE_WEIGHT_FORMAT, of which there is one.
    UpperRow,
}

/// The value of EDGE_WEIGHT_TYPE.
#[derive(Clone, Copy, PartialEq, Eq)]
pub enum WeightType {
    /// Lengths by this rule.
    Rule(u32),
    Explicit,
}

/// The name of a section.
#[derive(Clone, Copy)]
pub enum Section {
    NodeCoord,
    EdgeWeight,
}

/// Without the blanks at both ends. A blank is a space and nothing else.
fn trimmed(mut bytes: &[u8]) -> &[u8] {
    while let [b' ', rest @ ..] | [rest @ .., b' '] = bytes {
        bytes = rest;
    }
    bytes
}

/// item = keyword, ":", value, with "blanks between at will". The first colon ends the keyword.
pub fn item(line: &[u8]) -> Option<Item> {
    let colon = line.iter().position(|&byte| byte == b':')?;
    let (keyword, value) = (trimmed(&line[..colon]), trimmed(&line[colon + 1..]));
    match keyword {
        b"NAME" => Some(Item::Name),
        b"COMMENT" => Some(Item::Comment),
        b"TYPE" => (value == b"TSP").then_some(Item::Type),
        b"DIMENSION" => number(value).map(Item::Dimension),
        b"EDGE_WEIGHT_TYPE" => weight_type(value).map(Item::WeightType),
        b"EDGE_WEIGHT_FORMAT" => (value == b"UPPER_ROW").then_some(Item::UpperRow),
        _ => None,
    }
}

fn weight_type(value: &[u8]) -> Option<WeightType> {
    let names: [&[u8]; 5] = [b"EUC_2D", b"CEIL_2D", b"ATT", b"MAN_2D", b"MAX_2D"];
    if value == b"EXPLICIT" {
        return Some(WeightType::Explicit);
    }
    (1..).zip(names).find(|&(_, name)| name == value).map(|(rule, _)| WeightType::Rule(rule))
}

/// A section's name stands by itself.
pub fn section(line: &[u8]) -> Option<Section> {
    match trimmed(line) {
        b"NODE_COORD_SECTION" => Some(Section::NodeCoord),
        b"EDGE_WEIGHT_SECTION" => Some(Section::EdgeWeight),
        _ => None,
    }
}

/// EOF stands by itself.
pub fn eof(line: &[u8]) -> Option<()> {
    (trimmed(line) == b"EOF").then_some(())
}

/// number = digit, {digit}, and "fits 32 bits".
fn number(digits: &[u8]) -> Option<u32> {
    let add = |value: u32, &digit: &u8| match digit {
        b'0'..=b'9' => value.checked_mul(10)?.checked_add(u32::from(digit - b'0')),
        _ => None,
    };
    (!digits.is_empty()).then_some(())?;
    digits.iter().try_fold(0, add)
}

/// The numbers of a line, "parted by blanks"; none for a word that is no number.
pub fn numbers(line: &[u8]) -> impl Iterator<Item = Option<u32>> + '_ {
    line.split(|&byte| byte == b' ').filter(|word| !word.is_empty()).map(number)
}

/// node = place, x, y.
pub fn node(line: &[u8], place: u32) -> Option<[u32; 2]> {
    let mut numbers = numbers(line);
    let [first, x, y] = [numbers.next()??, numbers.next()??, numbers.next()??];
    (first == place && numbers.next().is_none()).then_some([x, y])
}
