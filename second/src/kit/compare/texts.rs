//! TSPLIB texts in three programs: good ones, with faults of the call, damaged ones; the line told against all
//! completions of small ones.

use super::{hex, Checked, Comparison, Difference, Hex};
use crate::instance::Instance;
use crate::kit::damage::texts::Damage;
use crate::kit::generate::rng::Rng;
use crate::kit::generate::sets::old_bytes;
use crate::kit::generate::texts::{Held, Kind, Text};
use crate::kit::met::coverage::Operation;
use crate::kit::met::texts::{Size, Special, Told};
use crate::kit::oracle::completions::small;
use crate::kit::programs::checker::Checker;
use crate::kit::programs::naive::texts::whole_lines;

/// The stream of random numbers for texts is one of its own.
const STREAM: u64 = 0x7473_706c_6962;

/// Good texts of a case.
const GOOD: usize = 4;

/// Damaged texts made from the last of them.
const DAMAGED: usize = 14;

/// Calls with faults.
const FAULTY: usize = 4;

/// Special texts come once in so many cases each, with coordinates and with weights.
const ROUND: u64 = 80;

/// Lines tried for a text that is made line by line, in one of so many cases.
const STEPS: usize = 40;
const WALKS: u64 = 16;

/// What they are.
const LINES: [&[u8]; 16] = [
    b"NAME:",
    b" COMMENT : x",
    b"TYPE: TSP",
    b"DIMENSION : 0",
    b"DIMENSION : 1",
    b"DIMENSION : 2",
    b"DIMENSION : 3",
    b"EDGE_WEIGHT_TYPE : MAN_2D",
    b"EDGE_WEIGHT_TYPE : EXPLICIT",
    b"EDGE_WEIGHT_FORMAT : UPPER_ROW",
    b"NODE_COORD_SECTION",
    b"EDGE_WEIGHT_SECTION",
    b"1 5 5",
    b"2 6 6",
    b"7",
    b"EOF",
];

/// What is wrong with a call.
#[derive(Clone, Copy, Default)]
struct Faults {
    text: bool,
    points: bool,
    size: Option<Size>,
    limit: bool,
}

/// The size of a table for n points.
fn table_size(n: u32) -> usize {
    let n = n as usize;
    4 * (n * n.saturating_sub(1) / 2)
}

impl Size {
    fn make(self, table: &mut Vec<u8>) {
        let size = table.len();
        match self {
            Size::None => table.clear(),
            Size::ByteLess => table.truncate(size - 1),
            Size::EntryLess => table.truncate(size - 4),
            Size::ByteMore => table.push(0),
            Size::EntryMore => table.extend([0; 4]),
        }
    }
}

impl Comparison<'_> {
    /// Runs the texts of cases from 0 on until so many are compared.
    pub fn run_texts(&mut self, texts: u64) -> Checked {
        let mut case = 0;
        while self.coverage.texts.texts < texts {
            self.texts(case)?;
            case += 1;
        }
        Ok(())
    }

    /// The texts of a case: good ones, calls with faults, damaged ones, and special ones in turn.
    pub fn texts(&mut self, case: u64) -> Checked {
        self.case = case;
        let mut rng = Rng::new(self.seed ^ STREAM, case);
        let mut text = some_text(&mut rng);
        for _ in 1..GOOD {
            self.good_text(&mut rng, &text)?;
            text = some_text(&mut rng);
        }
        self.good_text(&mut rng, &text)?;
        for _ in 0..FAULTY {
            let rule = some_rule(&mut rng);
            self.faulty_text(&mut rng, rule)?;
        }
        let table = old_bytes(&mut rng, table_size(text.n));
        for _ in 0..DAMAGED {
            let (damage, place) = some_damage(&mut rng, &text);
            self.damaged_text(&mut rng, &text, &table, damage, place)?;
        }
        if case % WALKS == 0 {
            self.walk(&mut rng)?;
        }
        let turn = (case % ROUND) as usize;
        let rule = if turn % 2 == 0 { rng.between(1, 5) as u32 } else { 0 };
        Special::ALL.get(turn / 2).map_or(Ok(()), |&special| self.special(&mut rng, special, rule))
    }

    /// A good text within all limits: "the table is as if the numbers had been handed to 01's operations".
    fn good_text(&mut self, rng: &mut Rng, text: &Text) -> Checked {
        let bytes = text.bytes();
        let mut table = old_bytes(rng, table_size(text.n));
        let before = table.clone();
        let answer = self.read_text(&bytes, &mut table)?;
        for checker in [self.one, self.other] {
            let (number, due) = handed_in(checker, text, &before);
            if (number, 65_536 * u64::from(text.n), Hex(&due)) != (0, answer, Hex(&table)) {
                let told = format!("{answer}; {} answers {number} for its numbers", checker.name());
                return Err(self.told("text as its numbers", &bytes, told));
            }
        }
        self.coverage.texts.read(text);
        Ok(())
    }

    /// A text and a table with faults, of which the first number is due.
    fn faulty_text(&mut self, rng: &mut Rng, rule: u32) -> Checked {
        let mut faults = Faults::default();
        while faults.numbers(rule).is_empty() {
            let size = rng.chance(40).then(|| rng.pick(&Size::ALL));
            faults = Faults { text: rng.chance(20), points: rng.chance(25), size, limit: rng.chance(50) };
        }
        let n = if faults.points { rng.between(2, 3) } else { rng.between(4, 7) } as u32;
        let mut held = Held::random(rng, n, rule);
        if faults.limit {
            let most = if rule == 0 { Instance::MOST_LENGTH } else { Instance::MOST_COORDINATE };
            let place = rng.below(held.numbers().len());
            held.numbers()[place] = rng.pick(&[most + 1, 1 << 31, u32::MAX]);
        }
        let text = Text::new(rng, n, held);
        let mut bytes = text.bytes();
        if faults.text {
            bytes.pop();
        }
        let mut table = old_bytes(rng, table_size(n));
        faults.size.iter().for_each(|size| size.make(&mut table));
        let answer = self.read_text(&bytes, &mut table)?;
        let numbers = faults.numbers(rule);
        if answer % 256 != numbers[0] {
            return Err(self.told("text, refused", &bytes, format!("{answer}, {} is due", numbers[0])));
        }
        self.coverage.texts.order(&numbers, &text);
        if let ([2], Some(size)) = (&numbers[..], faults.size) {
            self.coverage.texts.size(size, &text);
        }
        Ok(())
    }

    /// A text with one line damaged.
    fn damaged_text(&mut self, rng: &mut Rng, text: &Text, table: &[u8], damage: Damage, place: usize) -> Checked {
        let bytes = damage.make(rng, text, place);
        let answer = self.read_text(&bytes, &mut table.to_vec())?;
        let kind = text.lines[place].kind;
        self.coverage.texts.damaged(damage, kind, answer);
        if answer % 256 == 19 {
            let told = told(text, &bytes, answer / 256);
            self.coverage.texts.told(told, small(&bytes));
        }
        Ok(())
    }

    fn special(&mut self, rng: &mut Rng, special: Special, rule: u32) -> Checked {
        let dimension = special.dimension();
        let n = dimension.map_or_else(|| rng.between(4, 5) as u64, |n| if n > 260 { 4 } else { n }) as u32;
        let held = Held::random(rng, n, rule);
        let mut text = Text::new(rng, n, held);
        let table = old_bytes(rng, table_size(n));
        match special {
            Special::CutAtEveryByte => self.cuts(&text, &table)?,
            Special::EachDamageAtEachLine => self.each_damage(rng, &text, &table)?,
            Special::EachByteChanged => self.each_byte(rng, &text, &table)?,
            Special::Points4294967295 => {
                let line = rename(&mut text, dimension.unwrap(), Kind::Eof);
                self.due(&text.bytes(), &table, 19 + 256 * line)?;
                let (bytes, lines) = (text.bytes(), text.lines.len() as u64);
                let ended = bytes.len() - text.lines.last().unwrap().bytes.len() - 1;
                self.due(&bytes[..ended], &table, 19 + 256 * lines)?;
            }
            Special::Points4294967296 => {
                let line = rename(&mut text, dimension.unwrap(), Kind::Dimension);
                self.due(&text.bytes(), &table, 19 + 256 * line)?;
            }
            Special::Points180 => self.good_text(rng, &text)?,
            _ => self.due(&text.bytes(), &table, 1)?,
        }
        self.coverage.texts.special(special, &text);
        Ok(())
    }

    /// A text whose answer is known.
    fn due(&mut self, bytes: &[u8], table: &[u8], due: u64) -> Checked {
        let answer = self.read_text(bytes, &mut table.to_vec())?;
        if answer == due {
            return Ok(());
        }
        Err(self.told("text, refused", bytes, format!("{answer}, {due} is due")))
    }

    /// The text cut at every byte.
    fn cuts(&mut self, text: &Text, table: &[u8]) -> Checked {
        let bytes = text.bytes();
        for end in 0..bytes.len() {
            let whole = bytes[..end].iter().filter(|&&byte| byte == b'\n').count() as u64;
            self.due(&bytes[..end], table, 19 + 256 * (whole + 1))?;
        }
        Ok(())
    }

    fn each_damage(&mut self, rng: &mut Rng, text: &Text, table: &[u8]) -> Checked {
        for place in 0..text.lines.len() {
            for damage in Damage::ALL.into_iter().filter(|damage| damage.is_for(text.lines[place].kind)) {
                self.damaged_text(rng, text, table, damage, place)?;
            }
        }
        Ok(())
    }

    /// Each byte changed, deleted, and one inserted before it.
    fn each_byte(&mut self, rng: &mut Rng, text: &Text, table: &[u8]) -> Checked {
        let bytes = text.bytes();
        for place in 0..bytes.len() {
            let other = if rng.chance(50) { rng.pick(b" :\n\t0A") } else { rng.word() as u8 };
            let replaced = [(1, vec![other]), (1, vec![]), (0, vec![other])];
            for (taken, put) in replaced {
                let changed = [&bytes[..place], &put, &bytes[place + taken..]].concat();
                self.read_text(&changed, &mut table.to_vec())?;
            }
        }
        Ok(())
    }

    /// A text made line by line: each line that some text can go on with is kept.
    fn walk(&mut self, rng: &mut Rng) -> Checked {
        let mut text = Vec::new();
        for _ in 0..STEPS {
            let longer = [&text[..], rng.pick(&LINES), b"\n"].concat();
            let (answer, lines) = (self.read_text(&longer, &mut [])?, whole_lines(&longer).0.len() as u64);
            if answer % 256 != 19 {
                self.coverage.texts.walked(answer);
                return Ok(());
            }
            if answer / 256 > lines {
                text = longer;
            }
        }
        Ok(())
    }

    /// Reads a text in three programs; the table is left as the first one leaves it.
    fn read_text(&mut self, text: &[u8], table: &mut [u8]) -> Result<u64, Difference> {
        let before = table.to_vec();
        let call = |checker: &dyn Checker| {
            let mut table = before.clone();
            let answer = checker.read_tsplib(text, &mut table);
            (answer, table, checker.tsplib_points(text))
        };
        let (answer, left, points) = call(self.one);
        let inputs = || format!("{}text {}\ntable {}\n", show(text), hex(text), hex(&before));
        for checker in [self.other, self.naive] {
            let (other, other_left, other_points) = call(checker);
            self.same_as("text", (answer, Hex(&left)), (checker.name(), (other, Hex(&other_left))), inputs)?;
            self.same_as("points of a text", points, (checker.name(), other_points), inputs)?;
        }
        self.coverage.texts.texts += 1;
        self.coverage.number(Operation::ReadTsplib, answer % 256);
        self.coverage.number(Operation::TsplibPoints, points % 256);
        let refusal = answer % 256;
        if refusal != 0 && left != before {
            return Err(self.told("text, refused", text, format!("{answer}, and the table has changed")));
        }
        let agree = if refusal == 0 || refusal == 19 { points == answer } else { points % 65_536 == 0 && answer < 6 };
        if !agree {
            return Err(self.told("text and its points", text, format!("{answer}, {points}")));
        }
        if self.completions.agree(text, points) == Some(false) {
            return Err(self.told("text by its completions", text, format!("{points}")));
        }
        table.copy_from_slice(&left);
        Ok(answer)
    }

    fn told(&self, what: &str, text: &[u8], answer: String) -> Difference {
        self.difference(what, format!("{}text {}\n{}: {answer}\n", show(text), hex(text), self.one.name()))
    }
}

impl Faults {
    /// The numbers that are for the call, in their order.
    fn numbers(self, rule: u32) -> Vec<u64> {
        let limit = if rule == 0 { 5 } else { 4 };
        let faults = [(self.text, 19), (self.points, 1), (self.size.is_some(), 2), (self.limit, limit)];
        faults.into_iter().filter(|fault| fault.0).map(|fault| fault.1).collect()
    }
}

/// 1 to 5, or as often 0 for weights.
fn some_rule(rng: &mut Rng) -> u32 {
    if rng.chance(50) {
        0
    } else {
        rng.between(1, 5) as u32
    }
}

/// A good text, mostly a small one.
fn some_text(rng: &mut Rng) -> Text {
    let n = if rng.chance(85) { rng.between(4, 7) } else { rng.between(8, 40) } as u32;
    let rule = some_rule(rng);
    let held = Held::random(rng, n, rule);
    Text::new(rng, n, held)
}

/// Gives DIMENSION another value; answers the number of the line of this kind.
fn rename(text: &mut Text, dimension: u64, kind: Kind) -> u64 {
    let place = text.places(Kind::Dimension)[0];
    text.lines[place].bytes = format!("DIMENSION : {dimension}").into_bytes();
    text.places(kind)[0] as u64 + 1
}

/// A damage at a line that it is for, each kind of line as often as another.
fn some_damage(rng: &mut Rng, text: &Text) -> (Damage, usize) {
    loop {
        let (damage, places) = (rng.pick(&Damage::ALL), text.places(rng.pick(&Kind::ALL)));
        if !places.is_empty() && damage.is_for(text.lines[places[0]].kind) {
            return (damage, rng.pick(&places));
        }
    }
}

/// What a program answers for the numbers of a text, and the table that it leaves.
fn handed_in(checker: &dyn Checker, text: &Text, table: &[u8]) -> (u64, Vec<u8>) {
    let bytes = |numbers: &[u32]| numbers.iter().flat_map(|number| number.to_le_bytes()).collect::<Vec<u8>>();
    let mut table = table.to_vec();
    match &text.held {
        Held::Coordinates { rule, coordinates } => {
            (checker.measure(text.n, *rule, &bytes(coordinates), &mut table), table)
        }
        Held::Weights(weights) => (0, bytes(weights)),
    }
}

/// Which line of a damaged text was told.
fn told(text: &Text, bytes: &[u8], line: u64) -> Told {
    let (whole, rest) = whole_lines(bytes);
    let place = line as usize - 1;
    if place > 0 && whole[place - 1].trim_ascii() == b"EOF" {
        return Told::BehindEof;
    }
    match (place < whole.len(), rest.is_empty()) {
        (true, _) => Told::Line(text.lines[place.min(text.lines.len() - 1)].kind),
        (false, true) => Told::Missing,
        (false, false) => Told::Unfinished,
    }
}

/// A short text as it is read by people.
fn show(text: &[u8]) -> String {
    if text.len() > 2_000 {
        return String::new();
    }
    format!("{}\n", text.escape_ascii().to_string().replace("\\n", "\\n\n"))
}
