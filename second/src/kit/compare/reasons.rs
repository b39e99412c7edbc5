//! Lines told in words (02, Paper 6): three programs on the same sheets and record numbers, each text held against what
//! is due by the page's shortcuts for K = {ab}, and each refusal against marking the line alone.

use super::turns::verdict;
use super::{hex, hex_call, Checked, Comparison, Difference};
use crate::instance::Instance;
use crate::kit::damage::spoil;
use crate::kit::generate::drafts::{sheet_bytes, FIRST, NEXT};
use crate::kit::generate::halls::{Folder, RECORD};
use crate::kit::generate::rng::Rng;
use crate::kit::generate::sets;
use crate::kit::generate::sheets;
use crate::kit::generate::tellings::{alone, reordered, wrong_index, Asked, Lines};
use crate::kit::met::coverage::Operation;
use crate::kit::met::reasons::Met;
use crate::kit::oracle::reasons::Due;
use crate::kit::programs::checker::Checker;
use crate::lengths::{edge_count, EdgeOrder};
use crate::marks::{PENDING, STRUCK};
use crate::packed::put_mark;
use crate::sentence::SENTENCE_BYTES;
use crate::sheet::Record;

/// Damaged sheets made from one.
const DAMAGED: usize = 5;

/// Boards up to this many points are given to the naive checker, too.
const NAIVE_POINTS: u32 = 40;

/// What a call answers and leaves.
#[derive(Clone, PartialEq)]
struct Told {
    answer: u64,
    text: Vec<u8>,
}

impl std::fmt::Debug for Told {
    fn fmt(&self, f: &mut std::fmt::Formatter) -> std::fmt::Result {
        let text = self.text.get(..self.size()).unwrap_or_default();
        write!(f, "answer {:x}\n{}", self.answer, String::from_utf8_lossy(text))
    }
}

impl Told {
    /// The refusal and its record, or zeros.
    fn refusal(&self) -> (u64, u64) {
        match self.answer % 256 {
            0 => (0, 0),
            refusal => (refusal, self.answer / 256),
        }
    }

    /// The text's length.
    fn size(&self) -> usize {
        match self.answer % 256 {
            0 => self.answer as usize / 65_536,
            _ => 0,
        }
    }
}

impl Asked {
    fn told(&self) -> String {
        let Folder { n, table, marks, sheet } = &self.folder;
        format!("{}sheet {}\nrecord {}\n", hex_call(*n, table, marks), hex(sheet), self.record)
    }

    /// The numbers of the record, if the sheet has it.
    fn line(&self) -> Option<Record> {
        let sheet = crate::bytes::numbers(&self.folder.sheet);
        let record = sheet.chunks_exact(RECORD / 2).nth((self.record as usize).checked_sub(1)?)?;
        record.try_into().ok()
    }

    /// Bytes that hold the text of any line: 128 for each of (n − 1)(n − 2)/2 pairs.
    fn room(&self) -> usize {
        let pairs = Instance::point_count(self.folder.n).map_or(0, |n| edge_count(n - 1));
        SENTENCE_BYTES * pairs
    }
}

impl Comparison<'_> {
    /// The lines of one board and its sheets, by numbers of their own, so that the rest of a case stays as it is.
    pub fn reasons(&mut self) -> Checked {
        let mut rng = Rng::new(self.seed ^ 0x5265_6173, self.case);
        let lines = Lines::random(&mut rng);
        self.told_sheet(&mut rng, &lines)?;
        for _ in 0..DAMAGED {
            self.told_damaged(&mut rng, &lines)?;
        }
        self.spoiled_telling(&mut rng, &lines)
    }

    /// Lines told alone, case by case, until so many sheets are.
    pub fn run_reasons(&mut self, sheets: u64) -> Checked {
        while self.coverage.reasons.sheets < sheets {
            self.reasons()?;
            self.case += 1;
        }
        Ok(())
    }

    /// The lines of one case alone.
    pub fn reasons_of(&mut self, case: u64) -> Checked {
        self.case = case;
        self.reasons()
    }

    /// Each line of the sheet, from the first marks and from those that the lines before leave; another record; and
    /// numbers that are no record.
    fn told_sheet(&mut self, rng: &mut Rng, lines: &Lines) -> Checked {
        self.coverage.reasons.sheets += 1;
        let sheet = sheet_bytes(&lines.draft.records);
        let count = lines.draft.records.len() as u32;
        let folder = lines.folder(&lines.marks, sheet.clone());
        for line in lines.lines() {
            let record = line as u32;
            self.tell(rng, &Asked { folder: folder.clone(), record })?;
            if line != 1 {
                let folder = lines.folder(&lines.marks_before(line), sheet.clone());
                let refusal = self.tell(rng, &Asked { folder, record })?;
                self.coverage.reasons.met(Met::MarksBefore, refusal == (0, 0));
            }
        }
        let record = rng.between(1, count as usize) as u32;
        self.tell(rng, &Asked { folder: folder.clone(), record })?;
        let numbers = [
            (0, Met::RecordZero),
            (count + 1, Met::RecordPast),
            (65_536 + record, Met::RecordByLowBits),
            (u32::MAX, Met::RecordLargest),
        ];
        for (record, met) in numbers {
            let refusal = self.tell(rng, &Asked { folder: folder.clone(), record })?;
            self.coverage.reasons.met(met, refusal == (8, 0));
        }
        Ok(())
    }

    /// A line of a damaged sheet: by one of the damages of sheets, with a wrong index, or with a new order for a first
    /// case.
    fn told_damaged(&mut self, rng: &mut Rng, lines: &Lines) -> Checked {
        self.coverage.reasons.sheets += 1;
        let line = rng.pick(&lines.lines());
        let records = &lines.draft.records;
        let sheet = match rng.below(5) {
            0 => sheet_bytes(&wrong_index(rng, records, line)),
            1 => match reordered(rng, lines.board.n, records, line) {
                Some(records) => sheet_bytes(&records),
                None => sheets::noise(rng, lines.board.n),
            },
            _ => sheets::damaged(rng, &lines.draft),
        };
        let marks = if rng.chance(50) { lines.marks_before(line) } else { lines.marks.clone() };
        let mut folder = lines.folder(&marks, sheet);
        if rng.chance(8) {
            strike_line(rng, &mut folder, records[line - 1]);
        }
        let any = rng.between(0, records.len() + 1);
        let record = if rng.chance(85) { line } else { any } as u32;
        self.tell(rng, &Asked { folder, record }).map(drop)
    }

    /// Another n, wrong sizes, an entry above its limit, a faulty set; now and then with no record, too. And a broken
    /// sheet.
    fn spoiled_telling(&mut self, rng: &mut Rng, lines: &Lines) -> Checked {
        let sheet = sheet_bytes(&lines.draft.records);
        let broken = sheet[..rng.pick(&[0, sheet.len() - 1])].to_vec();
        let record = rng.pick(&[0, 1, u32::MAX]);
        let refusal = self.tell(rng, &Asked { folder: lines.folder(&lines.marks, broken), record })?;
        self.coverage.reasons.met(Met::NoRecords, refusal == (7, 0) && record != 1);
        let mut lent = spoil::Lent::new(&lines.board, &lines.marks);
        spoil::call(rng, &mut lent);
        let spoil::Lent { n, table, marks } = lent;
        let record = rng.pick(&[1, 1, 1, 0]);
        self.tell(rng, &Asked { folder: Folder { n, table, marks, sheet }, record }).map(drop)
    }

    /// A record in the programs, in buffers that hold any text, just this one, and a byte less; held against the laws.
    /// Answers the refusal and its record.
    fn tell(&mut self, rng: &mut Rng, asked: &Asked) -> Result<(u64, u64), Difference> {
        let told = self.tell_in(asked, asked.room() + 1 + rng.below(9))?;
        let (refusal, record) = told.refusal();
        self.coverage.number(Operation::TellLine, refusal);
        self.refused_as_alone(asked, &told)?;
        if refusal == 0 {
            self.told_as_due(asked, &told)?;
            self.told_buffers(rng, asked, &told)?;
            return Ok((0, 0));
        }
        if record != 0 {
            self.coverage.reasons.refused(refusal, record, u64::from(asked.record));
        }
        let short = self.tell_in(asked, 0)?;
        if short.answer != told.answer {
            return Err(self.difference("tell a line, refused without a byte", asked.told()));
        }
        self.coverage.reasons.met(Met::RefusedNoBytes, record != 0);
        self.count_refused(asked, (refusal, record));
        Ok((refusal, record))
    }

    /// A record in the programs, in a buffer of this size: the answer and every byte are the same, and a refused call
    /// leaves them.
    fn tell_in(&mut self, asked: &Asked, size: usize) -> Result<Told, Difference> {
        let Folder { n, table, marks, sheet } = &asked.folder;
        let run = |checker: &dyn Checker| {
            let mut text = vec![0xa5; size];
            let answer = checker.tell_line(*n, table, marks, sheet, asked.record, &mut text);
            Told { answer, text }
        };
        let one = run(self.one);
        for checker in [Some(self.other), (*n <= NAIVE_POINTS).then_some(self.naive)].into_iter().flatten() {
            self.same_as("tell a line", &one, (checker.name(), &run(checker)), || asked.told())?;
        }
        if one.size() > size || one.text[one.size()..].iter().any(|&byte| byte != 0xa5) {
            return Err(self.difference("tell a line, bytes past it", asked.told()));
        }
        Ok(one)
    }

    /// What marking over marks with pending read as struck answers: refusal and record.
    fn marked(&self, folder: &Folder, sheet: &[u8]) -> (u64, u64) {
        let mut set = folder.marks.clone();
        let first = verdict(self.one.mark_sheet(folder.n, &folder.table, &mut set, sheet));
        if first.0 != 20 {
            return (first.0, first.1);
        }
        let pending = (0..4 * set.len()).filter(|&place| sets::pending_at(&folder.marks, place));
        pending.for_each(|place| put_mark(&mut set, place, STRUCK));
        let (refusal, record, _) = verdict(self.one.mark_sheet(folder.n, &folder.table, &mut set, sheet));
        (refusal, record)
    }

    /// "A line that would be refused gets its refusal": that of marking it alone as the first line of a sheet; before
    /// that the tests of the whole sheet, and 8 for no record.
    fn refused_as_alone(&self, asked: &Asked, told: &Told) -> Checked {
        let whole = self.marked(&asked.folder, &asked.folder.sheet);
        let due = match asked.line() {
            _ if whole.0 != 0 && whole.1 == 0 => whole,
            None => (8, 0),
            Some(_) => self.marked(&asked.folder, &alone(&asked.folder.sheet, asked.record as usize)),
        };
        let record = if due.1 == 0 { 0 } else { due.1 + u64::from(asked.record) - 1 };
        if (due.0, record) != told.refusal() {
            return Err(self.difference("tell a line, its refusal", asked.told() + &format!("{told:?}\n{due:?}\n")));
        }
        Ok(())
    }

    /// The text of an accepted line is the one due.
    fn told_as_due(&mut self, asked: &Asked, told: &Told) -> Checked {
        let table = Due::table(&asked.folder);
        let due = Due::new(&asked.folder, &table, asked.record as usize).and_then(|due| due.sentences());
        let text = due.as_ref().map(|due| due.iter().map(|(words, _)| &words[..]).collect::<String>());
        if text.as_ref().is_none_or(|text| text.as_bytes() != &told.text[..told.size()]) {
            let text = text.unwrap_or_default();
            return Err(self.difference("tell a line by what is due", format!("{}{told:?}\n{text}", asked.told())));
        }
        due.iter().flatten().flat_map(|(_, met)| met).for_each(|&met| self.coverage.reasons.reason(met));
        self.count_told(asked);
        Ok(())
    }

    fn count_told(&mut self, asked: &Asked) {
        let Some(line) = asked.line() else { return };
        let [_, a, b, _, _, _, first, next] = line;
        let (record, count) = (asked.record as u16, asked.folder.records() as u16);
        let several = first != 0
            && Asked { record: u32::from(first), ..asked.clone() }.line().is_some_and(|case| case[NEXT] != 0);
        let met = &mut self.coverage.reasons;
        met.lines += 1;
        met.met(Met::FirstRecord, record == 1);
        met.met(Met::LaterRecord, record > 1);
        met.met(Met::NoCase, first == 0);
        met.met(Met::SeveralCases, several);
        met.met(Met::PendingMarks, sets::pending(&asked.folder.marks));
        met.met(Met::NextAbove, next > count);
        met.met(Met::NextNotRising, (1..=record).contains(&next));
        met.met(Met::HigherFirst, a > b);
        met.met(Met::ManyPoints, asked.folder.n >= 100);
    }

    fn count_refused(&mut self, asked: &Asked, (refusal, record): (u64, u64)) {
        let Some(line) = asked.line() else { return };
        let own = record == u64::from(asked.record);
        let met = &mut self.coverage.reasons;
        if refusal == 12 {
            let place = EdgeOrder::new(asked.folder.n as u16).place(line[1], line[2]);
            let pending = sets::pending_at(&asked.folder.marks, place);
            met.met(Met::PendingLine, pending);
            met.met(Met::StruckLine, !pending);
        }
        met.met(Met::CaseBelow, refusal == 9 && own && line[FIRST] > 1 && u32::from(line[FIRST]) < asked.record);
        met.met(Met::CaseAsked, refusal == 10 && own && line[0] != 1);
    }

    /// A text that is known, in a buffer of its size, a byte too short, and of no byte.
    fn told_buffers(&mut self, rng: &mut Rng, asked: &Asked, told: &Told) -> Checked {
        let size = told.size();
        self.coverage.reasons.met(Met::BytesPast, told.text.len() > size);
        let exact = self.tell_in(asked, size)?;
        if exact.answer != told.answer || exact.text != told.text[..size] {
            return Err(self.difference("tell a line, its own size", asked.told()));
        }
        self.coverage.reasons.met(Met::ExactBuffer, true);
        let short = rng.pick(&[size - 1, size - 1, 0]);
        if self.tell_in(asked, short)?.answer != 22 {
            return Err(self.difference("tell a line, too short", asked.told()));
        }
        self.coverage.number(Operation::TellLine, 22);
        self.coverage.reasons.met(Met::OneByteTooFew, short == size - 1);
        self.coverage.reasons.met(Met::NoBytes, short == 0);
        Ok(())
    }
}

/// The edge of a line becomes struck or pending.
fn strike_line(rng: &mut Rng, folder: &mut Folder, line: Record) {
    let place = EdgeOrder::new(folder.n as u16).place(line[1], line[2]);
    put_mark(&mut folder.marks, place, rng.pick(&[STRUCK, PENDING]));
}
