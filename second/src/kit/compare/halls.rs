//! Halls of eight desks (02, Paper 14): sheets handed in, turns, and folders changed between turns. Three programs are
//! compared call by call, in every byte of state and marks, and each call is held against the laws of the page and
//! against queues that live through the hall.

use super::turns::verdict;
use super::{hex, hex_call, Checked, Comparison, Difference};
use crate::bytes::{entries, numbers, read_desks, write_desk, DESKS_BYTES};
use crate::desks::{Desks, Lent};
use crate::kit::generate::halls::{
    damaged_state, desk_numbers, desks, line_left, short_size, Change, Folder, Hall, NO_DESKS,
};
use crate::kit::generate::rng::Rng;
use crate::kit::generate::sets::{self, old_bytes};
use crate::kit::met::coverage::Operation;
use crate::kit::met::desks::Met;
use crate::kit::programs::checker::Checker;

/// Halls in a case, and calls in a hall before it is served to its end.
const HALLS: u64 = 4;
const CALLS: usize = 24;

/// Boards up to this many points are given to the naive checker, too.
const NAIVE_POINTS: u16 = 9;

/// What is known of a desk beside its folder.
#[derive(Default)]
pub struct Seat {
    /// The folder as it was handed in, if nothing but turns has altered it since.
    pub alone: Option<Folder>,
    /// Turns of its sheet, and turns since it has had a line left or was served.
    pub turns: usize,
    pub waited: usize,
    /// Whether others were served, and sheets handed in, since its sheet was.
    pub among_turns: bool,
    pub among_sheets: bool,
    /// What has happened to its folder since the last turn.
    pub change: Option<Change>,
    /// How its last sheet ended: whole, or stopped.
    pub whole: Option<bool>,
    /// Whether its marks come from fresh ones by turns alone.
    pub kept: bool,
    /// Whether a sheet with a record of kind 4 has struck an edge since.
    pub reordered: bool,
    /// Whether its numbers come from handing in.
    pub handed_in: bool,
}

/// A hall as it is watched.
pub struct Watched {
    pub hall: Hall,
    pub folders: Vec<Folder>,
    pub seats: Vec<Seat>,
    pub state: Vec<u8>,
    /// Whether the state began as any bytes.
    pub any_bytes: bool,
    /// The desks as queues, and the state that is due by them.
    pub queues: Desks,
    pub due: Vec<u8>,
}

impl Watched {
    /// A hall with a state of old bytes, or of any bytes that are to be one.
    fn new(rng: &mut Rng) -> Watched {
        let hall = Hall::new(rng);
        let folders: Vec<Folder> = desks().map(|_| hall.folder(rng)).collect();
        let any_bytes = rng.chance(25);
        let mut state = if any_bytes { damaged_state(rng, &folders) } else { old_bytes(rng, DESKS_BYTES) };
        let past = rng.below(7);
        state.extend(old_bytes(rng, past));
        let seats = desks().map(|_| Seat { kept: true, ..Seat::default() }).collect();
        Watched { hall, folders, seats, due: state.clone(), state, any_bytes, queues: Desks::open() }
    }

    /// A folder for the next sheet at a desk: with the marks that its last one left, or with fresh ones.
    fn next_folder(&self, rng: &mut Rng, desk: Option<usize>) -> Folder {
        match desk.filter(|&desk| self.seats[desk - 1].kept && rng.chance(50)) {
            Some(desk) => self.hall.folder_with(rng, &self.folders[desk - 1].marks),
            None => self.hall.folder(rng),
        }
    }

    pub fn with_line(&self) -> Vec<usize> {
        desks().filter(|&desk| line_left(&self.state, desk)).collect()
    }
}

/// A call of a program on the state and on marks.
type Call<'a> = dyn Fn(&dyn Checker, &mut [u8], &mut [u8]) -> u64 + 'a;

/// What a call answers and leaves.
#[derive(PartialEq)]
pub struct Left {
    pub answer: u64,
    pub state: Vec<u8>,
    pub marks: Vec<u8>,
}

impl std::fmt::Debug for Left {
    fn fmt(&self, f: &mut std::fmt::Formatter) -> std::fmt::Result {
        write!(f, "answer {:x} state {} marks {}", self.answer, hex(&self.state), hex(&self.marks))
    }
}

pub fn told(state: &[u8], folder: &Folder) -> String {
    let call = hex_call(folder.n, &folder.table, &folder.marks);
    format!("state {}\n{call}sheet {}\n", hex(state), hex(&folder.sheet))
}

impl Comparison<'_> {
    /// Some halls, by numbers of their own, so that the rest of a case stays as it is.
    pub fn halls(&mut self) -> Checked {
        let mut rng = Rng::new(self.seed ^ 0x4465_736b, self.case);
        (0..HALLS).try_for_each(|_| self.hall(&mut rng))
    }

    /// Halls alone, case by case.
    pub fn run_halls(&mut self, halls: u64) -> Checked {
        while self.coverage.desks.halls < halls {
            self.halls()?;
            self.case += 1;
        }
        Ok(())
    }

    /// Halls of one case alone.
    pub fn halls_of(&mut self, case: u64) -> Checked {
        self.case = case;
        self.halls()
    }

    /// One hall: calls in random order, then turns until no desk has a line left, and one more.
    fn hall(&mut self, rng: &mut Rng) -> Checked {
        self.coverage.desks.halls += 1;
        let mut hall = Watched::new(rng);
        self.open(&mut hall)?;
        if rng.chance(50) {
            desks().try_for_each(|desk| self.hand_in(rng, &mut hall, desk as u32))?;
        }
        for _ in 0..CALLS {
            match rng.below(20) {
                0..=4 => {
                    let desk = rng.between(1, Desks::COUNT) as u32;
                    self.hand_in(rng, &mut hall, desk)?;
                }
                5 => {
                    let desk = rng.pick(&NO_DESKS);
                    self.hand_in(rng, &mut hall, desk)?;
                }
                6 | 7 => change(rng, &mut hall),
                8 => self.too_short(rng, &hall)?,
                _ => self.turn(rng, &mut hall)?,
            }
        }
        while hall.queues.next_desk().is_some() {
            if rng.chance(4) {
                change(rng, &mut hall);
            }
            self.turn(rng, &mut hall)?;
        }
        self.turn(rng, &mut hall)
    }

    /// A call in the programs: what it answers and leaves is the same.
    pub fn alike(
        &mut self,
        operation: Operation,
        small: bool,
        (state, folder): (&[u8], &Folder),
        call: impl Fn(&dyn Checker, &mut [u8], &mut [u8]) -> u64,
    ) -> Result<Left, Difference> {
        let run = |checker: &dyn Checker| {
            let (mut state, mut marks) = (state.to_vec(), folder.marks.clone());
            let answer = call(checker, &mut state, &mut marks);
            Left { answer, state, marks }
        };
        let one = run(self.one);
        self.coverage.number(operation, one.answer & 0xff);
        for checker in [Some(self.other), small.then_some(self.naive)].into_iter().flatten() {
            self.same_as(operation.name(), &one, (checker.name(), &run(checker)), || told(state, folder))?;
        }
        Ok(one)
    }

    pub fn small(&self, hall: &Watched) -> bool {
        hall.hall.board.n <= NAIVE_POINTS
    }

    pub fn broken(&self, law: &str, hall: &Watched, folder: &Folder, left: &Left) -> Difference {
        self.difference(law, format!("{}{left:?}\n", told(&hall.state, folder)))
    }

    /// Opens desks on old bytes; any bytes that are to be a state stay.
    fn open(&mut self, hall: &mut Watched) -> Checked {
        let folder = hall.folders[0].clone();
        let call = |checker: &dyn Checker, state: &mut [u8], _: &mut [u8]| checker.open_desks(state);
        let left = self.alike(Operation::OpenDesks, true, (&hall.state, &folder), call)?;
        let due = [&[0; DESKS_BYTES][..], &hall.state[DESKS_BYTES..]].concat();
        if left.answer != 0 || left.state != due {
            return Err(self.broken("open desks", hall, &folder, &left));
        }
        self.coverage.desks.met(Met::ExactState, due.len() == DESKS_BYTES);
        self.coverage.desks.met(Met::BytesPast, due.len() > DESKS_BYTES);
        if hall.any_bytes {
            hall.queues = read_desks(&hall.state).expect("a state of its size");
            let unserved =
                desks().filter(|&desk| desk_numbers(&hall.state, desk)[0] != 0 && !hall.queues.line_left(desk));
            self.coverage.desks.met(Met::LinesNotBelow, unserved.count() > 0);
        } else {
            hall.state = left.state;
        }
        hall.due = hall.state.clone();
        Ok(())
    }

    /// 22 for each operation on the first bytes of the state, whatever else is wrong with the call; it changes nothing.
    fn too_short(&mut self, rng: &mut Rng, hall: &Watched) -> Checked {
        let size = short_size(rng);
        let state = &hall.state[..size];
        let (desk, over) = match hall.with_line().first() {
            Some(&desk) if rng.chance(50) => (desk as u32, true),
            _ => (rng.pick(&NO_DESKS), false),
        };
        let at = rng.below(Desks::COUNT);
        let mut folder = hall.folders[at].clone();
        if rng.chance(30) {
            folder.sheet.clear();
        }
        let Folder { n, table, marks, sheet } = &folder;
        let calls: [(Operation, &Call); 4] = [
            (Operation::OpenDesks, &|checker, state, _| checker.open_desks(state)),
            (Operation::HandIn, &|checker, state, _| checker.hand_in(state, desk, *n, table, marks, sheet)),
            (Operation::NextDesk, &|checker, state, _| checker.next_desk(state)),
            (Operation::Turn, &|checker, state, marks| checker.turn(state, *n, table, marks, sheet)),
        ];
        for (operation, call) in calls {
            let left = self.alike(operation, true, (state, &folder), call)?;
            if left.answer != 22 || left.state != state || left.marks != folder.marks {
                return Err(self.broken(&format!("{}, too short", operation.name()), hall, &folder, &left));
            }
        }
        self.coverage.desks.met(Met::NoBytes, size == 0);
        self.coverage.desks.met(Met::OneByteTooFew, size == DESKS_BYTES - 1);
        self.coverage.desks.met(Met::ShortNoDesk, !over);
        self.coverage.desks.met(Met::ShortOverLine, over);
        Ok(())
    }

    /// The refusal of a sheet's tests before any record, by marking it alone.
    fn tests(&self, folder: &Folder) -> u64 {
        let Folder { n, table, marks, sheet } = folder;
        let (refusal, record, _) = verdict(self.one.mark_sheet(*n, table, &mut marks.clone(), sheet));
        if record == 0 {
            refusal
        } else {
            0
        }
    }

    /// Hands a sheet in, now and then a faulty one: 28, 29, or what its tests answer. It changes the desk's numbers
    /// alone.
    fn hand_in(&mut self, rng: &mut Rng, hall: &mut Watched, desk: u32) -> Checked {
        let at = desks().find(|&other| other as u32 == desk);
        let mut folder = hall.next_folder(rng, at);
        let changed = rng.chance(12);
        if changed {
            Change::random(rng, 1).make(rng, &hall.hall, &mut folder, 1);
        }
        let faulty = self.tests(&folder);
        let Folder { n, table, marks, sheet } = &folder;
        let call = |checker: &dyn Checker, state: &mut [u8], _: &mut [u8]| {
            checker.hand_in(state, desk, *n, table, marks, sheet)
        };
        let left = self.alike(Operation::HandIn, self.small(hall), (&hall.state, &folder), call)?;
        let over = at.is_some_and(|desk| line_left(&hall.state, desk));
        let due = match at {
            None => 28,
            Some(_) if over => 29,
            Some(_) => faulty,
        };
        let mut state = hall.state.clone();
        if let (Some(desk), 0) = (at, due) {
            state[6 * desk - 4..6 * desk + 2].copy_from_slice(&[1, 0, 0, 0, 0, 0]);
        }
        if left.answer != due || left.state != state {
            return Err(self.broken("hand in by its tests", hall, &folder, &left));
        }
        let (lengths, records) = (entries(table), numbers(sheet));
        let by_queues = hall.queues.hand_in(desk, Lent { n: *n, table: &lengths, sheet: &records }, marks);
        let number = by_queues.map_or_else(
            |refusal| u64::from(refusal.number()),
            |desk| {
                write_desk(&hall.queues, desk, &mut hall.due);
                0
            },
        );
        if (left.answer, &left.state) != (number, &hall.due) {
            return Err(self.broken("hand in by the queues", hall, &folder, &left));
        }
        self.count_handed_in(hall, desk, due, faulty != 0);
        hall.state = left.state;
        if let (Some(desk), 0) = (at, due) {
            hall.seats.iter_mut().for_each(|seat| seat.among_sheets = true);
            let alone = Some(folder.clone());
            let reordered = hall.seats[desk - 1].reordered && folder.marks != sets::fresh(hall.hall.board.n);
            hall.seats[desk - 1] = Seat { alone, kept: !changed, reordered, handed_in: true, ..Seat::default() };
            hall.folders[desk - 1] = folder;
        }
        Ok(())
    }

    fn count_handed_in(&mut self, hall: &Watched, desk: u32, due: u64, faulty: bool) {
        let met = &mut self.coverage.desks;
        met.met(Met::DeskZero, desk == 0);
        met.met(Met::DeskNine, desk == 9);
        met.met(Met::DeskByLowByte, due == 28 && (1..=8).contains(&(desk % 256)));
        met.met(Met::DeskLargest, desk == u32::MAX);
        met.met(Met::NoDeskFaulty, due == 28 && faulty);
        met.met(Met::OverLine, due == 29);
        met.met(Met::OverLineFaulty, due == 29 && faulty);
        if due == 0 {
            let whole = hall.seats[desk as usize - 1].whole;
            met.handed_in(desk as usize);
            met.met(Met::AgainAfterWhole, whole == Some(true));
            met.met(Met::AgainAfterStop, whole == Some(false));
        }
    }
}

/// Changes the folder of a desk with a line left, whose sheet was handed in and is unchanged since.
fn change(rng: &mut Rng, hall: &mut Watched) {
    let desks: Vec<usize> = hall.with_line().into_iter().filter(|&desk| hall.seats[desk - 1].alone.is_some()).collect();
    if desks.is_empty() {
        return;
    }
    let desk = rng.pick(&desks);
    let index = desk_numbers(&hall.state, desk)[0];
    let change = Change::random(rng, index);
    change.make(rng, &hall.hall, &mut hall.folders[desk - 1], index);
    let seat = &mut hall.seats[desk - 1];
    seat.alone = None;
    seat.change = Some(change);
    seat.kept = false;
}
