//! Turns at desks (02, Paper 14): each is held against the laws of the page and against the queues, and each sheet, at
//! its end and before, against itself marked alone.

use super::halls::{told, Left, Watched};
use super::slips::{seen, VIEWS};
use super::{Checked, Comparison, Difference};
use crate::bytes::{entries, numbers, turn_number, write_turn};
use crate::desks::{Desks, Lent};
use crate::kit::generate::halls::{desk_numbers, desks, without, Change, Folder, RECORD};
use crate::kit::generate::rng::Rng;
use crate::kit::generate::sets;
use crate::kit::met::coverage::Operation;
use crate::kit::met::desks::Met;
use crate::kit::met::segments::SegmentEvent;
use crate::kit::oracle::kept::{has_reordering, RunMarks};
use crate::kit::programs::checker::Checker;
use crate::marks::{OPEN, STRUCK};

/// The turns in which a desk with a line left is served.
const WITHIN: usize = 8;

/// Refusal, record and lines of a turn's answer.
pub fn verdict(answer: u64) -> (u64, u64, u64) {
    (answer & 0xff, answer >> 8 & 0xffff, answer >> 24 & 0xffff)
}

/// A turn's answer without the desk and whether it has a line left.
fn marking_part(answer: u64) -> u64 {
    answer & 0xff_ffff_ffff
}

/// The law that a turn of this desk breaks, if any; `before` is the state.
fn broken_law(before: &[u8], desk: usize, folder: &Folder, left: &Left) -> Option<&'static str> {
    if desk == 0 {
        let kept = left.answer == 0 && left.state == before && left.marks == folder.marks;
        return (!kept).then_some("turn with nothing left");
    }
    let (answer, line_left) = (left.answer, left.answer >> 56 & 1 == 1);
    let (_, _, lines) = verdict(answer);
    let ([_, _, lines_before], now) = (desk_numbers(before, desk), desk_numbers(&left.state, desk));
    let last = u16::from_le_bytes([left.state[0], left.state[1]]);
    let waits = now[2] < now[0] && u64::from(now[2]) == lines && answer & 0xff_ffff == 0;
    let changes = sets::marks(&folder.marks).zip(sets::marks(&left.marks)).filter(|(old, new)| old != new);
    let changes: Vec<(u8, u8)> = changes.collect();
    if answer >> 57 != 0 || answer >> 40 & 0xff != 0 || answer >> 48 & 0xff != desk as u64 {
        return Some("turn, its desk");
    }
    if usize::from(last) != desk || without(before, desk, true) != without(&left.state, desk, true) {
        return Some("turn, other desks");
    }
    if if line_left { !waits } else { now != [0; 3] } {
        return Some("turn, its line left");
    }
    let one_strike = changes.len() <= 1 && changes.iter().all(|&change| change == (OPEN, STRUCK));
    if !one_strike || lines != u64::from(lines_before) + changes.len() as u64 {
        return Some("turn, its strike");
    }
    None
}

impl Comparison<'_> {
    /// The desk that the next turn serves, 0 for none.
    fn next(&mut self, hall: &Watched) -> Result<usize, Difference> {
        let folder = &hall.folders[0];
        let call = |checker: &dyn Checker, state: &mut [u8], _: &mut [u8]| checker.next_desk(state);
        let left = self.alike(Operation::NextDesk, true, (&hall.state, folder), call)?;
        if left.answer != 65_536 * hall.queues.next_desk().unwrap_or(0) as u64 || left.state != hall.state {
            return Err(self.broken("next desk by the queues", hall, folder, &left));
        }
        Ok((left.answer >> 16) as usize)
    }

    /// One turn, with the folder of the desk that it serves, or with any where no desk has a line left.
    pub fn turn(&mut self, rng: &mut Rng, hall: &mut Watched) -> Checked {
        let desk = self.next(hall)?;
        let lent = if desk == 0 { rng.below(Desks::COUNT) } else { desk - 1 };
        let folder = hall.folders[lent].clone();
        let Folder { n, table, sheet, .. } = &folder;
        let call =
            |checker: &dyn Checker, state: &mut [u8], marks: &mut [u8]| checker.turn(state, *n, table, marks, sheet);
        let left = self.alike(Operation::Turn, self.small(hall), (&hall.state, &folder), call)?;
        if let Some(law) = broken_law(&hall.state, desk, &folder, &left) {
            return Err(self.broken(law, hall, &folder, &left));
        }
        if desk == 0 {
            let ended = hall.seats.iter().any(|seat| seat.whole.is_some());
            self.coverage.desks.met(Met::NothingYet, !ended && !hall.any_bytes);
            self.coverage.desks.met(Met::NothingLeft, ended);
        } else {
            self.served_within(hall, desk, &folder, &left)?;
            self.after_change(hall, desk, &folder, &left)?;
            self.as_alone(rng, hall, desk, &left)?;
            self.turn_keeps(hall, desk, &folder, &left)?;
            self.count_turn(hall, desk, &left);
        }
        self.turn_by_queues(hall, &folder, &left)?;
        hall.folders[lent].marks = left.marks;
        hall.state = left.state;
        Ok(())
    }

    /// The same turn of the queues.
    fn turn_by_queues(&mut self, hall: &mut Watched, folder: &Folder, left: &Left) -> Checked {
        let (table, sheet, mut marks) = (entries(&folder.table), numbers(&folder.sheet), folder.marks.clone());
        let turn = hall.queues.turn(Lent { n: folder.n, table: &table, sheet: &sheet }, &mut marks);
        turn.iter().for_each(|&turn| write_turn(&hall.queues, turn, &mut hall.due));
        if (left.answer, &left.state, &left.marks) != (turn_number(turn), &hall.due, &marks) {
            return Err(self.broken("turn by the queues", hall, folder, left));
        }
        Ok(())
    }

    /// "A desk with a line left is served within eight turns, whatever others hand in."
    fn served_within(&mut self, hall: &mut Watched, desk: usize, folder: &Folder, left: &Left) -> Checked {
        for other in hall.with_line() {
            let seat = &mut hall.seats[other - 1];
            seat.waited += 1;
            if seat.waited >= WITHIN && other != desk {
                return Err(self.broken("served within eight", hall, folder, left));
            }
        }
        desks().filter(|&other| other != desk).for_each(|other| hall.seats[other - 1].among_turns = true);
        let last = u16::from_le_bytes([hall.state[0], hall.state[1]]);
        let met = &mut self.coverage.desks;
        met.served(desk);
        met.met(Met::EighthTurn, hall.seats[desk - 1].waited == WITHIN);
        met.met(Met::LastAboveEight, last > 8);
        let last = usize::from(last) % Desks::COUNT;
        met.met(Met::Round, last != 0 && desk < last);
        met.met(Met::PassedOver, desk != last % Desks::COUNT + 1);
        met.met(Met::SameAgain, desk == last);
        hall.seats[desk - 1].waited = 0;
        Ok(())
    }

    /// A test that fails because of a change ends the sheet, with its number, record 0 and the lines kept; a sheet that
    /// has grown shorter gets 8 by the owner.
    fn after_change(&mut self, hall: &mut Watched, desk: usize, folder: &Folder, left: &Left) -> Checked {
        let Some(change) = hall.seats[desk - 1].change.take() else { return Ok(()) };
        let [_, owner, lines] = desk_numbers(&hall.state, desk);
        let record = if change == Change::ShorterSheet { owner } else { 0 };
        let due = (change.number(), u64::from(record), u64::from(lines));
        if change.number() != 0 && verdict(left.answer) != due {
            return Err(self.broken("turn after a change", hall, folder, left));
        }
        self.coverage.desks.changed(change);
        self.coverage.desks.met(Met::LinesKept, change.number() != 0 && record == 0 && lines > 0);
        Ok(())
    }

    /// "Its verdict and marks are those of its sheet marked alone, if nothing but turns alters n, the table, its sheet
    /// or its marks"; with a line left, those of the sheet cut behind its last accepted line.
    fn as_alone(&mut self, rng: &mut Rng, hall: &mut Watched, desk: usize, left: &Left) -> Checked {
        let seat = &mut hall.seats[desk - 1];
        seat.turns += 1;
        let (turns, waits) = (seat.turns, left.answer >> 56 & 1 == 1);
        let Some(mut alone) = (if waits { seat.alone.clone() } else { seat.alone.take() }) else { return Ok(()) };
        let (handed_in, what) =
            (alone.clone(), if waits { "beginning of a sheet alone" } else { "sheet marked alone" });
        if waits && !rng.chance(30) {
            return Ok(());
        }
        if waits {
            let owner = usize::from(desk_numbers(&left.state, desk)[1]);
            alone.sheet[RECORD * owner - 2..RECORD * owner].fill(0);
        }
        for checker in [self.one, self.other] {
            let mut marks = alone.marks.clone();
            let answer = checker.mark_sheet(alone.n, &alone.table, &mut marks, &alone.sheet);
            if (answer, &marks) != (marking_part(left.answer), &left.marks) || turns > alone.records() {
                return Err(self.broken(what, hall, &handed_in, left));
            }
        }
        for view in VIEWS {
            if seen(self.other, view, left.answer) != seen(self.other, view, marking_part(left.answer)) {
                return Err(self.broken("slip of a turn", hall, &handed_in, left));
            }
        }
        self.coverage.desks.met(Met::Beginnings, waits);
        if !waits {
            self.count_alone(hall, desk, left);
        }
        Ok(())
    }

    /// Counts a sheet that has ended as marked alone.
    fn count_alone(&mut self, hall: &Watched, desk: usize, left: &Left) {
        let (refusal, record, lines) = verdict(left.answer);
        let [index, _, before] = desk_numbers(&hall.state, desk);
        let accepted = lines > u64::from(before);
        let (seat, met) = (&hall.seats[desk - 1], &mut self.coverage.desks);
        met.met(Met::OneLine, refusal == 0 && lines == 1);
        met.met(Met::SeveralLines, refusal == 0 && lines > 1);
        met.met(Met::StoppedFirst, refusal != 0 && lines == 0);
        met.met(Met::StoppedLater, refusal != 0 && lines > 0 && !accepted);
        let at_next = accepted && record == u64::from(index);
        met.met(Met::NextAbove, refusal == 8 && at_next);
        met.met(Met::NextNotAbove, refusal == 9 && at_next);
        met.met(Met::AmongOthers, lines > 1 && seat.among_turns && seat.among_sheets);
    }

    /// A turn with any state is a step of a run: no edge of a shortest tour is struck.
    fn turn_keeps(&mut self, hall: &mut Watched, desk: usize, folder: &Folder, left: &Left) -> Checked {
        if !hall.seats[desk - 1].kept {
            return Ok(());
        }
        let struck = left.marks != folder.marks;
        hall.seats[desk - 1].reordered |= struck && has_reordering(&folder.sheet);
        let marks = RunMarks { set: left.marks.clone(), reordered: hall.seats[desk - 1].reordered };
        if let Err((what, text)) = hall.hall.kept.lost(&hall.hall.board, &marks) {
            return Err(self.difference(&format!("{what} by a turn"), text + &told(&hall.state, folder)));
        }
        let strikes = struck && hall.hall.kept.shortest().is_some();
        let any = hall.any_bytes && !hall.seats[desk - 1].handed_in;
        self.coverage.desks.met(Met::Strikes, strikes);
        self.coverage.desks.met(Met::AnyStrikes, strikes && any);
        let reordered = strikes && has_reordering(&folder.sheet);
        self.coverage.segments.event(SegmentEvent::StrikesByTurns, u64::from(reordered));
        Ok(())
    }

    /// Counts how a turn went, and whether its sheet has ended.
    fn count_turn(&mut self, hall: &mut Watched, desk: usize, left: &Left) {
        let (refusal, record, lines) = verdict(left.answer);
        let [index, owner, before] = desk_numbers(&hall.state, desk);
        let seat = &mut hall.seats[desk - 1];
        let accepted = lines > u64::from(before);
        let any = hall.any_bytes && !seat.handed_in;
        let above = usize::from(index) > hall.folders[desk - 1].records();
        self.coverage.desks.met(Met::AnyOwner, any && above && (refusal, record) == (8, u64::from(owner)));
        self.coverage.desks.met(Met::AnyAccepted, any && accepted);
        if left.answer >> 56 & 1 == 0 {
            seat.whole = Some(refusal == 0);
        }
    }
}
