//! Sheets: valid ones from the search, damaged ones, and noise.

use crate::intervals::Intervals;
use crate::kit::generate::drafts::{crossing_record, junk, sheet_bytes, Draft, FIRST, NEXT};
use crate::kit::generate::rng::Rng;
use crate::kit::generate::search::{crossings, Effort, Search};
use crate::marks::{OPEN, STRUCK};
use crate::packed::{mark, put_mark};
use crate::sheet::{Record, Sheet};

/// How a valid sheet is sought.
#[derive(Clone, Copy, Debug)]
pub struct Plan {
    pub effort: Effort,
    pub lines: usize,
    /// Edges that are tried.
    pub edges: usize,
    /// Splits one inside another that each line shall have, or 0 for any.
    pub want: usize,
    pub gaps: usize,
    pub most_records: usize,
}

impl Plan {
    /// A plan as the comparison uses it; on large boards each edge takes long.
    pub fn random(rng: &mut Rng, n: u16) -> Plan {
        Plan {
            effort: Effort { orders: rng.pick(&[0, 0, 100]), ..if n <= 20 { Effort::LIGHT } else { Effort::LARGE } },
            lines: rng.between(1, 5),
            edges: if n <= 60 { 8 } else { 5 },
            want: 0,
            gaps: rng.pick(&[0, 0, 10, 40]),
            most_records: rng.pick(&[60, 60, 400]),
        }
    }
}

/// A sheet whose lines are all accepted under these marks; it may have no line at all.
/// Later lines rely on earlier strikes.
pub fn valid(rng: &mut Rng, lengths: &Intervals, marks: &[u8], plan: Plan) -> Draft {
    let mut marks = marks.to_vec();
    let mut draft = Draft::new(lengths.order.n, plan.gaps);
    let mut lines = 0;
    for (a, b) in long_edges(rng, lengths, &marks, plan.edges) {
        let want = if plan.want > 0 { plan.want } else { rng.between(1, Sheet::MOST_SPLITS) };
        let argument = Search::new(lengths, &marks, rng, plan.effort).argue(a, b, want);
        let Some(argument) = argument else { continue };
        if draft.records.len() + argument.split.records() >= plan.most_records {
            continue;
        }
        draft.line(rng, &argument);
        put_mark(&mut marks, lengths.order.place(a, b), STRUCK);
        lines += 1;
        if lines == plan.lines {
            break;
        }
    }
    draft
}

/// Open edges, the longest of some; they are the likeliest to be useless.
fn long_edges(rng: &mut Rng, lengths: &Intervals, marks: &[u8], most: usize) -> Vec<(u16, u16)> {
    let n = lengths.order.n;
    let mut edges = Vec::new();
    for _ in 0..3 * most {
        let (a, b) = (rng.point(n), rng.point(n));
        let open = a != b && mark(marks, lengths.order.place(a, b)) == OPEN;
        if open && !edges.contains(&(a, b)) && !edges.contains(&(b, a)) {
            edges.push((a, b));
        }
    }
    edges.sort_by_key(|&(a, b)| std::cmp::Reverse(lengths.taken_out(a, b)));
    edges.truncate(most);
    edges
}

/// A sheet of bytes made from a valid draft by one to three damages.
pub fn damaged(rng: &mut Rng, draft: &Draft) -> Vec<u8> {
    let mut draft = draft.clone();
    for _ in 0..rng.pick(&[1, 1, 1, 2, 3]) {
        if !draft.records.is_empty() {
            damage(rng, &mut draft);
        }
    }
    let bytes = sheet_bytes(&draft.records);
    if rng.chance(6) {
        damaged_size(rng, draft.n, bytes)
    } else {
        bytes
    }
}

/// Sizes that test 7 is about, and 4,000 records, which it lets through.
fn damaged_size(rng: &mut Rng, n: u16, mut bytes: Vec<u8>) -> Vec<u8> {
    let full = 2 * Sheet::FIELDS * Sheet::MOST_RECORDS;
    match rng.below(6) {
        0 => bytes.clear(),
        1 => bytes.truncate(bytes.len().saturating_sub(rng.between(1, 15))),
        2 => bytes.extend((0..rng.between(1, 15)).map(|_| 0)),
        3 => bytes.resize(full + 16, 0),
        4 => bytes.resize(full + 1, 0),
        _ => {
            while bytes.len() < full {
                bytes.extend(sheet_bytes(&[junk(rng, n)]));
            }
        }
    }
    bytes
}

/// One damage to the records.
fn damage(rng: &mut Rng, draft: &mut Draft) {
    let at = rng.below(draft.records.len());
    if rng.chance(50) {
        if let Some(at) = some_reordering(rng, draft) {
            return damage_reordering(rng, draft, at);
        }
    }
    match rng.below(20) {
        0 | 1 => change_field(rng, draft, at),
        2 => swap_records(rng, draft, at),
        3 | 4 => change_index(rng, draft, at),
        5 => remove_case(draft, at),
        6 => repeat_case(draft, at),
        7 => draft.records[at][0] = rng.below(7) as u16,
        8 => draft.records[at][rng.between(3, 4)] = rng.below(3) as u16,
        9 => permute_crossing(rng, draft),
        10..=12 => other_crossing(rng, draft),
        13 => known_crossing(rng, draft),
        14 => strike_again(rng, draft),
        15..=17 => one_split_more(rng, draft),
        18 => draft.records[at].swap(1, 2),
        _ => draft.records.truncate(at + 1),
    }
}

fn change_field(rng: &mut Rng, draft: &mut Draft, at: usize) {
    let value = match rng.below(6) {
        0 => 0,
        1 => draft.n + 1,
        2 => rng.word() as u16,
        3 => draft.records[at][rng.below(Sheet::FIELDS)],
        _ => rng.point(draft.n),
    };
    draft.records[at][rng.below(Sheet::FIELDS)] = value;
}

fn swap_records(rng: &mut Rng, draft: &mut Draft, at: usize) {
    let other = rng.below(draft.records.len());
    draft.records.swap(at, other);
}

/// 0, itself, a lower record, the next ones, above the count.
fn change_index(rng: &mut Rng, draft: &mut Draft, at: usize) {
    let count = draft.records.len();
    let value = match rng.below(8) {
        0 | 1 => 0,
        2 => at + 1,
        3 => rng.between(1, at + 1),
        4 => at + 2,
        5 => count + 1,
        6 => rng.between(1, count),
        _ => rng.pick(&[count, 4_000, 4_001, 65_535]),
    };
    let held = [Sheet::LINE, Sheet::CASE_SPLIT, Sheet::CASE_REORDERING].contains(&draft.records[at][0]);
    let field = if held { rng.pick(&[FIRST, NEXT]) } else { NEXT };
    draft.records[at][field] = value as u16;
}

/// The record at an index, if there is one.
fn record_at(draft: &Draft, index: u16) -> Option<Record> {
    draft.records.get(usize::from(index).wrapping_sub(1)).copied()
}

/// Leaves the record after this one, or its first case, out of its chain.
fn remove_case(draft: &mut Draft, at: usize) {
    let field = if draft.records[at][NEXT] == 0 { FIRST } else { NEXT };
    if let Some(next) = record_at(draft, draft.records[at][field]) {
        draft.records[at][field] = next[NEXT];
    }
}

/// The record after this one becomes a copy of this one.
fn repeat_case(draft: &mut Draft, at: usize) {
    let index = draft.records[at][NEXT];
    if let Some(next) = record_at(draft, index) {
        let mut copy = draft.records[at];
        copy[NEXT] = next[NEXT];
        draft.records[usize::from(index) - 1] = copy;
    }
}

/// The number of a crossing's note, if the draft has one.
fn some_crossing(rng: &mut Rng, draft: &Draft) -> Option<usize> {
    let is_crossing = |i: &usize| {
        record_at(draft, draft.notes[*i].index as u16).is_some_and(|record| record[0] == Sheet::CASE_CROSSING)
    };
    let notes: Vec<usize> = (0..draft.notes.len()).filter(is_crossing).collect();
    if notes.is_empty() {
        None
    } else {
        Some(rng.pick(&notes))
    }
}

fn permute_crossing(rng: &mut Rng, draft: &mut Draft) {
    if let Some(i) = some_crossing(rng, draft) {
        let index = draft.notes[i].index;
        rng.shuffle(&mut draft.records[index - 1][3..7]);
    }
}

/// Another crossing that passes test 15; mostly it saves nothing.
fn other_crossing(rng: &mut Rng, draft: &mut Draft) {
    if let Some(i) = some_crossing(rng, draft) {
        let note = draft.notes[i].clone();
        let record = &mut draft.records[note.index - 1];
        let all = crossings(&note.known, draft.n);
        if !all.is_empty() {
            let (next, crossing) = (record[NEXT], rng.pick(&all));
            *record = crossing_record(rng, (record[1], record[2]), crossing);
            record[NEXT] = next;
        }
    }
}

/// Edge and centres from K's points, mostly against test 15; sometimes an edge of K.
fn known_crossing(rng: &mut Rng, draft: &mut Draft) {
    if let Some(i) = some_crossing(rng, draft) {
        let note = draft.notes[i].clone();
        let record = &mut draft.records[note.index - 1];
        let points: Vec<u16> = note.known.iter().flat_map(|&(u, v)| [u, v]).collect();
        for field in 3..7 {
            if rng.chance(50) {
                record[field] = rng.pick(&points);
            }
        }
        if rng.chance(50) {
            (record[3], record[4]) = rng.pick(&note.known);
        }
    }
}

/// The place of a case with a new order, if the draft has one.
fn some_reordering(rng: &mut Rng, draft: &Draft) -> Option<usize> {
    let is_reordering = |&at: &usize| draft.records[at][0] == Sheet::CASE_REORDERING;
    let places: Vec<usize> = (0..draft.records.len()).filter(is_reordering).collect();
    places.get(rng.below(places.len().max(1))).copied()
}

/// The places of the points that a case names.
fn chain_of_points(draft: &Draft, at: usize) -> Vec<usize> {
    let place = |index: u16| usize::from(index).checked_sub(1).filter(|&place| place < draft.records.len());
    let is_point = |&place: &usize| draft.records[place][0] == Sheet::SEGMENT_POINT;
    let first = place(draft.records[at][FIRST]).filter(is_point);
    let next = |&from: &usize| place(draft.records[from][NEXT]).filter(|&next| next > from).filter(is_point);
    std::iter::successors(first, next).collect()
}

/// Other ends, the points in another order, another point, a field that is not 0, a point left out or named again.
fn damage_reordering(rng: &mut Rng, draft: &mut Draft, at: usize) {
    let (chain, n) = (chain_of_points(draft, at), draft.n);
    let points: Vec<u16> = chain.iter().map(|&place| draft.records[place][1]).collect();
    if points.is_empty() {
        return;
    }
    let place = rng.pick(&chain);
    match rng.below(9) {
        0 => draft.records[at][rng.between(3, 4)] = rng.point(n),
        1 => draft.records[at][rng.between(3, 4)] = rng.pick(&points),
        2 => draft.records[at].swap(3, 4),
        3 => {
            let mut order = points;
            rng.shuffle(&mut order);
            chain.iter().zip(order).for_each(|(&place, point)| draft.records[place][1] = point);
        }
        4 => draft.records[place][1] = rng.pick(&points),
        5 => draft.records[place][1] = rng.pick(&[0, n + 1, draft.records[at][3], draft.records[at][4]]),
        6 => draft.records[place][rng.between(2, 6)] = rng.pick(&[1, n, 65_535]),
        7 => draft.records[at][5] = rng.pick(&[1, n, 65_535]),
        _ => draft.records[place][NEXT] = 0,
    }
}

/// A last line that strikes an edge of an earlier line.
fn strike_again(rng: &mut Rng, draft: &mut Draft) {
    let [_, a, b, _, _, c, _, _] = draft.records[0];
    let (a, b) = if rng.chance(50) { (a, b) } else { (b, a) };
    draft.bare_line(rng, a, b, c);
}

/// A crossing, the deepest if there is a seventh split to be had, becomes a split.
fn one_split_more(rng: &mut Rng, draft: &mut Draft) {
    let deepest = draft.notes.iter().position(|note| {
        note.depth == Sheet::MOST_SPLITS
            && record_at(draft, note.index as u16).is_some_and(|r| r[0] == Sheet::CASE_CROSSING)
    });
    if let Some(i) = deepest.or_else(|| some_crossing(rng, draft)) {
        let index = draft.notes[i].index;
        let record = &mut draft.records[index - 1];
        *record = [Sheet::CASE_SPLIT, record[1], record[2], 0, 0, record[5], 0, record[NEXT]];
        if rng.chance(20) {
            record.swap(1, 2);
        }
    }
}

/// A sheet of random records that look like records, or of random bytes.
pub fn noise(rng: &mut Rng, n: u16) -> Vec<u8> {
    let count = rng.between(1, 12);
    if rng.chance(20) {
        return (0..16 * count).map(|_| rng.word() as u8).collect();
    }
    let records: Vec<Record> = (0..count).map(|i| noise_record(rng, n, i, count)).collect();
    sheet_bytes(&records)
}

fn noise_record(rng: &mut Rng, n: u16, at: usize, count: usize) -> Record {
    let kind = if at == 0 { Sheet::LINE } else { rng.between(1, 5) as u16 };
    let mut record: Record = std::array::from_fn(|_| rng.point(n));
    record[0] = kind;
    let anywhere = rng.between(0, count + 1);
    record[NEXT] = rng.pick(&[0, at + 2, at + 2, anywhere]) as u16;
    let first = rng.pick(&[0, at + 2]) as u16;
    match kind {
        Sheet::CASE_CROSSING => {}
        Sheet::CASE_REORDERING => (record[5], record[FIRST]) = (0, first),
        Sheet::SEGMENT_POINT => record[2..NEXT].fill(0),
        _ => (record[3], record[4], record[FIRST]) = (0, 0, first),
    }
    record
}
