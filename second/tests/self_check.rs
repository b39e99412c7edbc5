//! The second program against the naive one, and the comparison against mistakes on purpose.

use second::kit::compare::{Checked, Comparison};
use second::kit::damage::segments::SegmentFault;
use second::kit::met::coverage::Coverage;
use second::kit::met::sets::READERS;
use second::kit::programs::checker::{Checker, Second};
use second::kit::programs::naive::{Mistake, Naive};

#[test]
fn alike_and_everything_met() {
    let naive = Naive::default();
    let mut comparison = Comparison::new(&Second, &naive, &naive, 7);
    if let Err(difference) = comparison.run(10_000) {
        panic!("{}", difference.0);
    }
    assert!(comparison.coverage.missing().is_empty(), "{:?}", comparison.coverage.missing());
}

/// Before the first case all rules are missing, their longest diagonals and the numbers to be refused.
#[test]
fn rules_are_demanded() {
    let missing = Coverage::default().missing();
    for operation in ["measure", "program"] {
        for rule in ["EUC_2D", "CEIL_2D", "ATT", "MAN_2D", "MAX_2D"] {
            let measured = format!("{operation}: {rule} measured");
            assert!(missing.contains(&format!("{measured} with opposite corners of the largest square")));
            assert!(missing.contains(&measured));
        }
        for number in [0, 6, u32::MAX] {
            assert!(missing.contains(&format!("{operation}: rule {number} refused")));
        }
    }
}

/// Before the first case nothing has been held against strikes.
#[test]
fn strikes_are_demanded() {
    let missing = Coverage::default().missing();
    for unmet in [
        "marks with strikes whose open edges were counted",
        "points left with two open edges",
        "marks left with n open edges",
        "3-opt tours up to nine points, held against marks with strikes",
        "3-opt tours of more points, held against marks with strikes",
        "3-opt tours longer than another, held against marks with strikes",
    ] {
        assert!(missing.contains(&unmet.to_string()), "{unmet}");
    }
}

/// Before the first case nothing has been pending.
#[test]
fn pending_marks_are_demanded() {
    let missing = Coverage::default().missing();
    for unmet in [
        "mark a sheet: 20",
        "ask a sheet: 20",
        "ask a sheet: 0",
        "confirm: 0",
        "confirm: 21",
        "withdraw: 0",
        "withdraw: 21",
        "sheets refused by 20 before 7",
        "asked sheets stopped after accepted lines",
        "asked lines for an edge that their own sheet has made pending",
        "asked sheets with strikes, confirmed as marked and withdrawn as before",
        "lists with pairs that stand by pending edges",
        "splits listed for a pending edge",
        "tours with all edges open, some of them pending",
        "pending marks held against all shortest tours",
        "pending marks held against 3-opt tours of more than nine points",
    ] {
        assert!(missing.contains(&unmet.to_string()), "{unmet}");
    }
}

/// Before the first case no packed set has been met.
#[test]
fn packed_sets_are_demanded() {
    let missing = Coverage::default().missing();
    let demanded = |unmet: String| assert!(missing.contains(&unmet), "{unmet}");
    for operation in READERS.map(|operation| operation.name()) {
        for n in (4..=12).chain(177..=180) {
            demanded(format!("{operation}: a result for {n} points"));
            demanded(format!("{operation}: held against the naive checker for {n} points"));
        }
        for marks in 1..=4 {
            (0..marks).for_each(|place| {
                demanded(format!("{operation}: refused for a mark of 3 at place {place} of a last byte with {marks}"))
            });
            (2 * marks..8)
                .for_each(|bit| demanded(format!("{operation}: refused for bit {bit} of a last byte with {marks}")));
        }
        (0..4).for_each(|place| demanded(format!("{operation}: refused for a mark of 3 at place {place} of a byte")));
        demanded(format!("{operation}: a faulty set refused by a test before 6"));
    }
    for operation in ["fresh marks", "pack marks", "program"] {
        (4..=12).chain(177..=180).for_each(|n| demanded(format!("{operation}: a result for {n} points")));
    }
    for operation in READERS.map(|operation| operation.name()).into_iter().chain(["fresh marks", "pack marks"]) {
        demanded(format!("{operation}: refused for a byte too few"));
        demanded(format!("{operation}: refused for a byte too many"));
    }
}

/// Before the first case no saving has been met.
#[test]
fn savings_are_demanded() {
    let missing = Coverage::default().missing();
    let demanded = |unmet: String| assert!(missing.contains(&unmet), "{unmet}");
    for saving in ["exchange saving", "move saving", "crossing saving"] {
        for sign in ["below 0", "of 0", "above 0"] {
            demanded(format!("{saving}: different points with a saving {sign}"));
            demanded(format!("{saving}: a rule held against a saving {sign}"));
        }
        [1, 2, 5, 11].iter().for_each(|number| demanded(format!("{saving}: {number}")));
        for two in ["1 before 2", "1 before 5", "1 before 11", "2 before 5", "2 before 11", "5 before 11"] {
            demanded(format!("{saving}: refused by {two}"));
        }
        for fault in
            ["n outside 4 to 180", "a table too short by 1", "a table too long by 4", "an entry above 2,000,000"]
        {
            demanded(format!("{saving}: refused for {fault}"));
        }
    }
    let points = [("exchange saving", "pqxy"), ("move saving", "cxyuv"), ("crossing saving", "pqrsxyzw")];
    for (saving, point) in points.iter().flat_map(|&(saving, points)| points.chars().map(move |v| (saving, v))) {
        demanded(format!("{saving}: refused for {point} = 0"));
        demanded(format!("{saving}: refused for {point} = n + 1"));
        demanded(format!("{saving}: refused for {point} above 256"));
    }
    let edges = [("exchange", "pq xy"), ("move", "cx cy uv"), ("crossing", "pq rx ry sz sw")];
    let touching = [("exchange", "px py qx qy"), ("move", "xy xu cu"), ("crossing", "pr rs px qw pz qy xz")];
    let told = |edge: &str| edge.chars().map(String::from).collect::<Vec<_>>().join(" = ");
    for (saving, edges) in edges {
        edges.split(' ').for_each(|edge| demanded(format!("{saving} saving: refused for {}", told(edge))));
    }
    for (saving, edges) in touching {
        edges.split(' ').for_each(|edge| demanded(format!("{saving} saving: a saving with {}", told(edge))));
    }
}

/// Before the first case no settled point has been moved.
#[test]
fn moves_are_demanded() {
    let missing = Coverage::default().missing();
    let demanded = |unmet: String| assert!(missing.contains(&unmet), "{unmet}");
    for place in ["off K", "on K"] {
        for mover in ["x", "y", "another point"] {
            for depth in 2..=6 {
                demanded(format!("a pair left out of an accepted split at depth {depth}, {place}, for {mover}"));
                demanded(format!("a sheet refused by 14 for its pair at depth {depth}, {place}, for {mover}"));
            }
            demanded(format!("a pair that stands by a tie {place}, for {mover}"));
        }
    }
}

/// Before the first case no slip has been shown.
#[test]
fn slips_are_demanded() {
    let missing = Coverage::default().missing();
    for unmet in [
        "examiner view: 0",
        "examiner view: 22",
        "candidate view: 0",
        "candidate view: 22",
        "slips of no refusal",
        "slips of a refusal",
        "released slips of no refusal",
        "released slips of a refusal",
        "slips with bits above 40",
        "slips of accepted sheets",
        "slips of sheets refused at no record",
        "slips of sheets refused by 25",
        "slips of sheets stopped before a line was accepted",
        "slips of sheets stopped after accepted lines",
        "different slips of sheets alike to the candidate",
        "slips alike to the candidate with other numbers",
        "slips alike to the candidate with other records",
        "slips that differ to the candidate in the lines alone",
        "slips that differ to the candidate in the outcome alone",
        "slips alike to the examiner with other bits above 40",
        "slips released twice",
        "views in five bytes",
        "views with bytes past them",
    ] {
        assert!(missing.contains(&unmet.to_string()), "{unmet}");
    }
}

/// Before the first case nothing has been met over two tables.
#[test]
fn limits_are_demanded() {
    let missing = Coverage::default().missing();
    let demanded = |unmet: String| assert!(missing.contains(&unmet), "{unmet}");
    for (operation, numbers) in [("mark between", "1 2 5 25 6 20 7"), ("list between", "1 2 5 25 6 11 12 18")] {
        let numbers: Vec<&str> = numbers.split(' ').collect();
        for (at, number) in numbers.iter().enumerate() {
            demanded(format!("{operation}: {number}"));
            let tables =
                ["the low table", "the high table", "both tables"].map(|tables| format!("{number} for {tables}"));
            let told = if ["2", "5"].contains(number) { tables.to_vec() } else { vec![number.to_string()] };
            for (told, later) in told.iter().flat_map(|told| numbers[at + 1..].iter().map(move |later| (told, later))) {
                demanded(format!("{operation}: refused by {told} before {later}"));
            }
        }
        for edge in ["the first edge", "the last edge", "any edge"] {
            demanded(format!("{operation}: refused for a low length above its high one at {edge}"));
        }
    }
    for tours in ["lengths low", "lengths high", "each length low or high", "lengths between"] {
        demanded(format!("strikes over two tables held against all shortest tours, {tours}"));
    }
    for alone in ["the low one alone", "the high one alone"] {
        demanded(format!("pairs that stand over two tables, not over {alone}"));
        demanded(format!("sheets accepted over two tables, refused over {alone}"));
    }
    demanded("pairs that stand over two tables, over neither alone".to_string());
    for table in ["low", "high"] {
        demanded(format!("sheets accepted over the {table} table alone, refused over two"));
        demanded(format!("crossings that save over the {table} table alone, not over two"));
    }
    for width in ["equal limits", "narrow limits", "wide limits", "limits of one", "limits at a few edges"] {
        demanded(format!("a line accepted over {width}"));
        demanded(format!("a list with pairs over {width}"));
    }
    (1..=6).for_each(|depth| demanded(format!("a line accepted over two tables at depth {depth}")));
}

/// Before the first case no text has been read.
#[test]
fn texts_are_demanded() {
    let missing = Coverage::default().missing();
    assert!(Coverage::default().missing_texts().iter().all(|unmet| missing.contains(unmet)));
    let demanded = |unmet: String| assert!(missing.contains(&unmet), "{unmet}");
    [0, 1, 2, 4, 5, 19].iter().for_each(|number| demanded(format!("read a text: {number}")));
    (0..=5).for_each(|rule| demanded(format!("a text read by rule {rule}")));
    for line in ["Line(Name)", "Line(Dimension)", "Line(Node)", "Line(Eof)", "Unfinished", "Missing", "BehindEof"] {
        demanded(format!("19 at {line}"));
        demanded(format!("19 at {line}, held against completions"));
    }
    for kind in ["Name", "Comment", "Type", "Dimension", "WeightType", "Format", "NodeSection", "Weights", "Eof"] {
        for damage in ["Emptied", "Tab", "Doubled", "Dropped", "CutWithin", "ByteChanged", "ByteInserted"] {
            demanded(format!("{damage} at {kind}"));
        }
    }
    for body in ["coordinates", "weights"] {
        let demanded = |unmet: &str| demanded(format!("a text with {body}: {unmet}"));
        ["CutAtEveryByte", "EachDamageAtEachLine", "EachByteChanged"].into_iter().for_each(demanded);
        [0, 1, 3, 180, 181, 260, 4_294_967_295u64, 4_294_967_296].iter().for_each(|n| demanded(&format!("Points{n}")));
        for size in ["None", "ByteLess", "EntryLess", "ByteMore", "EntryMore"] {
            demanded(&format!("refused for the table's size, {size}"));
        }
        for (first, later) in [(19, 1), (19, 2), (19, 4), (1, 2), (1, 4), (2, 4), (1, 1), (2, 2), (4, 4)] {
            demanded(&format!("refused by {first} where {later} is due"));
        }
    }
    demanded("a text made line by line".to_string());
    for shape in ["TypeFirst", "NoType", "AnyBytes", "ManyZeros", "LinesAcrossRows", "BlanksAtBothEnds"] {
        demanded(format!("a text read with {shape}"));
    }
}

/// Before the first case no page has been met.
#[test]
fn pages_are_demanded() {
    let missing = Coverage::default().missing();
    let demanded = |unmet: String| assert!(missing.contains(&unmet), "{unmet}");
    (4..=20).for_each(|n| demanded(format!("pages of {n} points")));
    (1..=25).for_each(|column| demanded(format!("pages damaged in column {column}")));
    [0, 1, 2, 5, 6, 22, 26].iter().for_each(|number| demanded(format!("write a page: {number}")));
    [0, 1, 2, 6, 26, 27].iter().for_each(|number| demanded(format!("read a page: {number}")));
    for unmet in [
        "only pages",
        "first pages of several",
        "last pages of several",
        "last pages of 60 lines",
        "pages refused by 22 for one byte",
        "page 0",
        "the page past the last",
        "the page past a last one of 60 lines",
        "pages without their last line",
        "pages that end within a line",
        "pages without their last newline",
        "pages with a line too many",
        "pages with a byte too many",
    ] {
        demanded(unmet.to_string());
    }
}

/// Before the first case no desk has been served.
#[test]
fn desks_are_demanded() {
    let missing = Coverage::default().missing();
    assert!(Coverage::default().missing_desks().iter().all(|unmet| missing.contains(unmet)));
    let demanded = |unmet: String| assert!(missing.contains(&unmet), "{unmet}");
    for operation in ["open desks", "hand in", "next desk", "turn"] {
        [0, 22].iter().for_each(|number| demanded(format!("{operation}: {number}")));
    }
    [28, 29, 1, 2, 5, 6, 20, 7].iter().for_each(|number| demanded(format!("hand in: {number}")));
    [1, 2, 5, 6, 20, 7]
        .iter()
        .chain(&[8, 9, 10, 11, 12, 13, 14, 15, 16])
        .for_each(|number| demanded(format!("turn: {number}")));
    for desk in 1..=8 {
        demanded(format!("a sheet handed in at desk {desk}"));
        demanded(format!("a turn of desk {desk}"));
    }
    for unmet in [
        "sheets of several lines that ended whole by turns, as marked alone",
        "sheets that stopped at a later line, as marked alone",
        "sheets that stopped by 8 at the next index of an accepted line, as marked alone",
        "sheets that stopped by 9 at the next index of an accepted line, as marked alone",
        "sheets marked by turns among turns and handings-in of other desks, as marked alone",
        "tests that failed at a turn after accepted lines",
        "sheets handed in over a line",
        "sheets handed in after one that ended whole",
        "sheets handed in after one that stopped",
        "sheets handed in at desk 0",
        "sheets handed in at desk 9",
        "states a byte too short",
        "states with bytes past them",
        "22 before 28",
        "22 before 29",
        "desks served after seven turns of others",
        "turns that went round behind desk 8",
        "turns after a last desk above 8",
        "lines accepted from a state of any bytes",
        "strikes of turns held against all shortest tours",
        "a turn after another n",
        "a turn after a table of another size",
        "a turn after a table entry above 2,000,000",
        "a turn after a faulty set of marks",
        "a turn after a pending mark",
        "a turn after a sheet with a broken record",
        "a turn after a sheet cut before the line that waits",
    ] {
        demanded(unmet.to_string());
    }
}

/// Before the first case no line has been told.
#[test]
fn reasons_are_demanded() {
    let missing = Coverage::default().missing();
    assert!(Coverage::default().missing_reasons().iter().all(|unmet| missing.contains(unmet)));
    let demanded = |unmet: String| assert!(missing.contains(&unmet), "{unmet}");
    [0, 1, 2, 5, 6, 7, 22].iter().for_each(|number| demanded(format!("tell a line: {number}")));
    for number in [8, 9, 10, 11, 12, 13, 14, 15, 16, 23, 24] {
        demanded(format!("tell a line: {number}"));
        demanded(format!("told: {number} with its record"));
    }
    for unmet in [
        "the first edge struck",
        "the second edge struck",
        "the lower of two struck edges",
        "the first edge pending, told as struck",
        "the second edge pending, told as struck",
        "a third edge",
        "a loop",
        "an exchange of the first edge",
        "an exchange of the second edge",
        "the lower of two exchanges",
        "the lower of two exchanges, which saves less",
        "the split point moved, no end of the line's edge in the pair",
        "an end of the line's edge moved, below the split point",
        "the split point moved, below the end of the line's edge in the pair",
        "a further split",
        "a struck edge before an exchange",
        "an exchange before a move",
        "lines in a later record",
        "lines over the marks that the lines before leave",
        "lines with a next index that does not rise",
        "texts in a buffer of their size",
        "texts with bytes past them",
        "texts refused by 22 for one byte",
        "lines refused without a byte for the text",
        "8 for record 0",
        "8 for the record past the last",
        "8 for the largest record number",
        "7 before 8",
        "12 for a pending edge",
    ] {
        demanded(format!("told: {unmet}"));
    }
}

#[test]
fn reasons_alike_and_everything_met() {
    let naive = Naive::default();
    let mut comparison = Comparison::new(&Second, &naive, &naive, 8);
    if let Err(difference) = comparison.run_reasons(6_000) {
        panic!("{}", difference.0);
    }
    assert!(comparison.coverage.missing_reasons().is_empty(), "{:?}", comparison.coverage.missing_reasons());
}

/// What a run of the comparison finds of a mistake, in the second program against the naive one or in both.
fn found_by(mistake: Mistake, both: bool, run: impl FnOnce(&mut Comparison) -> Checked) -> String {
    let naive = Naive { mistake: Some(mistake) };
    let one: &dyn Checker = if both { &naive } else { &Second };
    let mut comparison = Comparison::new(one, &naive, &naive, 7);
    let Err(difference) = run(&mut comparison) else { panic!("{mistake:?} is not found") };
    let what = difference.0.split(" differs").next().unwrap();
    println!("{mistake:?}: {what}, {}", difference.0.lines().next().unwrap());
    what.to_string()
}

fn found_in_reasons(mistake: Mistake, both: bool) -> String {
    found_by(mistake, both, |comparison| comparison.run_reasons(3_000))
}

#[test]
fn mistakes_in_reasons_are_found() {
    for mistake in Mistake::REASONS {
        found_in_reasons(mistake, false);
    }
}

/// Before the first case no new order has been met.
#[test]
fn segments_are_demanded() {
    let missing = Coverage::default().missing();
    let demanded = |unmet: String| assert!(missing.contains(&unmet), "{unmet}");
    for operation in ["mark a sheet", "ask a sheet", "mark between", "turn"] {
        for unmet in ["23", "24", "a new order accepted", "23 before the chain", "23 after the chain"] {
            demanded(format!("{operation}: {unmet}"));
        }
    }
    [23, 24].iter().for_each(|number| demanded(format!("program: {number}")));
    (1..=12).for_each(|inner| demanded(format!("an order of {inner} inner points not shorter")));
    (3..=12).for_each(|inner| demanded(format!("an order of {inner} inner points accepted")));
    (1..=6).for_each(|depth| demanded(format!("an order inside {depth} splits not shorter")));
    (2..=6).for_each(|depth| demanded(format!("an order inside {depth} splits accepted")));
    SegmentFault::ALL.iter().for_each(|(_, name)| demanded(format!("a new order with {name}")));
    for unmet in [
        "accepted new orders",
        "strikes of sheets with a new order held against all shortest tours",
        "strikes of sheets with a new order over two tables held against all shortest tours between",
        "strikes of turns with a new order held against all shortest tours",
        "the six points",
        "orders that save over two different tables",
        "orders that save over the low table alone, not over two",
        "orders that save over the high table alone, not over two",
    ] {
        demanded(unmet.to_string());
    }
}

fn found_in_segments(mistake: Mistake, both: bool) -> String {
    found_by(mistake, both, |comparison| comparison.run_segments(2_000))
}

#[test]
fn mistakes_in_segments_are_found() {
    for mistake in Mistake::SEGMENTS {
        assert_eq!(found_in_segments(mistake, false), "new order", "{mistake:?}");
    }
}

/// Paper 10's law, where both programs make the mistake: each damage gets its refusal, and an order is accepted exactly
/// where it is shorter.
#[test]
fn mistakes_of_both_are_found_by_the_damage_to_segments() {
    for mistake in Mistake::SEGMENTS {
        assert_eq!(found_in_segments(mistake, true), "new order by its damage", "{mistake:?}");
    }
}

fn found_at_desks(mistake: Mistake, both: bool) -> String {
    found_by(mistake, both, |comparison| comparison.run_halls(2_000))
}

#[test]
fn mistakes_at_desks_are_found() {
    for mistake in Mistake::DESKS {
        found_at_desks(mistake, false);
    }
}

#[test]
fn texts_alike_and_everything_met() {
    let naive = Naive::default();
    let mut comparison = Comparison::new(&Second, &naive, &naive, 8);
    if let Err(difference) = comparison.run_texts(20_000) {
        panic!("{}", difference.0);
    }
    assert!(comparison.coverage.missing_texts().is_empty(), "{:?}", comparison.coverage.missing_texts());
}

fn found_in_texts(mistake: Mistake, both: bool) -> String {
    found_by(mistake, both, |comparison| comparison.run_texts(20_000))
}

#[test]
fn mistakes_in_texts_are_found() {
    for mistake in Mistake::TEXTS {
        found_in_texts(mistake, false);
    }
}

#[test]
fn mistakes_are_found() {
    for mistake in Mistake::SHEETS {
        found_by(mistake, false, |comparison| comparison.run(10_000));
    }
}

/// What the comparison over one table finds where both programs make the mistake: the marks alone tell it.
fn found_in_both(mistake: Mistake) -> String {
    found(mistake, false)
}

/// What the comparison finds where both make the mistake, over two tables too or over one alone; no hall, where queues
/// tell it, and no line told, where what is due does.
fn found(mistake: Mistake, two_tables: bool) -> String {
    found_by(mistake, true, |comparison| {
        comparison.two_tables = two_tables;
        comparison.eight_desks = false;
        comparison.told_lines = false;
        comparison.run(20_000)
    })
}

/// The first leaves a point one open edge; the second strikes no edge of a shortest tour.
#[test]
fn mistakes_of_both_are_found_by_open_edges_and_tours() {
    assert_eq!(found_in_both(Mistake::LastEdges), "open edges");
    assert_eq!(found_in_both(Mistake::ShortestOnly), "3-opt tour");
}

/// Paper 3's laws, on copies of what was asked.
#[test]
fn mistakes_of_both_are_found_by_the_laws_of_asking() {
    assert_eq!(found_in_both(Mistake::PendingOpenInSheet), "ask from mark");
    assert_eq!(found_in_both(Mistake::PendingMarked), "ask from mark");
    assert_eq!(found_in_both(Mistake::StoppedAskGivenBack), "ask, then confirm");
    assert_eq!(found_in_both(Mistake::StoppedAskStrikes), "ask, then confirm");
    assert_eq!(found_in_both(Mistake::ConfirmOpens), "ask, then confirm");
    assert_eq!(found_in_both(Mistake::NothingPendingUntold), "ask, then confirm");
    assert_eq!(found_in_both(Mistake::WithdrawStrikes), "ask, then withdraw");
}

/// Paper 4's laws, on conversions and on sets with one fault.
#[test]
fn mistakes_of_both_are_found_by_the_laws_of_packed_sets() {
    assert_eq!(found_in_both(Mistake::PendingPackedOpen), "pack marks, then unpack marks");
    assert_eq!(found_in_both(Mistake::LastMarkDropped), "pack marks, then unpack marks");
    assert_eq!(found_in_both(Mistake::WrittenSetTested), "pack marks, then unpack marks");
    assert_eq!(found_in_both(Mistake::PackedBeforeTest), "pack marks, refused");
    let faults = [
        (Mistake::LongerSet, " for a byte too many"),
        (Mistake::MarkThree, " for a mark of 3 at place "),
        (Mistake::LastByteUntested, " of a last byte with "),
        (Mistake::UnusedPassed, " for bit "),
    ];
    for (mistake, fault) in faults {
        let what = found_in_both(mistake);
        assert!(what.contains(fault), "{mistake:?}: {what}");
    }
}

/// Paper 5's law: a saving above 0 shuts out.
#[test]
fn mistakes_of_both_are_found_by_the_rules_that_savings_tell() {
    assert_eq!(found_in_both(Mistake::SmallerExchange), "list pairs by savings");
    assert_eq!(found_in_both(Mistake::LargerMove), "crossing by its saving");
    assert_eq!(found_in_both(Mistake::FirstLabelling), "crossing by its saving");
    for mistake in [Mistake::EndsTheSame, Mistake::EdgesBeforeLengths] {
        let what = found_in_both(mistake);
        assert!(what.ends_with(" saving, refused"), "{mistake:?}: {what}");
    }
}

/// The mistakes that are found by none of the laws that they break.
fn found_otherwise(mistakes: &[Mistake], laws: &[&str], found: impl Fn(Mistake) -> String) -> Vec<(Mistake, String)> {
    let all = mistakes.iter().map(|&mistake| (mistake, found(mistake)));
    all.filter(|(_, what)| !laws.contains(&what.as_str())).collect()
}

/// Paper 7's law: a pair at a further split is shut out exactly if some move of a settled point saves. Where the second
/// program shuts out a first pair and these do not, its sheet with a crossing tells, too.
#[test]
fn mistakes_of_both_are_found_by_the_moves_of_settled_points() {
    for mistake in [
        Mistake::SplitMovedOnly,
        Mistake::LowerStays,
        Mistake::HigherStays,
        Mistake::OthersStay,
        Mistake::PairsEdgesLeft,
    ] {
        let what = found_in_both(mistake);
        assert!(["pair by moves", "crossing by its saving"].contains(&what.as_str()), "{mistake:?}: {what}");
    }
    let laws = ["list pairs by savings", "pair by moves"];
    assert_eq!(found_otherwise(&[Mistake::TouchingLeft, Mistake::SettledTies], &laws, found_in_both), []);
}

/// Paper 13's laws: what two slips tell, and what releasing and showing leave.
#[test]
fn mistakes_of_both_are_found_by_the_laws_of_slips() {
    assert_eq!(found_in_both(Mistake::RecordShownEarly), "two slips to the candidate");
    assert_eq!(found_in_both(Mistake::NumberShownEarly), "two slips to the candidate");
    assert_eq!(found_in_both(Mistake::LinesHidden), "two slips to the candidate");
    assert_eq!(found_in_both(Mistake::HiddenAfterRelease), "released slip");
    assert_eq!(found_in_both(Mistake::ReleaseTakenBack), "release, other bits");
    assert_eq!(found_in_both(Mistake::ReleaseCutsAbove), "release, other bits");
    for mistake in [Mistake::ShortViewWritten, Mistake::BytesPastCleared] {
        let what = found_in_both(mistake);
        assert!(what.ends_with(" view, bytes lent"), "{mistake:?}: {what}");
    }
}

/// Paper 11's laws: whatever stands over a table between the two stands over both, a crossing saves by three low
/// lengths against three high ones, and one set of marks serves all tables between.
#[test]
fn mistakes_of_both_are_found_by_the_tables_between() {
    let laws = ["list between from a table between", "crossing between"];
    assert_eq!(found_otherwise(&[Mistake::OutHigh, Mistake::PutLow], &laws, |mistake| found(mistake, true)), []);
    assert_eq!(found(Mistake::CrossingLow, true), "crossing between");
    let what = found(Mistake::EndsOnly, true);
    assert!(["lost edge between", "3-opt tour between"].contains(&what.as_str()), "{what}");
}

/// Paper 11's refusals.
#[test]
fn mistakes_of_both_are_found_by_the_refusals_over_two_tables() {
    for (mistake, fault) in [
        (Mistake::LimitsUntold, " for a low length above its high one at "),
        (Mistake::LimitsBeforeLengths, " for an entry above 2,000,000 in "),
        (Mistake::LimitsAfterMarks, " between for "),
        (Mistake::LowEntryUntested, " for an entry above 2,000,000 in the low table"),
        (Mistake::HighEntryUntested, " for an entry above 2,000,000 in the high table"),
    ] {
        let what = found(mistake, true);
        assert!(what.contains(fault), "{mistake:?}: {what}");
    }
    found(Mistake::EqualRefused, true);
}

/// Rules that shut out too much, in both.
#[test]
fn mistakes_of_both_are_found() {
    for mistake in [Mistake::EqualShutsOut, Mistake::OneExchange, Mistake::EarlyStrike, Mistake::EdgeAtPoint] {
        found_in_both(mistake);
    }
}

/// Paper 1's laws: a good text is as its numbers, the line told is held against all completions, a refused call leaves
/// the table, and the first number that is for a call is told.
#[test]
fn mistakes_of_both_in_texts_are_found() {
    let laws = ["text as its numbers", "text by its completions", "text, refused", "text and its points"];
    assert_eq!(found_otherwise(&Mistake::TEXTS, &laws, |mistake| found_in_texts(mistake, true)), []);
}

/// Paper 12's laws: what a page leaves, and that it is read again.
#[test]
fn mistakes_of_both_are_found_by_the_laws_of_pages() {
    assert_eq!(found_in_both(Mistake::ShortPageWritten), "write a page, refused");
    assert_eq!(found_in_both(Mistake::PastPageCleared), "write a page, bytes past it");
    assert_eq!(found_in_both(Mistake::NextEdgeChanged), "read a page, its own edges");
}

/// Paper 14's laws, where both programs make the mistake: what a turn tells and leaves, what handing in tests, what a
/// change of a folder comes to; and the queues, which live through a hall.
#[test]
fn mistakes_of_both_are_found_by_the_laws_of_desks() {
    let laws: [(&[Mistake], &[&str]); 13] = [
        (&[Mistake::SameDeskAgain, Mistake::RoundEndsAtEight, Mistake::LastNotModulo], &["next desk by the queues"]),
        (&[Mistake::UnservedLineLeft], &["next desk by the queues", "hand in by its tests"]),
        (&[Mistake::NextIndexToldLate], &["turn by the queues"]),
        (&[Mistake::TestsNotRepeated], &["turn after a change"]),
        (&[Mistake::OwnerForgotten], &["turn after a change", "turn by the queues"]),
        (&[Mistake::LinesLostAtTest, Mistake::LinesOfTurn], &["turn, its strike"]),
        (&[Mistake::RefusedTurnKeepsLine, Mistake::EndedKeepsLines], &["turn, its line left"]),
        (&[Mistake::RefusedTurnUnserved, Mistake::OtherDeskCleared], &["turn, other desks"]),
        (&[Mistake::HandInServes, Mistake::HandInOverLine, Mistake::DeskByLowByte], &["hand in by its tests"]),
        (&[Mistake::TestsBeforeDesk], &["hand in, too short", "hand in by its tests"]),
        (&[Mistake::DeskBeforeBuffer], &["hand in, too short"]),
        (&[Mistake::PastDesksCleared], &["open desks"]),
        (&[Mistake::ShortDesksOpened], &["open desks, too short"]),
    ];
    let by_desks = |mistake| found_at_desks(mistake, true);
    let others: Vec<(Mistake, String)> =
        laws.iter().flat_map(|(mistakes, laws)| found_otherwise(mistakes, laws, by_desks)).collect();
    assert_eq!(others, []);
}

/// Paper 6's laws, where all programs make the mistake: a text is the one due, a refused line is refused as marked
/// alone, and bytes past a text stay.
#[test]
fn mistakes_of_both_are_found_by_the_laws_of_reasons() {
    let refusals = [
        Mistake::NextIndexTold,
        Mistake::FirstIsOne,
        Mistake::RecordZeroFirst,
        Mistake::RecordByLowBits,
        Mistake::AskedRecordNamed,
        Mistake::ToldPendingRefused,
    ];
    for mistake in Mistake::REASONS {
        let law = match mistake {
            Mistake::BufferBeforeLine => "tell a line, refused without a byte",
            Mistake::ShortTextWritten | Mistake::PastTextCleared => "tell a line, bytes past it",
            _ if refusals.contains(&mistake) => "tell a line, its refusal",
            _ => "tell a line by what is due",
        };
        assert_eq!(found_in_reasons(mistake, true), law, "{mistake:?}");
    }
}
