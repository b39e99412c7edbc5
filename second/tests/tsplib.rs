//! Paper 1 by hand: good texts, the line told for each fault, the tests behind 19; and all short texts against their
//! completions.

mod common;

use common::*;
use second::bytes;
use second::kit::oracle::completions::Completions;
use second::kit::programs::naive::language::Line;
use second::lengths::{edge_count, measure};
use second::refusal::Refusal;
use second::tsplib::{read_tsplib, tsplib_points, TextFault};

const SQUARE_TEXT: &str = "\
NAME : square
TYPE : TSP
COMMENT : four points
DIMENSION : 4
EDGE_WEIGHT_TYPE : EUC_2D
NODE_COORD_SECTION
1 0 0
2 10 0
3 10 10
4 0 10
EOF
";

const WEIGHTS_TEXT: &str = "\
DIMENSION : 4
EDGE_WEIGHT_TYPE : EXPLICIT
EDGE_WEIGHT_FORMAT : UPPER_ROW
EDGE_WEIGHT_SECTION
10 14 10
10 14
10
EOF
";

fn read(text: &str) -> Result<(u32, Vec<u32>), TextFault> {
    let mut table = vec![7; 6];
    let n = read_tsplib(text.as_bytes(), &mut table)?;
    Ok((n, table))
}

/// The line that 19 tells; 0 for a text of the language.
fn line(text: &str) -> u64 {
    let Err(fault) = tsplib_points(text.as_bytes()) else { return 0 };
    assert_eq!(fault.refusal, Refusal::Text);
    assert_eq!(read_tsplib(text.as_bytes(), &mut [7; 6]), Err(fault), "{text}");
    fault.line
}

/// The line told for a text with one line, from 1, replaced by others.
fn with(text: &str, number: usize, lines: &str) -> u64 {
    let mut all: Vec<&str> = text.split_inclusive('\n').collect();
    all[number - 1] = lines;
    line(&all.concat())
}

#[test]
fn the_square_in_both_kinds() {
    assert_eq!(read(SQUARE_TEXT), Ok((4, square())));
    assert_eq!(read(WEIGHTS_TEXT), Ok((4, square())));
}

#[test]
fn the_five_names() {
    for (rule, name) in (1..).zip(["EUC_2D", "CEIL_2D", "ATT", "MAN_2D", "MAX_2D"]) {
        let mut table = vec![0; 6];
        measure(4, rule, &SQUARE, &mut table).unwrap();
        assert_eq!(read(&SQUARE_TEXT.replace("EUC_2D", name)), Ok((4, table)), "{name}");
    }
}

/// "With blanks between at will"; "weights may break over lines"; leading zeros.
#[test]
fn good_shapes() {
    let explicit = "DIMENSION: 4\nEDGE_WEIGHT_TYPE: EXPLICIT\nEDGE_WEIGHT_FORMAT: UPPER_ROW\n";
    for text in [
        "EDGE_WEIGHT_FORMAT:UPPER_ROW\n  EDGE_WEIGHT_TYPE  :  EXPLICIT  \nDIMENSION:004\n EDGE_WEIGHT_SECTION \n\
         10\n 14  10 10 \n14 000000000000010\n  EOF  \n",
        &format!("COMMENT:\nCOMMENT :\nCOMMENT : :\nNAME:EOF\n{explicit}EDGE_WEIGHT_SECTION\n10 14 10 10 14 10\nEOF\n"),
        "NAME : a\tb:\r\0 c \nDIMENSION :4\nEDGE_WEIGHT_TYPE :MAX_2D\nNODE_COORD_SECTION\n\
         1 0 0\n02 0 0\n3 0 0\n  4   0 0  \nEOF\n",
    ] {
        assert_eq!(line(text), 0, "{text}");
    }
}

#[test]
fn keyword_lines_at_fault() {
    for bad in [
        "NAME square",
        "NAME",
        "name : x",
        " \tNAME : x",
        "NAME\t: x",
        "NA ME : x",
        ": NAME",
        "",
        "   ",
        "x",
        "CAPACITY : 4",
        "TYPE : TSP TSP",
        "EOF",
        "EOF :",
        "1 2 3",
    ] {
        assert_eq!(with(SQUARE_TEXT, 1, &format!("{bad}\n")), 1, "{bad}");
    }
    for bad in ["TYPE : ATSP", "TYPE :", "TYPE : tsp", "TYPE : TSP\r", "TYPE : TSP\t", "TYPE : TSP x"] {
        assert_eq!(with(SQUARE_TEXT, 2, &format!("{bad}\n")), 2, "{bad}");
    }
    for bad in ["", " 4 4", " -4", " +4", " 4.0", " 4e0", " 4294967296", " four", ": 4", " 4\r"] {
        assert_eq!(with(SQUARE_TEXT, 4, &format!("DIMENSION :{bad}\n")), 4, "{bad}");
    }
    for bad in ["", " GEO", " EUC_3D", " EUC_2D CEIL_2D", " euc_2d", " EXPLICIT EXPLICIT"] {
        assert_eq!(with(SQUARE_TEXT, 5, &format!("EDGE_WEIGHT_TYPE :{bad}\n")), 5, "{bad}");
    }
    for bad in ["", " FULL_MATRIX", " LOWER_ROW"] {
        assert_eq!(with(WEIGHTS_TEXT, 3, &format!("EDGE_WEIGHT_FORMAT :{bad}\n")), 3, "{bad}");
    }
}

/// "Only COMMENT may repeat, and EXPLICIT alone has EDGE_WEIGHT_FORMAT too."
#[test]
fn repeated_and_clashing_keywords() {
    for number in [1, 2, 4, 5] {
        let twice = SQUARE_TEXT.lines().nth(number - 1).unwrap();
        assert_eq!(with(SQUARE_TEXT, number, &format!("{twice}\n{twice}\n")), number as u64 + 1, "{twice}");
    }
    assert_eq!(with(SQUARE_TEXT, 3, "COMMENT :\nCOMMENT :\n"), 0);
    let format = "EDGE_WEIGHT_FORMAT : UPPER_ROW\n";
    assert_eq!(with(WEIGHTS_TEXT, 3, &[format, format].concat()), 4);
    assert_eq!(with(SQUARE_TEXT, 5, &format!("EDGE_WEIGHT_TYPE : EUC_2D\n{format}")), 6);
    assert_eq!(with(SQUARE_TEXT, 5, &format!("{format}EDGE_WEIGHT_TYPE : EUC_2D\n")), 6);
    assert_eq!(with(SQUARE_TEXT, 5, format), 6, "a section without a type");
}

/// A section before what it needs, the other section, a section that does not stand by itself.
#[test]
fn sections_at_fault() {
    assert_eq!(line("NODE_COORD_SECTION\n"), 1);
    assert_eq!(with(SQUARE_TEXT, 4, ""), 5, "no DIMENSION");
    assert_eq!(with(SQUARE_TEXT, 5, ""), 5, "no EDGE_WEIGHT_TYPE");
    assert_eq!(with(SQUARE_TEXT, 6, "EDGE_WEIGHT_SECTION\n"), 6);
    assert_eq!(with(WEIGHTS_TEXT, 4, "NODE_COORD_SECTION\n"), 4);
    assert_eq!(with(WEIGHTS_TEXT, 3, ""), 3, "no EDGE_WEIGHT_FORMAT");
    for bad in ["NODE_COORD_SECTION :", "NODE_COORD_SECTION x", "NODE_COORD_SECTION\t", "node_coord_section"] {
        assert_eq!(with(SQUARE_TEXT, 6, &format!("{bad}\n")), 6, "{bad}");
    }
    assert_eq!(with(SQUARE_TEXT, 7, "NODE_COORD_SECTION\n1 0 0\n"), 7, "a second section");
    assert_eq!(with(SQUARE_TEXT, 7, "COMMENT : x\n1 0 0\n"), 7, "a keyword line after the section");
}

#[test]
fn nodes_at_fault() {
    let bad_lines = [
        "1 10 0",
        "3 10 0",
        "2 10",
        "2 10 0 0",
        "2",
        "2 10 -0",
        "2 1.5 0",
        "2\t10 0",
        "2 10 4294967296",
        "4294967298 10 0",
        "",
        " ",
        "2, 10, 0",
    ];
    for bad in bad_lines {
        assert_eq!(with(SQUARE_TEXT, 8, &format!("{bad}\n")), 8, "{bad}");
    }
    assert_eq!(with(SQUARE_TEXT, 8, "2 4294967295 0\n"), 0);
    assert_eq!(with(SQUARE_TEXT, 11, "5 0 0\nEOF\n"), 11, "a node more");
    assert_eq!(with(SQUARE_TEXT, 10, ""), 10, "EOF too early");
}

#[test]
fn weights_at_fault() {
    assert_eq!(with(WEIGHTS_TEXT, 7, "10 10\n"), 7, "past the count, from within");
    assert_eq!(with(WEIGHTS_TEXT, 7, "10\n10\n"), 8, "past the count");
    assert_eq!(with(WEIGHTS_TEXT, 7, ""), 7, "EOF too early");
    for bad in ["", "  ", "10 14 1O", "10,14,10", "10 14 -10", "10 14 4294967296"] {
        assert_eq!(with(WEIGHTS_TEXT, 5, &format!("{bad}\n")), 5, "{bad}");
    }
}

/// The last line: whole lines alone are judged, and nothing comes behind EOF's newline.
#[test]
fn ends_at_fault() {
    assert_eq!(line(""), 1);
    assert_eq!(line("\n"), 1);
    assert_eq!(line("x"), 1);
    assert_eq!(line("NAME : x\n"), 2);
    assert_eq!(line("NAME : x\nqqq"), 2);
    assert_eq!(line(SQUARE_TEXT.trim_end()), 11, "EOF without its newline");
    for behind in ["\n", " ", "x", "EOF\n", "\n\n\n"] {
        assert_eq!(line(&format!("{SQUARE_TEXT}{behind}")), 12, "{behind}");
    }
    assert_eq!(with(SQUARE_TEXT, 11, "EOF :\n"), 11);
    assert_eq!(with(SQUARE_TEXT, 11, "EOF EOF\n"), 11);
    for end in 0..SQUARE_TEXT.len() {
        let whole = SQUARE_TEXT[..end].matches('\n').count() as u64;
        assert_eq!(line(&SQUARE_TEXT[..end]), whole + 1);
    }
}

/// The lines before the data of a text of n points.
fn coordinates_heading(n: u64) -> String {
    format!("DIMENSION : {n}\nEDGE_WEIGHT_TYPE : ATT\nNODE_COORD_SECTION\n")
}

fn weights_heading(n: u64) -> String {
    WEIGHTS_TEXT.replace(": 4", &format!(": {n}")).split_inclusive('\n').take(4).collect()
}

/// "The language knows no limits but 32 bits": these get 1 where they are complete.
#[test]
fn numbers_of_points() {
    for n in [0, 1, 3, 181] {
        let nodes: String = (1..=n).map(|place| format!("{place} 0 0\n")).collect();
        let weights = "0\n".repeat((n * n.max(1) - n) as usize / 2);
        for body in [coordinates_heading(n) + &nodes, weights_heading(n) + &weights] {
            let text = body + "EOF\n";
            assert_eq!(tsplib_points(text.as_bytes()), Ok(n as u32));
            assert_eq!(read(&text), Err(Refusal::PointCount.into()));
        }
    }
    let most = u64::from(u32::MAX);
    assert_eq!(line(&format!("{}1 0 0\n", coordinates_heading(most))), 5);
    assert_eq!(line(&format!("{}1 0 0\nEOF\n", coordinates_heading(most))), 5);
    assert_eq!(line(&format!("{}1 0 0\n2 0 0", coordinates_heading(most))), 5);
    assert_eq!(line(&format!("{}0 0 0\n0\n", weights_heading(most))), 7);
    assert_eq!(line(&format!("{}0 0 0\nEOF\n", weights_heading(most))), 6);
    assert_eq!(line(&coordinates_heading(most + 1)), 1);
    assert_eq!(line(&coordinates_heading(0)), 4);
}

fn refusal_number(text: &str, table: &mut [u32]) -> (u8, u64) {
    let fault = read_tsplib(text.as_bytes(), table).unwrap_err();
    (fault.refusal.number(), fault.line)
}

/// 19 before 1, 2, 4 and 5, in this order; the table stays.
#[test]
fn the_order_of_refusals() {
    let far = SQUARE_TEXT.replace("10 10", "10 1000001");
    let long = WEIGHTS_TEXT.replace("14\n", "2000001\n");
    for (text, number) in [(far, 4), (long, 5)] {
        let mut table = vec![7; 6];
        assert_eq!(refusal_number(&text, &mut table), (number, 0));
        assert_eq!(refusal_number(&text, &mut table[..5]), (2, 0));
        assert_eq!(refusal_number(&text, &mut [7; 7]), (2, 0));
        assert_eq!(refusal_number(&text, &mut []), (2, 0));
        let lines = text.lines().count() as u64;
        assert_eq!(refusal_number(text.trim_end(), &mut table[..5]), (19, lines));
        assert_eq!(table, [7; 6]);
    }
    let two = weights_heading(2) + "2000001\nEOF\n";
    assert_eq!(refusal_number(&two, &mut [7; 9]), (1, 0));
    assert_eq!(refusal_number(&two.replace("EOF", "EOF x"), &mut [7; 9]), (19, 6));
}

/// The numbers that C is told.
#[test]
fn answers_for_c() {
    let mut table = [9; 24];
    assert_eq!(bytes::read_tsplib(SQUARE_TEXT.as_bytes(), &mut table), 4 * 65_536);
    assert_eq!(bytes::entries(&table), square());
    assert_eq!(bytes::tsplib_points(SQUARE_TEXT.as_bytes()), 4 * 65_536);
    assert_eq!(bytes::read_tsplib(b"NAME :\n", &mut table), 19 + 2 * 256);
    assert_eq!(bytes::tsplib_points(b"NAME :\n"), 19 + 2 * 256);
    for size in [0, 20, 23, 25, 28] {
        let mut table = vec![9; size];
        assert_eq!(bytes::read_tsplib(WEIGHTS_TEXT.as_bytes(), &mut table), 2);
        assert_eq!(table, vec![9; size]);
    }
}

/// A text of the largest board.
#[test]
fn a_large_text() {
    let weights: Vec<u32> = (0..edge_count(180) as u32).collect();
    let row = |row: &[u32]| row.iter().map(|weight| format!(" {weight}")).collect::<String>() + "\n";
    let rows: String = weights.chunks(100).map(row).collect();
    let mut table = vec![0; weights.len()];
    assert_eq!(read_tsplib(format!("{}{rows}EOF\n", weights_heading(180)).as_bytes(), &mut table), Ok(180));
    assert_eq!(table, weights);
}

/// Lines that all short texts are made of.
const LINES: [&str; 17] = [
    "NAME : x",
    "COMMENT : x",
    "TYPE : TSP",
    "DIMENSION : 0",
    "DIMENSION : 1",
    "DIMENSION : 2",
    "EDGE_WEIGHT_TYPE : EUC_2D",
    "EDGE_WEIGHT_TYPE : EXPLICIT",
    "EDGE_WEIGHT_FORMAT : UPPER_ROW",
    "NODE_COORD_SECTION",
    "EDGE_WEIGHT_SECTION",
    "1 0 0",
    "2 0 0",
    "5",
    "5 5",
    "EOF",
    "",
];

/// Each text of fewer than so many of these lines that has a completion, followed by each line: the reader goes past
/// that line exactly if there is a completion again.
fn held(completions: &Completions, text: &str, said: &mut Vec<Line>, most: usize) -> u64 {
    let mut texts = 0;
    for next in LINES {
        let longer = format!("{text}{next}\n");
        said.push(Line::said(None, next.as_bytes()));
        let (told, last) = (line(&longer), said.len() as u64);
        let good = completions.complete(said);
        assert!(told == 0 || told >= last, "{longer}");
        assert_eq!(told != last, good, "{longer}");
        texts += 1;
        if good && said.len() < most {
            texts += held(completions, &longer, said, most);
        }
        said.pop();
    }
    texts
}

#[test]
fn all_short_texts_against_completions() {
    let texts = held(&Completions::default(), "", &mut vec![], 6);
    println!("{texts} texts");
    assert!(texts > 30_000, "{texts}");
}
