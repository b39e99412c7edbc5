//! Compares Revosti (feature `revosti`), or the naive checker, with the second program.
//!
//! `compare [--sheets N | --texts N | --halls N | --reasons N] [--seed S] [--case K] [--save FOLDER]`; `--texts`
//! compares TSPLIB texts alone, `--halls` halls of eight desks, `--reasons` sheets whose lines are told. The inputs of
//! the program are kept in the folder.

use std::path::PathBuf;
use std::process::exit;
use std::time::Instant;

use second::kit::compare::Comparison;
use second::kit::programs::checker::{Checker, Second};
use second::kit::programs::guarded::Guarded;
use second::kit::programs::naive::Naive;

/// What is compared, and how much of it.
#[derive(Clone, Copy)]
enum Part {
    Sheets(u64),
    Texts(u64),
    Halls(u64),
    Reasons(u64),
}

struct Options {
    part: Part,
    seed: u64,
    case: Option<u64>,
    save: Option<PathBuf>,
}

fn options() -> Options {
    let mut options = Options { part: Part::Sheets(20_000), seed: 1, case: None, save: None };
    let mut words = std::env::args().skip(1);
    while let Some(word) = words.next() {
        let value = words.next().unwrap_or_default();
        match (word.as_str(), value.parse()) {
            ("--sheets", Ok(number)) => options.part = Part::Sheets(number),
            ("--texts", Ok(number)) => options.part = Part::Texts(number),
            ("--halls", Ok(number)) => options.part = Part::Halls(number),
            ("--reasons", Ok(number)) => options.part = Part::Reasons(number),
            ("--seed", Ok(number)) => options.seed = number,
            ("--case", Ok(number)) => options.case = Some(number),
            ("--save", _) if !value.is_empty() => options.save = Some(value.into()),
            _ => {
                eprintln!(
                    "compare [--sheets N | --texts N | --halls N | --reasons N] [--seed S] [--case K] [--save FOLDER]"
                );
                exit(2);
            }
        }
    }
    options
}

#[cfg(feature = "revosti")]
fn other() -> impl Checker {
    second::kit::programs::revosti::Revosti::from_environment()
}

#[cfg(not(feature = "revosti"))]
fn other() -> impl Checker {
    Naive::default()
}

fn main() {
    let options = options();
    let other = Guarded(other());
    let start = Instant::now();
    let naive = Naive::default();
    let mut comparison = Comparison::new(&Second, &other, &naive, options.seed);
    comparison.save = options.save;
    let outcome = match (options.part, options.case) {
        (Part::Sheets(sheets), None) => comparison.run(sheets),
        (Part::Texts(texts), None) => comparison.run_texts(texts),
        (Part::Halls(halls), None) => comparison.run_halls(halls),
        (Part::Reasons(sheets), None) => comparison.run_reasons(sheets),
        (Part::Sheets(_), Some(case)) => comparison.run_case(case),
        (Part::Texts(_), Some(case)) => comparison.texts(case),
        (Part::Halls(_), Some(case)) => comparison.halls_of(case),
        (Part::Reasons(_), Some(case)) => comparison.reasons_of(case),
    };
    if let Err(difference) = outcome {
        println!("{}", difference.0);
        exit(1);
    }
    let (sheets, coverage) = (comparison.sheets, &comparison.coverage);
    let (texts, halls, told) = (coverage.texts.texts, coverage.desks.halls, coverage.reasons.sheets);
    let (name, seed) = (other.name(), options.seed);
    println!(
        "second and {name}: {sheets} sheets, {texts} texts, {halls} halls and {told} sheets told alike, seed {seed}"
    );
    let missing = match options.part {
        Part::Sheets(_) => {
            print!("{coverage}");
            coverage.missing()
        }
        Part::Texts(_) => {
            println!("{}", coverage.texts);
            coverage.missing_texts()
        }
        Part::Halls(_) => {
            print!("{}", coverage.desks);
            coverage.missing_desks()
        }
        Part::Reasons(_) => {
            print!("{}", coverage.reasons);
            coverage.missing_reasons()
        }
    };
    println!("{:.1} s", start.elapsed().as_secs_f64());
    if options.case.is_none() && !missing.is_empty() {
        println!("not met: {}", missing.join(", "));
        exit(1);
    }
}
