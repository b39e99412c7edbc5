//! Times the second program and Revosti (feature `revosti`) on the same inputs in the same run.
//!
//! `bench [--runs N]` prints a table; `bench --once SIDE NAME` makes one call of one side, for
//! instruction counts; `bench --names` prints the names of the inputs that are counted so.

use std::hint::black_box;
use std::process::exit;
use std::time::Instant;

use second::kit::generate::workloads::{counted, named, names, Call, Workload};
use second::kit::programs::checker::{Checker, Second};

#[cfg(feature = "revosti")]
fn sides() -> Vec<Box<dyn Checker>> {
    vec![Box::new(Second), Box::new(second::kit::programs::revosti::Revosti { mark: "".into() })]
}

#[cfg(not(feature = "revosti"))]
fn sides() -> Vec<Box<dyn Checker>> {
    vec![Box::new(Second)]
}

/// Microseconds: the median and the quarters beside it.
struct Times {
    low: f64,
    median: f64,
    high: f64,
}

impl Times {
    fn of(mut samples: Vec<f64>) -> Times {
        samples.sort_by(f64::total_cmp);
        let at = |part: usize| samples[(samples.len() - 1) * part / 4];
        Times { low: at(1), median: at(2), high: at(3) }
    }
}

/// One timed call after one that is not; the buffers are set anew before each.
fn sample(call: &Call, side: &dyn Checker) -> (u64, f64) {
    black_box(call.run(side, &mut call.buffers()));
    let mut buffers = call.buffers();
    let start = Instant::now();
    let answer = black_box(call.run(side, &mut buffers));
    (answer, start.elapsed().as_secs_f64() * 1e6)
}

/// Runs the calls, which have one answer, on the sides in turn: the answer, and for each call the times of the sides.
fn times(name: &str, calls: &[&Call], sides: &[Box<dyn Checker>], runs: usize) -> (u64, Vec<Vec<Times>>) {
    let mut samples = vec![vec![Vec::with_capacity(runs); sides.len()]; calls.len()];
    let mut answers = Vec::new();
    for _ in 0..runs {
        answers.clear();
        for (call, samples) in calls.iter().zip(&mut samples) {
            for (side, times) in sides.iter().zip(samples) {
                let (answer, time) = sample(call, &**side);
                times.push(time);
                answers.push(answer);
            }
        }
        assert!(answers.iter().all(|&answer| answer == answers[0]), "{name}: {answers:?}");
    }
    (answers[0], samples.into_iter().map(|sides| sides.into_iter().map(Times::of).collect()).collect())
}

/// What a sheet by turns takes more than at once, a turn. A sheet with all lines accepted has as many turns as lines.
fn print_turns(answer: u64, by_turns: &[Times], at_once: &[Times]) {
    let turns = answer >> 24;
    let medians: Vec<String> = at_once.iter().map(|time| format!("{:.1}", time.median)).collect();
    let more = by_turns.iter().zip(at_once).map(|(turned, once)| (turned.median - once.median) / turns as f64);
    let more: Vec<String> = more.map(|time| format!("{time:.1}")).collect();
    print!("   at once {}; {turns} turns, {} more each", medians.join(" and "), more.join(" and "));
}

/// Prints the times of the sides and the ratio.
fn race(workload: &Workload, sides: &[Box<dyn Checker>], runs: usize) {
    let at_once = workload.call.at_once();
    let calls: Vec<&Call> = [Some(&workload.call), at_once.as_ref()].into_iter().flatten().collect();
    let (answer, all) = times(&workload.name, &calls, sides, runs);
    let times = &all[0];
    print!("{:<20}", workload.name);
    for time in times {
        print!("{:>10.1} ({:.1} to {:.1})", time.median, time.low, time.high);
    }
    if let [second, revosti] = &times[..] {
        print!(
            "   ratio {:.2} ({:.2} to {:.2})",
            revosti.median / second.median,
            revosti.low / second.high,
            revosti.high / second.low
        );
    }
    if let Some(size) = workload.call.text_size(answer) {
        let speeds: Vec<String> = times.iter().map(|time| format!("{:.0}", size as f64 / time.median)).collect();
        print!("   {} MB a second", speeds.join(" and "));
    }
    if let Some(at_once) = all.get(1) {
        print_turns(answer, times, at_once);
    }
    println!("   {}", workload.note);
}

fn once(side: &str, name: &str) {
    let sides = sides();
    let side = sides.iter().find(|s| s.name() == side).unwrap_or_else(|| fail("no such side"));
    let workload = named(name).unwrap_or_else(|| fail("no such input"));
    println!("{} {name}: answer {}", side.name(), workload.call.run(&**side, &mut workload.call.buffers()));
}

fn fail<T>(what: &str) -> T {
    eprintln!("{what}\nbench [--runs N] | --once SIDE NAME | --names");
    exit(2)
}

fn main() {
    let words: Vec<String> = std::env::args().skip(1).collect();
    let words: Vec<&str> = words.iter().map(String::as_str).collect();
    let runs = match words[..] {
        [] => 301,
        ["--runs", runs] => runs.parse().unwrap_or_else(|_| fail("no number")),
        ["--once", side, name] => return once(side, name),
        ["--names"] => return counted().iter().for_each(|name| println!("{name}")),
        _ => fail("unknown words"),
    };
    let sides = sides();
    let sides_named: Vec<&str> = sides.iter().map(|side| side.name()).collect();
    println!("{runs} runs, sides in turn: {}. Microseconds a run, median (quarters);", sides_named.join(", "));
    println!("marks, list, table and text are set anew before each run, outside the clock;");
    println!("each timed run follows one that is not.");
    for name in names() {
        race(&named(&name).expect("every row has its input"), &sides, runs);
    }
}
