//! The proved calls beside Rust of the same checks, in one run.
//!
//! `bench` prints tables; `bench PROGRAM MODEL` also times two script programs;
//! `bench once LOOP CALL N LOAD CALLS` runs one loop and no clock, to be counted
//! from outside.

mod by_value;
mod in_place;
mod plan;
mod proved;
#[path = "../../../crates/exports/rendezvous.rs"]
mod rendezvous;
mod script;
mod through_bytes;
mod timing;

use plan::{Plan, Setting};
use std::process::ExitCode;
use timing::{measure, median, ratios, spread, Times, REPEATS};

fn main() -> ExitCode {
    let words: Vec<String> = std::env::args().skip(1).collect();
    let words: Vec<&str> = words.iter().map(String::as_str).collect();
    match words.as_slice() {
        [] => calls(),
        ["once", which, call, n, load, calls] => {
            let Some(sum) = once(which, call, [n, load, calls]) else {
                eprintln!("usage: bench once proved|by-value|in-place CALL N LOAD CALLS");
                return ExitCode::FAILURE;
            };
            println!("{sum}");
        }
        [program, model] => {
            calls();
            if let Err(sentence) = script::compare(program, model) {
                eprintln!("{sentence}");
                return ExitCode::FAILURE;
            }
        }
        _ => {
            eprintln!("usage: bench [PROGRAM MODEL]");
            return ExitCode::FAILURE;
        }
    }
    ExitCode::SUCCESS
}

fn calls() {
    println!("ns a call, or a meeting of 14 calls: the least of {REPEATS} repeats.");
    println!("The ratio is their median, with the least and the greatest.");
    println!("\nThe other parties wait with empty lists.");
    table(0, &[2, 8, 32]);
    println!("\nThe other parties wait with lists of eight guards.");
    table(8, &[8, 32]);
    println!();
    through_bytes::print(&[2, 8, 32]);
}

/// The calls at each n, and how a step's time grows from the first n to the last.
fn table(load: u8, sizes: &[u8]) {
    println!("   n  call       proved  by value  in place   proved / by value");
    let mut steps = Vec::new();
    for &n in sizes {
        for plan in Plan::ALL {
            let times = measure(plan, Setting { n, load });
            print_row(n, plan, &times);
            if plan == Plan::Step {
                steps.push((n, times));
            }
        }
    }
    if let [first, .., last] = steps.as_slice() {
        print_growth(first, last);
    }
}

fn print_row(n: u8, plan: Plan, times: &Times) {
    let ratios = ratios(&times.proved, &times.by_value);
    let (least, greatest) = spread(&ratios);
    println!(
        "{n:4}  {:8}{:9.0}{:10.0}{:10.0}   {:.2} ({least:.2} to {greatest:.2})",
        plan.name(),
        spread(&times.proved).0,
        spread(&times.by_value).0,
        spread(&times.in_place).0,
        median(&ratios),
    );
}

/// What a step costs more for each further party.
fn print_growth((few, at_few): &(u8, Times), (many, at_many): &(u8, Times)) {
    let parties = f64::from(many - few);
    let each = |one: &[f64], other: &[f64]| (spread(other).0 - spread(one).0) / parties;
    println!(
        "A step takes {:.1} ns more for each party from {few} to {many}; by value {:.1}, in place {:.1}.",
        each(&at_few.proved, &at_many.proved),
        each(&at_few.by_value, &at_many.by_value),
        each(&at_few.in_place, &at_many.in_place),
    );
}

/// One loop with no clock; none if a word is not understood.
fn once(which: &str, call: &str, numbers: [&str; 3]) -> Option<u64> {
    let run = match which {
        "proved" => proved::run,
        "by-value" => by_value::run,
        "in-place" => in_place::run,
        _ => return None,
    };
    let plan = Plan::ALL.into_iter().find(|plan| plan.name() == call)?;
    let [n, load, calls] = numbers;
    let at = Setting {
        n: n.parse().ok().filter(|n| (2..=32).contains(n))?,
        load: load.parse().ok().filter(|&load| load <= 8)?,
    };
    Some(run(plan, at, calls.parse().ok()?))
}
