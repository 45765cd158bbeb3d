//! Compares the proved library, the script program and the day sheet's program with the
//! model.
//!
//! The first line of every run names the library that was linked. Each part is a
//! subcommand and prints one summary line; a difference is told with the seed of
//! its run and the smallest case found. The last line is `N passed, M failed`,
//! and the exit status is 0 only if none failed.

mod arguments;
mod balance;
mod counters;
mod crooked;
mod damage;
mod damaged;
mod draw;
mod edges;
#[cfg(test)]
mod erring;
mod fit;
mod follow;
mod fuzz;
mod interleavings;
mod ledger;
mod library;
mod mark;
#[cfg(test)]
mod miscounting;
mod nan;
mod naps;
mod pace;
mod part;
mod plans;
mod posted;
mod program;
mod proved;
mod random;
mod ranks;
mod reached;
mod reduce;
mod reduce_desk;
#[path = "../../../crates/exports/rendezvous.rs"]
mod rendezvous;
mod repository;
mod scripts;
mod seen;
#[cfg(test)]
mod sessions;
mod sheet;
mod sorts;
mod spoil;
mod stress;
mod sum;
mod tally;
mod totals;
mod wire;
mod write;

use arguments::{Arguments, Part, Task, PARTS};
use library::{Library, Modelled};
use part::{Budget, Verdict};
use proved::Proved;
use std::process::ExitCode;
use std::time::{Duration, Instant, SystemTime, UNIX_EPOCH};

/// The time of one round of a long run.
const ROUND: Duration = Duration::from_secs(120);

fn main() -> ExitCode {
    let words: Vec<String> = std::env::args().skip(1).collect();
    let arguments = match arguments::read(&words) {
        Ok(arguments) => arguments,
        Err(sentence) => {
            eprintln!("{sentence}\n{}", arguments::USAGE);
            return ExitCode::from(2);
        }
    };
    let mut counts = Counts::default();
    match repository::library(&arguments.root) {
        Ok(line) => {
            println!("{line}");
            compare(&arguments, &mut counts);
        }
        Err(line) => {
            println!("{line}");
            counts.failed += 1;
        }
    }
    println!("{} passed, {} failed", counts.passed, counts.failed);
    match counts.failed {
        0 => ExitCode::SUCCESS,
        _ => ExitCode::FAILURE,
    }
}

fn compare(arguments: &Arguments, counts: &mut Counts) {
    match arguments.task {
        Task::One(part) => one(arguments, part, arguments.budget, counts),
        Task::All => all(arguments, arguments.budget, counts),
        Task::Long => long(arguments, counts),
        Task::Once => {
            fuzz::once(&arguments.program);
            counts.passed += 1;
        }
    }
}

#[derive(Default)]
struct Counts {
    passed: u64,
    failed: u64,
}

/// Runs one part and says what it gave.
fn one(arguments: &Arguments, part: Part, budget: Budget, counts: &mut Counts) {
    match verdict(arguments, part, budget) {
        Ok(summary) => {
            counts.passed += 1;
            println!("{summary} (seed {})", budget.seed);
        }
        Err(finding) => {
            counts.failed += 1;
            println!("{}: A DIFFERENCE with --seed {}", part.name(), finding.seed);
            println!("{}", finding.text.trim_end());
        }
    }
}

fn verdict(arguments: &Arguments, part: Part, budget: Budget) -> Verdict {
    let library: &dyn Library = match arguments.both_sides_model {
        true => &Modelled,
        false => &Proved,
    };
    let program = &arguments.program;
    match part {
        Part::Scripts => scripts::run(program, budget),
        Part::Sheet => sheet::run(&arguments.sheet, budget),
        Part::Reached => reached::run(library, budget),
        Part::Damaged => damaged::run(library, budget),
        Part::Totals => totals::run(library, budget),
        Part::Nan => nan::run(budget),
        Part::Interleavings => interleavings::run(library, budget),
        Part::Stress => stress::run(library, budget),
        Part::Fuzz => fuzz::run(program, budget),
    }
}

/// Every part with its share of the time.
fn all(arguments: &Arguments, budget: Budget, counts: &mut Counts) {
    for part in PARTS {
        let time = budget.time.mul_f64(part.share());
        one(arguments, part, Budget { time, ..budget }, counts);
    }
}

/// Round after round with fresh seeds, until the time is up or a round has
/// found a difference.
fn long(arguments: &Arguments, counts: &mut Counts) {
    let end = Instant::now() + arguments.budget.time;
    while counts.failed == 0 {
        let left = end.saturating_duration_since(Instant::now());
        if left.is_zero() {
            return;
        }
        let budget = Budget {
            seed: fresh_seed(),
            time: ROUND.min(left),
        };
        all(arguments, budget, counts);
    }
}

fn fresh_seed() -> u64 {
    let now = SystemTime::now().duration_since(UNIX_EPOCH);
    now.map_or(1, |time| time.as_micros() as u64)
}
