//! The command line.

use crate::part::Budget;
use crate::program::Program;
use crate::repository;
use std::path::PathBuf;
use std::time::Duration;

pub const USAGE: &str = "\
compare PART [--seconds N] [--seed S]   one part: scripts, sheet, reached, damaged, totals, nan, interleavings, stress or fuzz
compare fuzz SECONDS                    the same as fuzz --seconds SECONDS
compare all [--seconds N] [--seed S]    every part, N seconds in all
compare long MINUTES                    every part again and again with fresh seeds
compare once < SCRIPT                   one script; a difference ends the process as a crash
  --program PATH   another script program than crates/script_main/out/script_main
  --sheet PATH     another program of the day sheet than crates/sheet_main/out/sheet_main
  --model          the model in the place of the proved library, to try the comparison itself";

#[derive(Clone, Copy, Debug, PartialEq, Eq)]
pub enum Part {
    Scripts,
    Sheet,
    Reached,
    Damaged,
    Totals,
    Nan,
    Interleavings,
    Stress,
    Fuzz,
}

pub const PARTS: [Part; 9] = [
    Part::Scripts,
    Part::Sheet,
    Part::Reached,
    Part::Damaged,
    Part::Totals,
    Part::Nan,
    Part::Interleavings,
    Part::Stress,
    Part::Fuzz,
];

impl Part {
    pub fn name(self) -> &'static str {
        match self {
            Part::Scripts => "scripts",
            Part::Sheet => "sheet",
            Part::Reached => "reached",
            Part::Damaged => "damaged",
            Part::Totals => "totals",
            Part::Nan => "nan",
            Part::Interleavings => "interleavings",
            Part::Stress => "stress",
            Part::Fuzz => "fuzz",
        }
    }

    /// The part's share of the time when all parts run.
    pub fn share(self) -> f64 {
        match self {
            Part::Reached | Part::Interleavings => 0.2,
            Part::Scripts | Part::Damaged => 0.15,
            Part::Sheet | Part::Totals | Part::Stress => 0.08,
            Part::Fuzz => 0.06,
            Part::Nan => 0.0,
        }
    }
}

#[derive(Clone, Copy, Debug, PartialEq, Eq)]
pub enum Task {
    One(Part),
    All,
    Long,
    Once,
}

pub struct Arguments {
    pub task: Task,
    pub budget: Budget,
    /// The repository that the library and the two programs are taken from.
    pub root: PathBuf,
    pub program: Program,
    pub sheet: Program,
    pub both_sides_model: bool,
}

/// Reads the words of the command line; the error is a sentence for the user.
pub fn read(words: &[String]) -> Result<Arguments, String> {
    let (first, rest) = words.split_first().ok_or("A part is missing.")?;
    let task = task(first)?;
    let root = repository::root()?;
    let mut arguments = Arguments {
        task,
        budget: Budget {
            seed: 1,
            time: Duration::from_secs(10),
        },
        program: Program {
            path: root.join("crates/script_main/out/script_main"),
            model: model::script::run,
        },
        sheet: Program {
            path: root.join("crates/sheet_main/out/sheet_main"),
            model: model::sheet::run,
        },
        root,
        both_sides_model: false,
    };
    let mut rest = rest.iter();
    while let Some(word) = rest.next() {
        let mut value = || rest.next().ok_or(format!("{word} needs a value."));
        match word.as_str() {
            "--seconds" => arguments.budget.time = seconds(value()?)?,
            "--seed" => arguments.budget.seed = number(value()?)?,
            "--program" => arguments.program.path = value()?.into(),
            "--sheet" => arguments.sheet.path = value()?.into(),
            "--model" => arguments.both_sides_model = true,
            _ if task == Task::Long => arguments.budget.time = seconds(word)? * 60,
            _ if task == Task::One(Part::Fuzz) => arguments.budget.time = seconds(word)?,
            _ => return Err(format!("{word} is not known.")),
        }
    }
    Ok(arguments)
}

fn task(word: &str) -> Result<Task, String> {
    let part = PARTS.into_iter().find(|part| part.name() == word);
    match (word, part) {
        ("all", _) => Ok(Task::All),
        ("long", _) => Ok(Task::Long),
        ("once", _) => Ok(Task::Once),
        (_, Some(part)) => Ok(Task::One(part)),
        (_, None) => Err(format!("{word} is no part.")),
    }
}

fn seconds(word: &str) -> Result<Duration, String> {
    let number = u32::try_from(number(word)?);
    let number = number.map_err(|_| format!("{word} is too long."))?;
    Ok(Duration::from_secs(u64::from(number)))
}

fn number(word: &str) -> Result<u64, String> {
    word.parse()
        .map_err(|_| format!("{word} is not a whole number."))
}

#[cfg(test)]
mod tests {
    use super::*;

    fn read_line(line: &str) -> Result<Arguments, String> {
        let words: Vec<String> = line.split(' ').map(str::to_string).collect();
        read(&words)
    }

    #[test]
    fn options_are_read() {
        let read = read_line("reached --seconds 3 --seed 9 --model").expect("good words");
        assert_eq!(read.task, Task::One(Part::Reached));
        assert_eq!(read.budget.time, Duration::from_secs(3));
        assert_eq!(read.budget.seed, 9);
        assert!(read.both_sides_model);
    }

    #[test]
    fn each_program_has_its_path() {
        let read = read_line("all --program one --sheet other").expect("good words");
        assert_eq!(read.program.path, PathBuf::from("one"));
        assert_eq!(read.sheet.path, PathBuf::from("other"));
        let read = read_line("sheet").expect("good words");
        assert_eq!(read.task, Task::One(Part::Sheet));
        assert!(read
            .sheet
            .path
            .ends_with("crates/sheet_main/out/sheet_main"));
    }

    #[test]
    fn times_stand_alone_where_they_may() {
        let fuzz = read_line("fuzz 7").expect("good words");
        assert_eq!(fuzz.budget.time, Duration::from_secs(7));
        let long = read_line("long 2").expect("good words");
        assert_eq!(long.budget.time, Duration::from_secs(120));
        assert!(read_line("reached 7").is_err());
    }

    #[test]
    fn what_is_not_known_is_told() {
        for line in ["nothing", "all --seconds", "all --seed x", "all --what"] {
            assert!(read_line(line).is_err(), "{line}");
        }
    }

    #[test]
    fn the_shares_make_up_the_whole() {
        let sum: f64 = PARTS.into_iter().map(Part::share).sum();
        assert!((sum - 1.0).abs() < 1e-9);
    }
}
