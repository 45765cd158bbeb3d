//! Two script programs on one long script: lines a second.

use crate::timing::{median, spread};
use std::io::Write;
use std::process::{Command, Stdio};
use std::thread;
use std::time::Instant;

const REPEATS: usize = 9;
const LINES: usize = 100_000;
const LONG: &str = include_str!("../../../examples/long.script");

/// The long example, again and again.
fn mixed() -> String {
    LONG.repeat(LINES / LONG.lines().count() + 1)
}

/// One meeting after another between parties 0 and 1 of eight.
fn meetings() -> String {
    let mut meeting = String::from("o 0 1!r40970a3d\no 1 0?\n");
    for party in [0, 0, 0, 0, 0, 1, 1, 1, 1, 0] {
        meeting += &format!("s {party}\n");
    }
    meeting += "c 1\nc 0\nm\n";
    let count = LINES / meeting.lines().count() + 1;
    String::from("n 8\n") + &meeting.repeat(count)
}

/// Runs both programs on two long scripts.
pub fn compare(program: &str, model: &str) -> Result<(), String> {
    println!();
    compare_on("the long example", &mixed(), program, model)?;
    compare_on("meetings of two among eight", &meetings(), program, model)
}

/// Runs both in turn, and prints how many lines each takes a second.
fn compare_on(name: &str, script: &str, program: &str, model: &str) -> Result<(), String> {
    let lines = script.lines().count() as f64;
    let (mut proved, mut modelled, mut ratios) = (Vec::new(), Vec::new(), Vec::new());
    for _ in 0..REPEATS {
        let (seconds, output) = run(program, script)?;
        let (of_model, expected) = run(model, script)?;
        if output != expected {
            return Err(format!("{program} and {model} differ on the script."));
        }
        proved.push(lines / seconds);
        modelled.push(lines / of_model);
        ratios.push(of_model / seconds);
    }
    let (least, greatest) = spread(&ratios);
    println!(
        "Script lines a second, {lines} lines of {name}: {:.0}; the model {:.0}: {:.2} ({least:.2} to {greatest:.2}) times as many.",
        median(&proved),
        median(&modelled),
        median(&ratios),
    );
    Ok(())
}

/// Feeds the script to a program, and gives the seconds and what it wrote.
fn run(program: &str, script: &str) -> Result<(f64, Vec<u8>), String> {
    let failed = |error: std::io::Error| format!("{program} cannot be run: {error}.");
    let begun = Instant::now();
    let mut child = Command::new(program)
        .stdin(Stdio::piped())
        .stdout(Stdio::piped())
        .spawn()
        .map_err(failed)?;
    let mut input = child.stdin.take().expect("the input is a pipe");
    let bytes = script.as_bytes().to_vec();
    let feeder = thread::spawn(move || input.write_all(&bytes));
    let output = child.wait_with_output().map_err(failed)?;
    let fed = feeder.join().expect("the feeding thread does not panic");
    fed.map_err(failed)?;
    match output.status.success() {
        true => Ok((begun.elapsed().as_secs_f64(), output.stdout)),
        false => Err(format!("{program} failed.")),
    }
}
