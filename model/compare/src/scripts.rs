//! Scripts, good and spoiled: the program's output against the model's.

use crate::part::{Budget, Finding, Verdict};
use crate::program::{Program, WHOLE};
use crate::random::Random;
use crate::reduce::smallest;
use crate::sorts::{by_kind, by_nap, by_rank, sort, Sleepers, SORTS};
use crate::spoil::{noise, spoil};
use crate::write::script;
use std::borrow::Cow;
use std::collections::BTreeMap;

/// Scripts that one run of the program reads one after the other. Each begins
/// with its own `n` line, or goes on with the table of the one before.
const BATCH: usize = 40;

#[derive(Default)]
struct Sums {
    inputs: u64,
    scripts: u64,
    lines: u64,
    bytes: u64,
    sorts: BTreeMap<String, u64>,
}

impl Sums {
    fn note(&mut self, input: &[u8], output: &[u8]) {
        self.inputs += 1;
        self.bytes += input.len() as u64;
        let mut sleepers = Sleepers::default();
        // Each line of the input has one line of the output.
        for (line, answer) in lines(input).zip(lines(output)) {
            self.lines += 1;
            let shown = [
                by_kind(&line, &answer),
                by_rank(&line, &answer),
                by_nap(&line, &answer),
                sleepers.note(&answer),
            ];
            let shown = shown.into_iter().flatten().map(str::to_string);
            for sort in shown.chain([sort(&answer)]) {
                *self.sorts.entry(sort).or_insert(0) += 1;
            }
        }
    }

    fn missed(&self) -> Vec<&'static str> {
        let missed = SORTS.into_iter();
        missed
            .filter(|&sort| !self.sorts.contains_key(sort))
            .collect()
    }
}

/// The lines of an input or an output, with their ends.
pub fn lines(bytes: &[u8]) -> impl Iterator<Item = Cow<'_, str>> {
    let lines = bytes.split_inclusive(|&byte| byte == b'\n');
    lines.map(String::from_utf8_lossy)
}

pub fn run(program: &Program, budget: Budget) -> Verdict {
    let mut sums = Sums::default();
    for seed in budget.seeds() {
        let mut random = Random::new(seed);
        let mut batch = Vec::new();
        for _ in 0..BATCH {
            batch.extend(one(&mut random));
            sums.scripts += 1;
        }
        same(program, &batch, WHOLE, &mut sums).map_err(|text| Finding::new(seed, text))?;
        // Whole inputs of their own: the first line, and the end of the input.
        for _ in 0..8 {
            let input = alone(&mut random);
            let piece = match random.one_in(8) {
                true => 1 + input.len() / 20 + random.below(30),
                false => WHOLE,
            };
            sums.scripts += 1;
            same(program, &input, piece, &mut sums).map_err(|text| Finding::new(seed, text))?;
        }
    }
    match sums.missed().as_slice() {
        [] => Ok(format!(
            "scripts: {} scripts in {} runs of the program, {} lines, {} bytes, every sort of output line",
            sums.scripts, sums.inputs, sums.lines, sums.bytes
        )),
        missed => Err(Finding::new(budget.seed, format!("never printed: {}", missed.join(", ")))),
    }
}

/// A script of a batch, now and then spoiled; its last line is ended.
fn one(random: &mut Random) -> Vec<u8> {
    let mut script = script(random);
    if random.one_in(3) {
        spoil(random, &mut script);
    }
    if random.one_in(20) {
        script = noise(random);
    }
    if script.last() != Some(&b'\n') {
        script.push(b'\n');
    }
    script
}

/// A script by itself, often spoiled, often with an unended last line.
fn alone(random: &mut Random) -> Vec<u8> {
    let mut script = match random.below(6) {
        0 => noise(random),
        _ => script(random),
    };
    if random.one_in(2) {
        spoil(random, &mut script);
    }
    if random.one_in(3) {
        script.truncate(random.below(script.len() + 1));
    }
    script
}

fn same(program: &Program, input: &[u8], piece: usize, sums: &mut Sums) -> Result<(), String> {
    match program.compared(input, piece) {
        Ok(output) => {
            sums.note(input, &output);
            Ok(())
        }
        Err(text) => Err(told_in(program, input, piece, &text)),
    }
}

/// The complaint about an input that came in such pieces.
pub fn told_in(program: &Program, input: &[u8], piece: usize, text: &str) -> String {
    let text = told(program, input, text);
    match piece {
        WHOLE => text,
        _ => format!("in pieces of {piece} bytes: {text}"),
    }
}

/// The complaint with the shortest input found, first by lines, then by bytes.
pub fn told(program: &Program, input: &[u8], text: &str) -> String {
    let lines: Vec<&[u8]> = input.split_inclusive(|&byte| byte == b'\n').collect();
    let differs = |some: &[u8]| program.compared(some, WHOLE).err();
    if differs(input).is_none() {
        return format!("{text}\n(the same input once more, whole, brings no difference)");
    }
    let fewer = smallest(&lines, |some| differs(&some.concat()).is_some());
    let short = smallest(&fewer.concat(), |some| differs(some).is_some());
    let again = differs(&short).unwrap_or_default();
    let shown: String = short
        .split_inclusive(|&byte| byte == b'\n')
        .map(|line| format!("{}\n", line.escape_ascii()))
        .collect();
    format!("{text}\nthe shortest input found gives: {again}\n{shown}")
}
