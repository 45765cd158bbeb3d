//! A mutator over the bytes of scripts: inputs that were spoiled once are
//! spoiled again, so that strange ones come about step by step.

use crate::part::{Budget, Finding, Verdict};
use crate::program::{Program, WHOLE};
use crate::random::Random;
use crate::scripts::told;
use crate::spoil::{noise, spoil};
use crate::write::script;
use std::io::Read;

/// Inputs that are kept to be spoiled further.
const POOL: usize = 64;
const LONGEST: usize = 20_000;

pub fn run(program: &Program, budget: Budget) -> Verdict {
    let mut random = Random::new(budget.seed);
    let mut pool: Vec<Vec<u8>> = (0..POOL).map(|_| script(&mut random)).collect();
    let mut inputs = 0_u64;
    for _ in budget.seeds() {
        let place = random.below(POOL);
        let mut input = pool[place].clone();
        spoil(&mut random, &mut input);
        if random.one_in(10) {
            let other = random.below(POOL);
            input.extend_from_slice(&pool[other]);
        }
        if let Err(text) = program.compared(&input, WHOLE) {
            return Err(Finding::new(budget.seed, told(program, &input, &text)));
        }
        inputs += 1;
        pool[place] = next(&mut random, input);
    }
    Ok(format!(
        "fuzz: {inputs} mutated scripts, each in a run of its own"
    ))
}

/// Compares the one script on standard input, for a fuzzer that watches this
/// process: a difference ends it as a crash.
pub fn once(program: &Program) {
    let mut input = Vec::new();
    if let Err(error) = std::io::stdin().read_to_end(&mut input) {
        eprintln!("Standard input cannot be read: {error}.");
        return;
    }
    if let Err(text) = program.compared(&input, WHOLE) {
        eprintln!("{text}");
        std::process::abort();
    }
}

/// The input for the next time; now and then a new one, so that not all of
/// them wear down to noise.
fn next(random: &mut Random, input: Vec<u8>) -> Vec<u8> {
    if input.len() > LONGEST || random.one_in(8) {
        return match random.one_in(8) {
            true => noise(random),
            false => script(random),
        };
    }
    input
}
