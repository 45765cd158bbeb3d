//! NaNs, passed as numbers, by way of calls of the compiled code on a table that
//! holds them in a message: a refused offer, steps, a collection. Every bit of
//! their payload comes back. The logic has one NaN, so that no contract can say it.

use crate::draw::NANS;
use crate::part::{Budget, Finding, Verdict};
use crate::random::Random;
use crate::rendezvous::{high_through, low_through, reading_through};

/// Further patterns, drawn at random.
const RANDOM_NANS: usize = 10_000;

pub fn run(budget: Budget) -> Verdict {
    let mut random = Random::new(budget.seed);
    let drawn = (0..RANDOM_NANS).map(|_| random.bits() | 0x7f80_0000);
    let patterns: Vec<u32> = NANS.into_iter().chain(drawn).collect();
    let others = patterns.iter().cycle().skip(1);
    for (&one, &other) in patterns.iter().zip(others) {
        kept(one, other).map_err(|text| Finding::new(budget.seed, text))?;
    }
    Ok(format!(
        "nan: {} patterns of NaNs and infinities, each as a reading and as both halves of a limit through a refused offer, steps and a collection, bit for bit",
        patterns.len()
    ))
}

fn kept(one: u32, other: u32) -> Result<(), String> {
    let (low, high) = (f32::from_bits(one), f32::from_bits(other));
    let given = (
        reading_through(low).to_bits(),
        low_through(low, high).to_bits(),
        high_through(low, high).to_bits(),
    );
    match given == (one, one, other) {
        true => Ok(()),
        false => Err(format!(
            "the reading {one:08x} comes back as {:08x}, the limit {one:08x} {other:08x} as {:08x} {:08x}",
            given.0, given.1, given.2
        )),
    }
}
