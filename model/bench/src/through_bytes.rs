//! A step by way of bytes, as a program in another language calls it.

use crate::plan::NAP;
use crate::rendezvous::{self, ANSWER_BYTES, TABLE_BYTES};
use std::hint::black_box;
use std::time::Instant;

const RUNS: usize = 40;
const CALLS: u32 = 100;

/// Prints the time of one step at each n.
pub fn print(sizes: &[u8]) {
    for &n in sizes {
        println!("A step by way of bytes at n = {n}: {:.0} ns.", step(n));
    }
}

/// Nanoseconds of a step on a fresh table, the least of some runs.
fn step(n: u8) -> f64 {
    let (mut table, mut after, mut answer) =
        ([0; TABLE_BYTES], [0; TABLE_BYTES], [0; ANSWER_BYTES]);
    assert!(rendezvous::create(n, NAP, &mut table, &mut answer));
    let mut least = f64::MAX;
    for _ in 0..RUNS {
        let begun = Instant::now();
        for _ in 0..CALLS {
            let written = rendezvous::step(black_box(&table), 1, &mut after, &mut answer);
            assert!(written);
        }
        least = least.min(begun.elapsed().as_nanos() as f64 / f64::from(CALLS));
    }
    least
}
