//! Times three loops in turn, repeat by repeat.

use crate::plan::{Plan, Setting};
use crate::{by_value, in_place, proved};
use std::hint::black_box;
use std::time::Instant;

/// An odd number, so that one of the repeats is the median.
pub const REPEATS: usize = 11;
/// A repeat's figure is the least of so many runs of each loop.
const RUNS: usize = 40;
/// A run's calls: 30 meetings, some 0.1 ms.
const CALLS: u64 = 420;

type Loop = fn(Plan, Setting, u64) -> u64;
const LOOPS: [Loop; 3] = [proved::run, by_value::run, in_place::run];

/// Nanoseconds for one call, or one meeting, in each repeat.
pub struct Times {
    pub proved: [f64; REPEATS],
    pub by_value: [f64; REPEATS],
    pub in_place: [f64; REPEATS],
}

/// Every repeat stands elsewhere on the stack. The time of a copy depends on
/// the addresses, by their low bits and by their physical pages, and one loop
/// can be unlucky at a place where another is not.
pub fn measure(plan: Plan, at: Setting) -> Times {
    let mut best = [[f64::MAX; REPEATS]; 3];
    for repeat in 0..REPEATS {
        deeper(repeat, &mut || {
            for _ in 0..RUNS {
                for (each, times) in LOOPS.iter().zip(&mut best) {
                    times[repeat] = times[repeat].min(run_once(*each, plan, at));
                }
            }
        });
    }
    let [proved, by_value, in_place] = best;
    Times {
        proved,
        by_value,
        in_place,
    }
}

/// The time of one run. A loop that does not do the plan's work has another sum.
fn run_once(each: Loop, plan: Plan, at: Setting) -> f64 {
    let calls = black_box(CALLS);
    let begun = Instant::now();
    let sum = black_box(each(plan, at, calls));
    let nanoseconds = begun.elapsed().as_nanos() as f64;
    assert_eq!(sum, proved::run(plan, at, calls), "the loops differ");
    nanoseconds * plan.calls() as f64 / CALLS as f64
}

/// Works five pages and 464 bytes further down the stack for each level.
#[inline(never)]
fn deeper(levels: usize, work: &mut dyn FnMut()) {
    let pad = [0u8; 5 * 4096 + 464];
    black_box(&pad);
    match levels {
        0 => work(),
        _ => deeper(levels - 1, work),
    }
    black_box(&pad);
}

pub fn median(times: &[f64]) -> f64 {
    let mut sorted = times.to_vec();
    sorted.sort_by(f64::total_cmp);
    sorted[sorted.len() / 2]
}

/// The ratios of two loops, repeat by repeat.
pub fn ratios(times: &[f64; REPEATS], others: &[f64; REPEATS]) -> [f64; REPEATS] {
    std::array::from_fn(|repeat| times[repeat] / others[repeat])
}

/// The least and the greatest.
pub fn spread(times: &[f64]) -> (f64, f64) {
    let least = times.iter().copied().fold(f64::MAX, f64::min);
    let greatest = times.iter().copied().fold(f64::MIN, f64::max);
    (least, greatest)
}
