//! What every part of the comparison has: a budget of time, the seeds of its
//! runs, and what it says in the end.

use std::time::{Duration, Instant};

/// A difference, told with the seed of the run that found it.
pub struct Finding {
    pub seed: u64,
    pub text: String,
}

impl Finding {
    pub fn new(seed: u64, text: impl Into<String>) -> Finding {
        Finding {
            seed,
            text: text.into(),
        }
    }
}

/// The summary line of a part that found nothing, or what it found.
pub type Verdict = Result<String, Finding>;

#[derive(Clone, Copy)]
pub struct Budget {
    pub seed: u64,
    pub time: Duration,
}

impl Budget {
    /// Seeds for one run after another, at least one, until the time is up.
    /// A run's seed alone repeats it: `--seed` with it begins with that run.
    pub fn seeds(self) -> impl Iterator<Item = u64> {
        let end = self.end();
        let mut next = self.seed;
        std::iter::from_fn(move || {
            if next != self.seed && Instant::now() >= end {
                return None;
            }
            next = next.wrapping_add(1);
            Some(next.wrapping_sub(1))
        })
    }

    pub fn end(self) -> Instant {
        Instant::now() + self.time
    }
}
