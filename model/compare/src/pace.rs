//! Who calls next. One party is held back for a while, most often one at T, so
//! that others go through whole rendezvous in between: some faults show only to
//! a party that looked long ago.

use crate::random::Random;
use model::{Desk, Place};

#[derive(Default)]
pub struct Pace {
    held: usize,
    left: usize,
}

impl Pace {
    pub fn party(&mut self, random: &mut Random, desk: &Desk) -> usize {
        if self.left == 0 {
            self.held = to_hold(random, desk);
            self.left = 10 + random.below(30 * desk.n);
        }
        self.left -= 1;
        let party = random.below(desk.n);
        match party == self.held && !random.one_in(20) {
            true => (party + 1) % desk.n,
            false => party,
        }
    }
}

fn to_hold(random: &mut Random, desk: &Desk) -> usize {
    let trying: Vec<usize> = (0..desk.n)
        .filter(|&party| matches!(desk.parties[party].place, Place::Trying(_)))
        .collect();
    match trying.is_empty() || random.one_in(4) {
        true => random.below(desk.n),
        false => random.pick(&trying),
    }
}
