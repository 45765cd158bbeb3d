//! Damaged totals around every edge, with 0 to n open offers, through every call.

use crate::balance::{commits, next, shown, SHOWN, THEN_7};
use crate::damaged::told;
use crate::edges::{layout, nexts, shapes, totals, Shape};
use crate::library::{both, Library, Reply};
use crate::part::{Budget, Finding, Verdict};
use crate::random::Random;
use crate::seen::Seen;
use crate::sum;
use crate::wire::{encode, Table};
use model::{Call, Desk, Place, Ticket};
use std::time::Instant;

/// Up to so many processes have every edge, and every process its calls; of a larger desk
/// one edge in `ONE_EDGE_IN` is taken, and some processes.
const FEW: usize = 4;
const ONE_EDGE_IN: usize = 8;

/// Goes through all shapes, and then through them again until the time is up. A seed alone
/// gives the shape and all that is drawn for it.
pub fn run(library: &dyn Library, budget: Budget) -> Verdict {
    let (shapes, end) = (shapes(), budget.end());
    let mut part = Totals {
        library,
        desks: 0,
        calls: 0,
        refused: 0,
        seen: Seen::default(),
    };
    let mut rounds = 0;
    while rounds < shapes.len() as u64 || Instant::now() < end {
        let seed = budget.seed.wrapping_add(rounds);
        let shape = shapes[(seed % shapes.len() as u64) as usize];
        let done = part.shape(shape, &mut Random::new(seed));
        done.map_err(|text| Finding::new(seed, text))?;
        rounds += 1;
    }
    print!("{}", part.seen.listed(&SHOWN));
    match part.seen.missed(&SHOWN) {
        Some(text) => Err(Finding::new(budget.seed, text)),
        None => Ok(part.told()),
    }
}

struct Totals<'a> {
    library: &'a dyn Library,
    desks: u64,
    calls: u64,
    /// The calls that 7 refused.
    refused: u64,
    seen: Seen,
}

impl Totals<'_> {
    fn told(&self) -> String {
        let (desks, calls, refused) = (self.desks, self.calls, self.refused);
        format!("totals: {desks} tables with 0 to n open offers, {calls} calls, {refused} of them refused by 7, every edge of the sum seen")
    }

    /// Every edge for desks of one shape, each with a layout of its own.
    fn shape(&mut self, shape: Shape, random: &mut Random) -> Result<(), String> {
        for next in nexts(shape.open) {
            for (meetings, withdrawn) in totals(next, shape.open) {
                if shape.n > FEW && !random.one_in(ONE_EDGE_IN) {
                    continue;
                }
                let desk = Desk {
                    next_ticket: Ticket(next),
                    meetings,
                    withdrawn,
                    ..layout(random, shape)
                };
                self.every_call(random, &desk)?;
            }
        }
        Ok(())
    }

    fn every_call(&mut self, random: &mut Random, desk: &Desk) -> Result<(), String> {
        self.desks += 1;
        let table = encode(desk);
        self.call(&table, desk, &Call::Movers)?;
        for party in callers(random, desk) {
            let guards = desk.parties[party].guards.clone();
            self.call(&table, desk, &Call::Offer { party, guards })?;
            self.call(&table, desk, &Call::Step { party })?;
            self.call(&table, desk, &Call::Collect { party })?;
            self.call(&table, desk, &Call::Withdraw { party })?;
        }
        Ok(())
    }

    /// One call, and where it changed something one more, which looks at the form alone.
    fn call(&mut self, table: &Table, desk: &Desk, call: &Call) -> Result<(), String> {
        let mut after = desk.clone();
        let reply = self.one(table, &mut after, call)?;
        self.seen.note(shown(desk, call, &reply.answer, &after));
        if reply.table != *table {
            let over = commits(&reply.answer) && sum::of_desk(&after) > next(&after);
            let then = self.one(&reply.table, &mut after, &Call::Movers)?;
            self.seen
                .note((over && then.answer == Err(7)).then_some(THEN_7));
        }
        Ok(())
    }

    /// A call on both sides. These desks are in form but for their sum, so that it alone
    /// decides about 7, here once more beside the model.
    fn one(&mut self, table: &Table, desk: &mut Desk, call: &Call) -> Result<Reply, String> {
        let above = sum::of_desk(desk) > next(desk);
        let told = |text: &str| told(self.library, table, call, text);
        let reply = both(self.library, table, desk, call).map_err(|text| told(&text))?;
        self.calls += 1;
        self.refused += u64::from(above);
        match (reply.answer == Err(7)) == above {
            true => Ok(reply),
            false => Err(told("7 is not given by the sum")),
        }
    }
}

/// Who calls: everyone of few on a desk in form; else some process, and in form also one
/// that may commit and one that may absorb.
fn callers(random: &mut Random, desk: &Desk) -> Vec<usize> {
    let some = random.below(desk.n);
    if sum::of_desk(desk) > next(desk) {
        return vec![some];
    }
    if desk.n <= FEW {
        return (0..desk.n).collect();
    }
    let places = || desk.parties[..desk.n].iter().map(|record| record.place);
    let trying = places().position(|place| matches!(place, Place::Trying(_)));
    let waiting = places().position(|place| place == Place::Waiting);
    [Some(some), trying, waiting]
        .into_iter()
        .flatten()
        .collect()
}

#[cfg(test)]
mod tests {
    use super::*;
    use crate::library::Modelled;
    use crate::miscounting::{MISCOUNTS, OTHER_SUMS};
    use std::time::Duration;

    const ONCE: Budget = Budget {
        seed: 1,
        time: Duration::ZERO,
    };

    #[test]
    fn the_model_agrees_with_itself_and_all_is_seen() {
        let found = run(&Modelled, ONCE).err();
        assert!(found.is_none_or(|finding| panic!("{}", finding.text)));
    }

    #[test]
    fn other_sums_and_miscounts_are_found_and_told_by_one_call() {
        let other_sums = OTHER_SUMS.iter().map(|library| library as &dyn Library);
        let miscounts = MISCOUNTS.iter().map(|library| library as &dyn Library);
        for library in other_sums.chain(miscounts) {
            let text = run(library, ONCE).expect_err("a difference").text;
            assert!(text.contains("\ncall: "), "{text}");
        }
    }
}
