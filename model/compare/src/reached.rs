//! Random runs from fresh tables of 2 to 32 processes, call by call.

use crate::draw;
use crate::fit::ByKinds;
use crate::follow::{told, Follow};
use crate::library::{Library, Start};
use crate::naps::{Naps, SHOWN};
use crate::pace::Pace;
use crate::part::{Budget, Finding, Verdict};
use crate::random::Random;
use crate::ranks::{self, Ranks};
use model::{Call, Desk, Given, Place, Withdrawal};
use std::collections::BTreeSet;

/// A desk that has not come to rest after so many rounds is a difference.
const MOST_ROUNDS: usize = 20_000;

/// The nap lengths of one run after the other.
const NAPS: [u8; 7] = [1, 2, draw::LONGEST_NAP, 1, 3, 1, 4];

/// With more processes than these, the longest naps would take most of the time.
const MOST_WITH_LONGEST_NAPS: usize = 8;

#[derive(Default)]
struct Sums {
    runs: u64,
    sizes: BTreeSet<usize>,
    calls: u64,
    refused: u64,
    rendezvous: u64,
    collections: u64,
    withdrawn: u64,
    late: u64,
    rests: u64,
    by_kinds: ByKinds,
    ranks: Ranks,
    naps: Naps,
    /// Naps of processes that made steps within an earlier one.
    further_naps: u64,
}

pub fn run(library: &dyn Library, budget: Budget) -> Verdict {
    let mut sums = Sums::default();
    runs(library, budget, &mut sums)?;
    match sums.missed() {
        Some(text) => Err(Finding::new(budget.seed, text)),
        None => Ok(sums.told()),
    }
}

fn runs(library: &dyn Library, budget: Budget, sums: &mut Sums) -> Result<(), Finding> {
    for seed in budget.seeds() {
        let start = start(seed);
        let mut run = Run {
            library,
            random: Random::new(seed),
            pace: Pace::default(),
            sociable: (seed / 31) % 4 != 0,
            ranked: !seed.is_multiple_of(3),
            calls: Vec::new(),
            slept: BTreeSet::new(),
            sums,
        };
        if let Err(text) = run.all(start) {
            let calls = run.calls;
            return Err(Finding::new(seed, told(library, start, &calls, &text)));
        }
    }
    Ok(())
}

/// One seed after another goes through every number of processes, and through the
/// nap lengths.
fn start(seed: u64) -> Start {
    let n = 2 + (seed % 31) as usize;
    let nap = NAPS[(seed % NAPS.len() as u64) as usize];
    match n > MOST_WITH_LONGEST_NAPS && nap == draw::LONGEST_NAP {
        true => Start { n, nap: 2 },
        false => Start { n, nap },
    }
}

impl Sums {
    fn missed(&self) -> Option<String> {
        let by_kinds = self.by_kinds.missed().map(str::to_string);
        by_kinds
            .or_else(|| self.ranks.missed(&ranks::SHOWN))
            .or_else(|| self.naps.missed(&SHOWN))
            .or_else(|| (self.further_naps == 0).then(|| "nobody slept twice".to_string()))
    }

    fn told(&self) -> String {
        format!(
            "reached tables: {} runs, {} of the 31 numbers of processes, {} calls ({} refused), \
             {} rendezvous, {} collections, {} offers withdrawn, {} too late, {} times at rest; {}; {}; \
             {}, {} naps of such as had napped before",
            self.runs,
            self.sizes.len(),
            self.calls,
            self.refused,
            self.rendezvous,
            self.collections,
            self.withdrawn,
            self.late,
            self.rests,
            self.by_kinds.told(),
            self.ranks.told(),
            self.naps.told(),
            self.further_naps
        )
    }
}

struct Run<'a> {
    library: &'a dyn Library,
    random: Random,
    pace: Pace,
    /// Whether idle parties offer lists with which the desk never runs dry.
    sociable: bool,
    /// Whether guards have other ranks than 0.
    ranked: bool,
    calls: Vec<Call>,
    /// The processes that made steps within a nap.
    slept: BTreeSet<usize>,
    sums: &'a mut Sums,
}

impl Run<'_> {
    /// Some hundred calls in any order, then steps until rest; four times over.
    fn all(&mut self, start: Start) -> Result<(), String> {
        let (n, mut follow) = (start.n, Follow::new(self.library, start)?);
        for _ in 0..4 {
            for _ in 0..30 + 15 * n {
                let mut call = self.lively(&follow);
                if !self.ranked {
                    draw::forget_ranks(&mut call);
                }
                self.call(&mut follow, call)?;
            }
            self.settle(&mut follow)?;
        }
        follow.run_is_whole()?;
        self.sums.runs += 1;
        self.sums.sizes.insert(n);
        self.sums.rendezvous += follow.book.meetings().count() as u64;
        Ok(())
    }

    /// Mostly a call that the party's place asks for, and any call now and then.
    fn lively(&mut self, follow: &Follow) -> Call {
        let (random, n) = (&mut self.random, follow.desk.n);
        if random.one_in(8) {
            return draw::call(random, n);
        }
        let party = self.pace.party(random, &follow.desk);
        match follow.desk.parties[party].place {
            Place::Idle if self.sociable => {
                let guards = draw::sociable_list(random, party, n);
                Call::Offer { party, guards }
            }
            Place::Idle => draw::offer(random, party, n),
            Place::Met(_) if !random.one_in(4) => Call::Collect { party },
            _ if random.one_in(25) => Call::Withdraw { party },
            _ => Call::Step { party },
        }
    }

    fn call(&mut self, follow: &mut Follow, call: Call) -> Result<Option<Given>, String> {
        self.calls.push(call);
        let call = self.calls.last().expect("one was just put there");
        self.sums.by_kinds.note(&follow.desk, call);
        self.sums.ranks.note(&follow.desk, call);
        self.sums.naps.note(&follow.desk, call);
        let answer = follow.call(self.library, call)?;
        self.sums.ranks.note_answer(&follow.desk, call, &answer);
        if let Call::Step { party } = *call {
            self.note_nap(&follow.desk, party);
        }
        self.sums.calls += 1;
        match answer {
            Ok(Given::Outcome(_)) => self.sums.collections += 1,
            Ok(Given::Withdrawal(Withdrawal::Withdrawn)) => self.sums.withdrawn += 1,
            Ok(Given::Withdrawal(Withdrawal::TooLate)) => self.sums.late += 1,
            Err(_) => self.sums.refused += 1,
            Ok(_) => {}
        }
        Ok(answer.ok())
    }

    /// Notes where a process is after a step: at S it has just fallen asleep, or
    /// made a step within its nap.
    fn note_nap(&mut self, desk: &Desk, party: usize) {
        match desk.parties.get(party).map(|record| record.place) {
            Some(Place::Asleep(0)) if self.slept.contains(&party) => self.sums.further_naps += 1,
            Some(Place::Asleep(1..)) => {
                self.slept.insert(party);
            }
            _ => {}
        }
    }

    /// Steps those that can move, in random order, until none can.
    fn settle(&mut self, follow: &mut Follow) -> Result<(), String> {
        for _ in 0..MOST_ROUNDS {
            let Some(Given::Set(set)) = self.call(follow, Call::Movers)? else {
                return Err("a reached table is refused by 7".to_string());
            };
            if set == 0 {
                self.sums.rests += 1;
                self.sums.by_kinds.note_rest(&follow.book.open_offers());
                return Ok(());
            }
            let mut movers: Vec<usize> = (0..32).filter(|p| set >> p & 1 == 1).collect();
            self.random.shuffle(&mut movers);
            for party in movers {
                self.call(follow, Call::Step { party })?;
                if self.random.one_in(2) {
                    self.sleep_through(follow, party)?;
                }
            }
        }
        Err("the table does not come to rest".to_string())
    }

    /// Steps a process until it leaves S, if it sleeps.
    fn sleep_through(&mut self, follow: &mut Follow, party: usize) -> Result<(), String> {
        while matches!(follow.desk.parties[party].place, Place::Asleep(_)) {
            self.call(follow, Call::Step { party })?;
        }
        Ok(())
    }
}

#[cfg(test)]
mod tests {
    use super::*;
    use crate::erring::{Erring, OtherNap, ScansByRank, ERRORS, NAP_ERRORS};
    use crate::erring::{KIND_BLIND, RANK_ERRORS};
    use crate::library::{Modelled, Reply};
    use crate::miscounting::MISCOUNTS;
    use crate::wire::Table;
    use model::Message;
    use std::time::Duration;

    fn one_run(library: &dyn Library, seed: u64) -> Result<Sums, Finding> {
        let time = Duration::ZERO;
        let mut sums = Sums::default();
        runs(library, Budget { seed, time }, &mut sums).map(|()| sums)
    }

    #[test]
    fn the_model_agrees_with_itself() {
        for seed in 31..36 {
            let sums = one_run(&Modelled, seed).map_err(|finding| finding.text);
            assert!(sums.is_ok_and(|sums| sums.rendezvous > 0));
        }
    }

    /// The model, but a collected limit has its halves exchanged.
    struct Exchanged;

    impl Library for Exchanged {
        fn create(&self, n: u8, nap: u8) -> Result<Table, u8> {
            Modelled.create(n, nap)
        }

        fn call(&self, table: &Table, call: &Call) -> Reply {
            let mut reply = Modelled.call(table, call);
            if let Ok(Given::Outcome(outcome)) = &mut reply.answer {
                if let Message::Limit { low, high } = outcome.message {
                    outcome.message = Message::Limit {
                        low: high,
                        high: low,
                    };
                }
            }
            reply
        }
    }

    #[test]
    fn exchanged_halves_are_found_and_told_in_few_lines() {
        let found = (31..62).find_map(|seed| one_run(&Exchanged, seed).err());
        let text = found.expect("a difference").text;
        assert!(text.contains("\nc ") && text.lines().count() < 25, "{text}");
    }

    #[test]
    fn errors_in_withdrawals_are_found_and_told_in_few_lines() {
        for (right, wrong) in ERRORS {
            let library = Erring { right, wrong };
            let found = (31..62).find_map(|seed| one_run(&library, seed).err());
            let text = found.expect("a difference").text;
            assert!(text.contains("\nw ") && text.lines().count() < 25, "{text}");
        }
    }

    #[test]
    fn errors_in_naps_are_found_and_told_in_few_lines() {
        for error in NAP_ERRORS {
            let library = OtherNap(error);
            let found = (31..62).find_map(|seed| one_run(&library, seed).err());
            let text = found.expect("a difference").text;
            assert!(text.contains("\ns ") && text.lines().count() < 25, "{text}");
        }
    }

    #[test]
    fn errors_in_totals_are_found_and_told_in_few_lines() {
        for library in &MISCOUNTS {
            let found = (31..62).find_map(|seed| one_run(library, seed).err());
            let text = found.expect("a difference").text;
            assert!(text.lines().count() < 25, "{text}");
        }
    }

    #[test]
    fn runs_go_through_every_number_with_every_nap() {
        let starts: Vec<Start> = (0..7 * 31).map(start).collect();
        for n in 2..=32 {
            let naps: BTreeSet<u8> = starts
                .iter()
                .filter(|start| start.n == n)
                .map(|start| start.nap)
                .collect();
            assert!(naps.is_superset(&BTreeSet::from([1, 2, 3, 4])));
            assert_eq!(naps.contains(&255), n <= MOST_WITH_LONGEST_NAPS);
        }
    }

    #[test]
    fn searches_that_do_not_look_at_kinds_are_found() {
        let found = (31..62).find_map(|seed| one_run(&KIND_BLIND, seed).err());
        let text = found.expect("a difference").text;
        assert!(text.contains(':') && text.lines().count() < 25, "{text}");
    }

    #[test]
    fn errors_in_ranks_are_found_and_told_in_few_lines() {
        // Those in the top bit want more runs than a test should take.
        let errors = RANK_ERRORS[..5].iter().map(|error| error as &dyn Library);
        for library in errors.chain([&ScansByRank as &dyn Library]) {
            let found = (31..124).find_map(|seed| one_run(library, seed).err());
            let text = found.expect("a difference").text;
            assert!(text.contains("\ns ") && text.lines().count() < 25, "{text}");
        }
    }
}
