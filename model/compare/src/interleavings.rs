//! Every order of calls, for two and three processes with short lists, most of
//! whom may withdraw one offer at any moment: the library is driven along each
//! edge of the whole graph of states.

use crate::fit::ByKinds;
use crate::follow::{told, Follow};
use crate::library::{Library, Start};
use crate::naps::{Naps, SHOWN_BY_TWO};
use crate::part::{Budget, Finding, Verdict};
use crate::plans::{has_kinds, has_ranks, plans, Plan};
use crate::plans::{PAIRS, PAIRS_BY_KIND, PAIRS_BY_RANK, PAIRS_WITH_NAPS, TRIPLES};
use crate::ranks::{self, Ranks};
use crate::wire::put_message;
use model::{Call, Given, Withdrawal};
use std::collections::HashSet;
use std::time::Instant;

#[derive(Default)]
struct Sums {
    /// The plans that were explored whole, by their sort.
    pairs: u64,
    pairs_by_kind: u64,
    pairs_by_rank: u64,
    pairs_with_naps: u64,
    triples: u64,
    longer: u64,
    states: u64,
    calls: u64,
    commits: u64,
    withdrawn: u64,
    late: u64,
    rests: u64,
    by_kinds: ByKinds,
    ranks: Ranks,
    naps: Naps,
}

pub fn run(library: &dyn Library, budget: Budget) -> Verdict {
    let end = budget.end();
    let mut sums = Sums::default();
    for plan in plans(budget.seed) {
        if sums.plans() > 0 && Instant::now() >= end {
            break;
        }
        explore(library, &plan, end, &mut sums).map_err(|text| Finding::new(budget.seed, text))?;
    }
    match sums.missed() {
        Some(text) => Err(Finding::new(budget.seed, text)),
        None => Ok(sums.told()),
    }
}

impl Sums {
    fn told(&self) -> String {
        format!(
            "interleavings: every order of {} of {PAIRS} plans for two processes with a withdrawal each, \
             {} of {PAIRS_BY_KIND} with two kinds and no withdrawal, {} of {PAIRS_BY_RANK} with two ranks, \
             {} of {PAIRS_WITH_NAPS} with naps of two steps, \
             {} of {TRIPLES} for three and {} with second offers; \
             {} states, {} calls, {} commits, {} withdrawals, {} too late, {} states at rest; {}; {}; {}",
            self.pairs,
            self.pairs_by_kind,
            self.pairs_by_rank,
            self.pairs_with_naps,
            self.triples,
            self.longer,
            self.states,
            self.calls,
            self.commits,
            self.withdrawn,
            self.late,
            self.rests,
            self.by_kinds.told(),
            self.ranks.told(),
            self.naps.told()
        )
    }

    /// What kinds never decided and what was never seen of ranks and naps, though all
    /// plans that bring it were explored.
    fn missed(&self) -> Option<String> {
        let explored = |plans: u64, all: usize| (plans == all as u64).then_some(());
        let by_kinds = explored(self.pairs_by_kind, PAIRS_BY_KIND)
            .and_then(|()| self.by_kinds.missed().map(str::to_string));
        let by_ranks = explored(self.pairs_by_rank, PAIRS_BY_RANK)
            .and_then(|()| self.ranks.missed(&ranks::SHOWN_BY_TWO));
        let of_naps = explored(self.pairs_with_naps, PAIRS_WITH_NAPS)
            .and_then(|()| self.naps.missed(&SHOWN_BY_TWO));
        by_kinds.or(by_ranks).or(of_naps)
    }

    fn plans(&self) -> u64 {
        let two = self.pairs + self.pairs_by_kind + self.pairs_by_rank + self.pairs_with_naps;
        two + self.triples + self.longer
    }

    fn note(&mut self, plan: &Plan) {
        let once = plan.roles.iter().all(|role| role.lists.len() == 1);
        match (once, plan.roles.len()) {
            (true, 2) if has_ranks(plan) => self.pairs_by_rank += 1,
            (true, 2) if has_kinds(plan) => self.pairs_by_kind += 1,
            (true, 2) if plan.nap > 1 => self.pairs_with_naps += 1,
            (true, 2) => self.pairs += 1,
            (true, _) => self.triples += 1,
            (false, _) => self.longer += 1,
        }
    }
}

/// A state of the graph, with the call that led there from an earlier one.
struct State {
    follow: Follow,
    offers_made: Vec<usize>,
    may_withdraw: Vec<bool>,
    path: usize,
}

/// The calls that led to each state, as a tree.
type Paths = Vec<Option<(usize, Call)>>;

/// Goes through every state that the calls of a plan lead to. A plan that is not
/// explored whole when the time is up is not counted; the first one always is.
fn explore(
    library: &dyn Library,
    plan: &Plan,
    end: Instant,
    sums: &mut Sums,
) -> Result<(), String> {
    let (n, nap) = (plan.roles.len(), plan.nap);
    let start = Start { n, nap };
    let first = State {
        follow: Follow::new(library, start)?,
        offers_made: vec![0; n],
        may_withdraw: plan.roles.iter().map(|role| role.withdraws).collect(),
        path: 0,
    };
    let mut paths: Paths = vec![None];
    let mut seen = HashSet::from([key(&first, n)]);
    let mut to_do = vec![first];
    while let Some(state) = to_do.pop() {
        sums.states += 1;
        for call in calls(plan, &state) {
            let next = edge(library, &state, &call, sums).map_err(|text| {
                let calls = path_to(&paths, state.path, call.clone());
                told(library, start, &calls, &text)
            })?;
            let Some(mut next) = next else { continue };
            if seen.insert(key(&next, n)) {
                paths.push(Some((state.path, call)));
                next.path = paths.len() - 1;
                to_do.push(next);
            }
        }
        if Instant::now() >= end && sums.plans() > 0 {
            return Ok(());
        }
    }
    sums.note(plan);
    Ok(())
}

/// Every call that this state allows, refused ones too.
fn calls(plan: &Plan, state: &State) -> Vec<Call> {
    let mut calls = vec![Call::Movers];
    for (party, role) in plan.roles.iter().enumerate() {
        calls.push(Call::Step { party });
        calls.push(Call::Collect { party });
        if state.may_withdraw[party] {
            calls.push(Call::Withdraw { party });
        }
        if let Some(guards) = role.lists.get(state.offers_made[party]) {
            let guards = guards.clone();
            calls.push(Call::Offer { party, guards });
        }
    }
    calls
}

/// The state after a call, if it changed anything.
fn edge(
    library: &dyn Library,
    state: &State,
    call: &Call,
    sums: &mut Sums,
) -> Result<Option<State>, String> {
    let mut next = State {
        follow: state.follow.clone(),
        offers_made: state.offers_made.clone(),
        may_withdraw: state.may_withdraw.clone(),
        path: state.path,
    };
    sums.by_kinds.note(&state.follow.desk, call);
    sums.ranks.note(&state.follow.desk, call);
    sums.naps.note(&state.follow.desk, call);
    let answer = next.follow.call(library, call)?;
    sums.ranks.note_answer(&next.follow.desk, call, &answer);
    sums.calls += 1;
    match (answer, call) {
        (Ok(Given::Ticket(_)), Call::Offer { party, .. }) => next.offers_made[*party] += 1,
        (Ok(Given::Place(Some(place))), _) if place.letter == 'C' => sums.commits += 1,
        (Ok(Given::Withdrawal(Withdrawal::Withdrawn)), Call::Withdraw { party }) => {
            next.may_withdraw[*party] = false;
            sums.withdrawn += 1;
        }
        (Ok(Given::Withdrawal(Withdrawal::TooLate)), _) => sums.late += 1,
        (Ok(Given::Set(0)), _) => {
            sums.rests += 1;
            sums.by_kinds.note_rest(&next.follow.book.open_offers());
        }
        _ => {}
    }
    Ok((next.follow.table != state.follow.table).then_some(next))
}

fn path_to(paths: &Paths, mut at: usize, last: Call) -> Vec<Call> {
    let mut calls = vec![last];
    while let Some((before, call)) = &paths[at] {
        calls.push(call.clone());
        at = *before;
    }
    calls.reverse();
    calls
}

/// All that tells two states apart: the table, the book, the offers made and who
/// may still withdraw. The open offers of table and book agree, so the book adds
/// only what is due and the tickets that have ended.
fn key(state: &State, n: usize) -> Vec<u8> {
    let mut key = state.follow.table.part(n).to_vec();
    key.extend(state.offers_made.iter().map(|&count| count as u8));
    key.extend(state.may_withdraw.iter().map(|&may| u8::from(may)));
    for ticket in &state.follow.ended {
        key.extend(ticket.0.to_le_bytes());
    }
    for party in 0..n {
        if let Some(due) = state.follow.book.due(party) {
            key.extend([party as u8, due.index as u8, due.partner as u8]);
            put_message(&mut key, due.message);
        }
    }
    key
}

#[cfg(test)]
mod tests {
    use super::*;
    use crate::erring::{Erring, OtherNap, ScansByRank, ERRORS, NAP_ERRORS, RANK_ERRORS};
    use crate::library::Modelled;
    use crate::plans::{every_pair_by_rank, guard, Role};
    use model::Guard;
    use std::time::Duration;

    fn explored(plan: &Plan) -> Sums {
        let mut sums = Sums::default();
        let end = Instant::now() + Duration::from_secs(600);
        let found = explore(&Modelled, plan, end, &mut sums);
        assert_eq!(found, Ok(()));
        sums
    }

    /// Process 0 sends; process 1 sends or receives. Naps have one step.
    fn two(other_sends: bool) -> Plan {
        let role = |guard| Role {
            lists: vec![vec![guard]],
            withdraws: true,
        };
        let roles = vec![
            role(guard(1, true, true)),
            role(guard(0, other_sends, true)),
        ];
        Plan { nap: 1, roles }
    }

    fn with_naps(nap: u8) -> Plan {
        Plan { nap, ..two(false) }
    }

    #[test]
    fn two_that_match_meet_in_some_orders() {
        let sums = explored(&two(false));
        assert!(sums.pairs == 1 && sums.commits > 0 && sums.rests > 0);
        assert!(sums.withdrawn > 0 && sums.late > 0);
    }

    #[test]
    fn two_that_do_not_match_never_meet() {
        let sums = explored(&two(true));
        assert!(sums.pairs == 1 && sums.commits == 0 && sums.rests > 0);
        assert!(sums.withdrawn > 0 && sums.late == 0);
    }

    #[test]
    fn kinds_alone_decide_in_every_way() {
        let mut sums = Sums::default();
        let end = Instant::now() + Duration::from_secs(600);
        for kinds in [&[1, 0][..], &[1]] {
            let mut plan = two(false);
            let receiving = plan.roles[1].lists[0][0];
            let of_kind = |&kind: &u8| Guard { kind, ..receiving };
            plan.roles[1].lists = vec![kinds.iter().map(of_kind).collect()];
            assert_eq!(explore(&Modelled, &plan, end, &mut sums), Ok(()));
        }
        assert_eq!(sums.by_kinds.missed(), None);
    }

    #[test]
    fn naps_of_two_steps_bring_all_that_is_wanted_of_them() {
        let sums = explored(&with_naps(2));
        assert_eq!(sums.pairs_with_naps, 1);
        assert_eq!(sums.naps.missed(&SHOWN_BY_TWO), None);
        let states = |nap| explored(&with_naps(nap)).states;
        assert!(states(1) < states(2) && states(2) < states(3));
    }

    /// Finds what a library does wrong where ranks 0 and 1 decide: in the plans where
    /// process 0 has one guard, which receives.
    fn found_by_rank(library: &dyn Library, sums: &mut Sums) -> Option<String> {
        let end = Instant::now() + Duration::from_secs(600);
        let mut plans = every_pair_by_rank().into_iter().take(PAIRS_BY_RANK / 4);
        plans.find_map(|plan| explore(library, &plan, end, sums).err())
    }

    #[test]
    fn ranks_decide_in_every_way_for_two() {
        let mut sums = Sums::default();
        assert_eq!(found_by_rank(&Modelled, &mut sums), None);
        assert_eq!(sums.pairs_by_rank, PAIRS_BY_RANK as u64 / 4);
        assert_eq!(sums.ranks.missed(&ranks::SHOWN_BY_TWO), None);
    }

    #[test]
    fn errors_in_ranks_are_found() {
        // With ranks 0 and 1 the top bit shows nowhere: the last two do not err.
        let errors = RANK_ERRORS[..5].iter().map(|error| error as &dyn Library);
        for library in errors.chain([&ScansByRank as &dyn Library]) {
            let found = found_by_rank(library, &mut Sums::default());
            assert!(found.is_some_and(|text| text.contains("\ns ")));
        }
    }

    #[test]
    fn errors_in_naps_are_found() {
        let end = Instant::now() + Duration::from_secs(600);
        for error in NAP_ERRORS {
            let library = OtherNap(error);
            let found = explore(&library, &with_naps(2), end, &mut Sums::default());
            assert!(found.is_err_and(|text| text.contains("\ns ")));
        }
    }

    #[test]
    fn errors_in_withdrawals_are_found() {
        let end = Instant::now() + Duration::from_secs(600);
        for (right, wrong) in ERRORS {
            let library = Erring { right, wrong };
            let found = explore(&library, &two(false), end, &mut Sums::default());
            assert!(found.is_err_and(|text| text.contains("\nw ")), "{wrong:?}");
        }
    }
}
