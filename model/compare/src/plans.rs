//! Which lists the processes offer, for two and three of them, who may withdraw,
//! and how long a nap is: short lists, each sending guard with a message of its own,
//! and short naps.

use crate::draw;
use crate::random::Random;
use model::{Action, Guard, Message};

/// How many plans of one offer each there are.
pub const PAIRS: usize = 14 * 14;
pub const PAIRS_BY_KIND: usize = 10 * 20 - 6 * 6;
pub const PAIRS_BY_RANK: usize = 2 * 2 * (7 + 6);
pub const PAIRS_WITH_NAPS: usize = 6 * 6;
pub const TRIPLES: usize = 20 * 20 * 20;

/// The lists that a process offers one after the other, and whether it may
/// withdraw one of the offers.
#[derive(Clone)]
pub struct Role {
    pub lists: Vec<Vec<Guard>>,
    pub withdraws: bool,
}

/// The length of a nap, and the role of each process.
#[derive(Clone)]
pub struct Plan {
    pub nap: u8,
    pub roles: Vec<Role>,
}

/// First plans for two processes with naps of two steps. Then, with naps of one step,
/// those of one guard and two where ranks decide, every plan for two of one offer each,
/// of two kinds, and of kind 0, where both may withdraw, and of one guard that each
/// offers twice. Then every plan of one offer each for three, shuffled, some of whom
/// may withdraw, with drawn kinds, ranks and naps, in turn with plans of further
/// offers, which have no end.
pub fn plans(seed: u64) -> impl Iterator<Item = Plan> {
    let mut random = Random::new(seed);
    let two = [
        every_pair_with_naps(),
        every_pair_by_rank(),
        every_pair_by_kind(),
    ]
    .concat();
    let two = two
        .into_iter()
        .chain(every_pair())
        .chain(every_pair_twice());
    let two = two.chain(every_pair_twice_by_kind());
    let mut three = every_triple();
    random.shuffle(&mut three);
    for plan in &mut three {
        plan.nap = draw_nap(&mut random);
        let ranked = random.one_in(2);
        for role in &mut plan.roles {
            role.withdraws = random.one_in(2);
            draw_bytes(&mut random, &mut role.lists[0], ranked);
        }
    }
    let longer = std::iter::from_fn(move || Some(longer_plan(&mut random)));
    two.chain(alternate(three, longer))
}

/// One of each in turn, and the endless ones alone once the others are used up.
fn alternate(
    some: Vec<Plan>,
    mut endless: impl Iterator<Item = Plan>,
) -> impl Iterator<Item = Plan> {
    let mut some = some.into_iter();
    let mut turn = false;
    std::iter::from_fn(move || {
        turn = !turn;
        match turn {
            true => some.next().or_else(|| endless.next()),
            false => endless.next(),
        }
    })
}

fn every_pair() -> Vec<Plan> {
    pairs([0, 1].map(|party| lists(&guards(party, 2, true))), 1)
}

/// With enabled guards of kinds 0 and 1, and not of kind 0 alone. The first guard
/// of process 0 has kind 0: the kinds exchanged, the rest would be the same again.
/// Nobody withdraws, which would bring no further search.
fn every_pair_by_kind() -> Vec<Plan> {
    let both = [0, 1].map(|party| {
        let guards = guards(party, 2, false).into_iter();
        let guards = guards.flat_map(|guard| [0, 1].map(|kind| Guard { kind, ..guard }));
        lists(&guards.collect::<Vec<_>>())
    });
    let mut plans = pairs(both, 1);
    plans.retain(|plan| plan.roles[0].lists[0][0].kind == 0 && has_kinds(plan));
    for role in plans.iter_mut().flat_map(|plan| &mut plan.roles) {
        role.withdraws = false;
    }
    plans
}

fn every_pair_twice() -> Vec<Plan> {
    let one = |party| guards(party, 2, false).into_iter().map(|guard| vec![guard]);
    pairs([0, 1].map(|party| one(party).collect()), 2)
}

/// With guards that match but for their kinds. Process 0 has kind 0 and then 1,
/// process 1 the same or the reverse.
fn every_pair_twice_by_kind() -> Vec<Plan> {
    let mut plans = Vec::new();
    for plan in every_pair_twice() {
        let [one, other] = [0, 1].map(|party| plan.roles[party].lists[0][0].sends());
        if one == other {
            continue;
        }
        for first in [0, 1] {
            let mut plan = plan.clone();
            plan.roles[0].lists[1][0].kind = 1;
            plan.roles[1].lists[first][0].kind = 1;
            plans.push(plan);
        }
    }
    plans
}

/// With naps of two steps: every two lists of enabled guards, and one guard that
/// each offers twice. No sleeper looks at kinds, and a disabled guard only moves a
/// process past it, so that neither would bring another nap.
fn every_pair_with_naps() -> Vec<Plan> {
    let both = [0, 1].map(|party| lists(&guards(party, 2, false)));
    let mut plans = pairs(both, 1);
    plans.extend(every_pair_twice());
    for plan in &mut plans {
        plan.nap = 2;
    }
    plans
}

/// Whether a guard of the plan has another kind than 0.
pub fn has_kinds(plan: &Plan) -> bool {
    let mut guards = plan.roles.iter().flat_map(|role| role.lists.concat());
    guards.any(|guard| guard.kind != 0)
}

/// Whether a guard of the plan has another rank than 0.
pub fn has_ranks(plan: &Plan) -> bool {
    let mut guards = plan.roles.iter().flat_map(|role| role.lists.concat());
    guards.any(|guard| guard.rank != 0)
}

/// With one guard that one process offers and two that the other does, in which rank
/// decides or must not: both of its guards match, and the ranks are 0 and 1 in every
/// way but 0 alone; or one of them matches and another of rank 1 does but for its kind,
/// for being disabled or for what it does, behind it or before it.
pub fn every_pair_by_rank() -> Vec<Plan> {
    let mut plans = Vec::new();
    for (one, sends) in [(0, false), (0, true), (1, false), (1, true)] {
        let (own, answer) = (guard(1 - one, sends, true), guard(one, !sends, true));
        for ranks in 1..8 {
            let of_rank = |guard, bit: u8| Guard {
                rank: ranks >> bit & 1,
                ..guard
            };
            let two = vec![of_rank(answer, 0), of_rank(answer, 1)];
            plans.push(one_and_two(one, of_rank(own, 2), two));
        }
        for nearly in nearly_answers(answer) {
            plans.push(one_and_two(one, own, vec![answer, nearly]));
            plans.push(one_and_two(one, own, vec![nearly, answer]));
        }
    }
    plans
}

/// The guard with rank 1 and with something that keeps it from matching.
fn nearly_answers(answer: Guard) -> [Guard; 3] {
    let answer = Guard { rank: 1, ..answer };
    [
        Guard { kind: 1, ..answer },
        Guard {
            enabled: false,
            ..answer
        },
        Guard {
            rank: 1,
            ..guard(answer.partner, !answer.sends(), true)
        },
    ]
}

/// Process `one` offers this guard and the other these two.
fn one_and_two(one: usize, own: Guard, two: Vec<Guard>) -> Plan {
    let mut roles = vec![offered(one, &[own], 1)];
    roles.insert(1 - one, offered(1 - one, &two, 1));
    Plan { nap: 1, roles }
}

/// Each list of process 0 with each one of process 1, offered so many times.
fn pairs(both: [Vec<Vec<Guard>>; 2], times: usize) -> Vec<Plan> {
    let mut plans = Vec::new();
    for one in &both[0] {
        for other in &both[1] {
            let roles = vec![offered(0, one, times), offered(1, other, times)];
            plans.push(Plan { nap: 1, roles });
        }
    }
    plans
}

fn every_triple() -> Vec<Plan> {
    let all: Vec<_> = (0..3)
        .map(|party| lists(&guards(party, 3, false)))
        .collect();
    let mut plans = Vec::new();
    for one in &all[0] {
        for two in &all[1] {
            for three in &all[2] {
                let roles = [one, two, three].into_iter().enumerate();
                let roles = roles.map(|(party, list)| offered(party, list, 1));
                let roles = roles.collect();
                plans.push(Plan { nap: 1, roles });
            }
        }
    }
    plans
}

/// A list that a process offers so many times, with other messages each time.
fn offered(party: usize, list: &[Guard], times: usize) -> Role {
    let numbered = |offer| {
        let mut list = list.to_vec();
        number(&mut list, party, offer);
        list
    };
    Role {
        lists: (0..times).map(numbered).collect(),
        withdraws: true,
    }
}

/// Two processes, or now and then three, one or two of which offer twice. Of
/// three only that one may withdraw: their graphs are large.
fn longer_plan(random: &mut Random) -> Plan {
    let n = if random.one_in(3) { 3 } else { 2 };
    let twice = random.below(n);
    let both = n == 2 && random.one_in(2);
    let nap = draw_nap(random);
    let ranked = random.one_in(2);
    let roles = (0..n)
        .map(|party| {
            let choices = lists(&guards(party, n, n == 2));
            let count = if both || party == twice { 2 } else { 1 };
            let mut draw = |offer| {
                let mut list = choices[random.below(choices.len())].clone();
                number(&mut list, party, offer);
                draw_bytes(random, &mut list, ranked);
                list
            };
            Role {
                lists: (0..count).map(&mut draw).collect(),
                withdraws: n == 2 || party == twice,
            }
        })
        .collect();
    Plan { nap, roles }
}

/// A nap of one step or, as often, of two or three. Longer ones bring more states
/// within a nap and nothing else.
fn draw_nap(random: &mut Random) -> u8 {
    random.pick(&[1, 1, 2, 3])
}

/// Gives one guard in four kind 1, and all of them ranks or none.
fn draw_bytes(random: &mut Random, list: &mut [Guard], ranked: bool) {
    for guard in list {
        guard.kind = u8::from(random.one_in(4));
        if ranked {
            guard.rank = draw::rank(random);
        }
    }
}

/// Every guard of kind 0 to another process.
fn guards(party: usize, n: usize, with_disabled: bool) -> Vec<Guard> {
    let mut guards = Vec::new();
    for partner in (0..n).filter(|&other| other != party) {
        for sends in [false, true] {
            guards.push(guard(partner, sends, true));
            if with_disabled {
                guards.push(guard(partner, sends, false));
            }
        }
    }
    guards
}

/// Every list of one or two of these guards with an enabled one among them.
fn lists(guards: &[Guard]) -> Vec<Vec<Guard>> {
    let mut lists: Vec<Vec<Guard>> = guards.iter().map(|&guard| vec![guard]).collect();
    for &one in guards {
        lists.extend(guards.iter().map(|&other| vec![one, other]));
    }
    lists.retain(|list| list.iter().any(|guard| guard.enabled));
    lists
}

pub fn guard(partner: usize, sends: bool, enabled: bool) -> Guard {
    Guard {
        enabled,
        partner,
        kind: 0,
        rank: 0,
        action: match sends {
            true => Action::Send(Message::Nothing),
            false => Action::Receive,
        },
    }
}

/// Gives every sending guard of a party's offers a message of its own.
fn number(list: &mut [Guard], party: usize, offer: usize) {
    for (index, guard) in list.iter_mut().enumerate() {
        if guard.sends() {
            let whole = 100 * offer + 10 * party + index + 1;
            guard.action = Action::Send(Message::Whole(whole as i32));
        }
    }
}

#[cfg(test)]
mod tests {
    use super::*;

    #[test]
    fn the_plans_are_all_there() {
        assert_eq!(every_pair().len(), PAIRS);
        assert_eq!(every_pair_by_kind().len(), PAIRS_BY_KIND);
        assert_eq!(every_pair_by_rank().len(), PAIRS_BY_RANK);
        assert!(every_pair_by_rank().iter().all(has_ranks));
        assert_eq!(every_pair_twice().len(), 2 * 2);
        assert_eq!(every_pair_twice_by_kind().len(), 2 * 2);
        assert_eq!(every_pair_with_naps().len(), PAIRS_WITH_NAPS + 2 * 2);
        assert_eq!(every_triple().len(), TRIPLES);
    }
}
