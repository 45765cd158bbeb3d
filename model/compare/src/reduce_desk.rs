//! Making a failing pair of desk and call smaller, value by value.

use crate::draw::BYTES;
use crate::reduce::with_zeros;
use model::{Call, Desk, Guard, Message, Party, Place, Ticket};

type Case = (Desk, Call);

/// Numbers up to this one are made smaller one by one too.
const STEPWISE: u64 = 100;

/// Tries simpler values one after the other, and keeps each with which the
/// pair still fails, until none helps.
pub fn reduce(case: Case, fails: impl Fn(&Desk, &Call) -> bool) -> Case {
    let mut smallest = case;
    loop {
        let better = simpler(&smallest)
            .into_iter()
            .find(|case| *case != smallest && fails(&case.0, &case.1));
        match better {
            Some(case) => smallest = case,
            None => return with_zeros(smallest, &BYTES, guards, |case| fails(&case.0, &case.1)),
        }
    }
}

fn simpler(case: &Case) -> Vec<Case> {
    let (desk, call) = case;
    let mut cases = Vec::new();
    for n in 2..desk.n.min(33) {
        let smaller = Desk { n, ..desk.clone() };
        cases.push((smaller, call.clone()));
    }
    cases.extend(shorter_naps(desk).map(|desk| (desk, call.clone())));
    cases.extend(
        smaller_totals(desk)
            .into_iter()
            .map(|desk| (desk, call.clone())),
    );
    for party in 0..desk.parties.len() {
        for record in simpler_records(&desk.parties[party]) {
            let mut changed = desk.clone();
            changed.parties[party] = record;
            cases.push((changed, call.clone()));
        }
    }
    if let Call::Offer { party, guards } = call {
        for at in 0..guards.len() {
            let (party, mut guards) = (*party, guards.clone());
            guards.remove(at);
            cases.push((desk.clone(), Call::Offer { party, guards }));
        }
    }
    cases
}

/// Each with a smaller next ticket or a smaller total.
fn smaller_totals(desk: &Desk) -> Vec<Desk> {
    let mut desks = Vec::new();
    let mut with = |change: &dyn Fn(&mut Desk)| {
        let mut changed = desk.clone();
        change(&mut changed);
        desks.push(changed);
    };
    for meetings in smaller(desk.meetings) {
        with(&|desk| desk.meetings = meetings);
    }
    for withdrawn in smaller(desk.withdrawn) {
        with(&|desk| desk.withdrawn = withdrawn);
    }
    for next in smaller(u64::from(desk.next_ticket.0)) {
        with(&|desk| desk.next_ticket = Ticket(next as u32));
    }
    desks
}

/// Plainer numbers below this one. One less is tried only where few steps lead to 0.
fn smaller(number: u64) -> Vec<u64> {
    let one_less = number.min(STEPWISE).saturating_sub(1);
    let plainer = [0, 1, 2, 1 << 31, 1 << 32, 1 << 63, number / 2, one_less];
    let mut smaller: Vec<u64> = plainer.into_iter().filter(|&less| less < number).collect();
    smaller.dedup();
    smaller
}

/// With a nap of one step, of half the length and of one step less; each also with
/// so many steps less for every sleeper, since the steps left may be what counts.
fn shorter_naps(desk: &Desk) -> impl Iterator<Item = Desk> + '_ {
    let shorter = [1, desk.nap / 2, desk.nap.saturating_sub(1)];
    let shorter = shorter.into_iter().filter(|&nap| 0 < nap && nap < desk.nap);
    shorter.flat_map(|nap| {
        let alone = Desk {
            nap,
            ..desk.clone()
        };
        let mut with_sleepers = alone.clone();
        for record in &mut with_sleepers.parties {
            if let Place::Asleep(steps) = &mut record.place {
                *steps = steps.saturating_sub(desk.nap - nap);
            }
        }
        [with_sleepers, alone]
    })
}

/// Each with something taken away.
fn simpler_records(record: &Party) -> Vec<Party> {
    let fresh = Party::fresh();
    if *record == fresh {
        return Vec::new();
    }
    let mut records = vec![fresh];
    let mut with = |change: &dyn Fn(&mut Party)| {
        let mut changed = record.clone();
        change(&mut changed);
        records.push(changed);
    };
    with(&|party| party.guards.clear());
    with(&|party| party.posted.clear());
    with(&|party| party.guards.truncate(party.guards.len().saturating_sub(1)));
    with(&|party| party.signal = None);
    with(&|party| party.ticket = Ticket(0));
    with(&|party| party.wake_count = 1);
    if let Place::Asleep(steps) = record.place {
        with(&|party| party.place = Place::Asleep(0));
        with(&|party| party.place = Place::Asleep(steps / 2));
        with(&|party| party.place = Place::Asleep(steps.saturating_sub(1)));
    }
    for at in 0..record.guards.len() {
        with(&|party| quiet(&mut party.guards[at]));
    }
    for at in 0..record.posted.len() {
        with(&|party| {
            party.posted.remove(at);
        });
        with(&|party| quiet(&mut party.posted[at]));
    }
    records
}

fn guards((desk, call): &mut Case) -> Vec<&mut Guard> {
    let parties = desk.parties.iter_mut();
    let lists = parties.flat_map(|party| [&mut party.guards, &mut party.posted]);
    let offered = match call {
        Call::Offer { guards, .. } => Some(guards),
        _ => None,
    };
    lists.chain(offered).flatten().collect()
}

fn quiet(guard: &mut Guard) {
    if guard.sends() {
        guard.action = model::Action::Send(Message::Nothing);
    }
}
