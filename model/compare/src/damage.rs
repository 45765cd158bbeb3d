//! Desks that no run of calls makes: in form but odd, out of form in one point,
//! or wild.

use crate::counters;
use crate::draw::{self, list, message, rank_of, BYTES, NAN_IN};
use crate::library::Start;
use crate::posted::{answer_some, commit_some, with_others};
use crate::random::Random;
use crate::rendezvous::PROCESSES;
use crate::wire::BLANK;
use model::{Call, Desk, Guard, IndexedMessage, Party, Place, Ticket};

/// Each point by which a desk can be out of form, one for each clause of
/// refusal 7.
#[derive(Clone, Copy, Debug, PartialEq, Eq, PartialOrd, Ord)]
pub enum Point {
    PartyCount,
    OwnCount,
    PostedCount,
    OwnNamesItself,
    OwnNamesNobody,
    PostedNamesItself,
    PostedNamesNobody,
    IndexAtA,
    IndexAtT,
    IndexAtC,
    IndexInSignal,
    IndexInOutcome,
    KeptIndex,
    NoNap,
    Overslept,
    Totals,
}

pub const POINTS: [Point; 16] = [
    Point::PartyCount,
    Point::OwnCount,
    Point::PostedCount,
    Point::OwnNamesItself,
    Point::OwnNamesNobody,
    Point::PostedNamesItself,
    Point::PostedNamesNobody,
    Point::IndexAtA,
    Point::IndexAtT,
    Point::IndexAtC,
    Point::IndexInSignal,
    Point::IndexInOutcome,
    Point::KeptIndex,
    Point::NoNap,
    Point::Overslept,
    Point::Totals,
];

/// A desk in form with any nap, places, lists, signals, wake counts, tickets and totals,
/// and often without ranks. Records that are no party's hold anything at all.
pub fn odd_desk(random: &mut Random) -> Desk {
    let n = match random.below(4) {
        0 => 2 + random.below(31),
        _ => 2 + random.below(3),
    };
    let nap = draw::nap(random);
    let parties = (0..n).map(|party| odd_party(random, party, Start { n, nap }));
    let mut parties: Vec<Party> = parties.collect();
    answer_some(random, &mut parties);
    commit_some(random, &mut parties);
    if random.one_in(3) {
        parties.iter_mut().for_each(forget_ranks);
    }
    while parties.len() < PROCESSES {
        parties.push(match random.one_in(3) {
            true => any_party(random, nap),
            false => Party::fresh(),
        });
    }
    let mut desk = Desk {
        n,
        nap,
        next_ticket: Ticket(0),
        meetings: 0,
        withdrawn: 0,
        parties,
    };
    counters::fit(random, &mut desk);
    desk
}

fn odd_party(random: &mut Random, party: usize, desk: Start) -> Party {
    let Start { n, nap } = desk;
    let guards = list(random, party, n, NAN_IN);
    let steps = steps_within(random, nap);
    let place = match guards.len() {
        0 => place_without_index(random, steps),
        count => odd_place(random, count, steps),
    };
    let signal = if guards.is_empty() || random.one_in(2) {
        None
    } else {
        Some(indexed(random, guards.len()))
    };
    let posted = match random.one_in(4) {
        true => {
            let byte = random.pick(&BYTES);
            with_others(random, &guards, byte)
        }
        false => list(random, party, n, NAN_IN),
    };
    Party {
        guards,
        ticket: Ticket(match random.below(4) {
            0 => random.bits(),
            _ => random.below(4) as u32,
        }),
        posted,
        wake_count: random.below(2) as u8,
        signal,
        place,
    }
}

fn forget_ranks(record: &mut Party) {
    let guards = record.guards.iter_mut().chain(&mut record.posted);
    guards.for_each(|guard| *rank_of(guard) = 0);
}

fn indexed(random: &mut Random, count: usize) -> IndexedMessage {
    IndexedMessage {
        index: random.below(count),
        message: message(random, NAN_IN),
    }
}

/// A place with neither index nor outcome; a sleeper has made so many steps.
fn place_without_index(random: &mut Random, steps: u8) -> Place {
    random.pick(&[
        Place::Idle,
        Place::Entering,
        Place::Posting,
        Place::Opening,
        Place::Showing,
        Place::Asleep(steps),
        Place::Waiting,
    ])
}

fn odd_place(random: &mut Random, count: usize, steps: u8) -> Place {
    match random.below(10) {
        0..=2 => Place::Scanning(random.below(count)),
        3..=4 => Place::Trying(random.below(count)),
        5 => Place::Met(indexed(random, count)),
        _ => place_without_index(random, steps),
    }
}

/// Steps that a sleeper can have made in such a nap, at either end of it or in
/// between.
fn steps_within(random: &mut Random, nap: u8) -> u8 {
    match random.below(3) {
        0 => 0,
        1 => nap - 1,
        _ => random.below(usize::from(nap)) as u8,
    }
}

/// Steps that no sleeper has made in such a nap, mostly one too many.
fn steps_past(random: &mut Random, nap: u8) -> u8 {
    match random.below(5) {
        0 => nap.saturating_add(1),
        1 => u8::MAX,
        2 => random.byte().max(nap),
        _ => nap,
    }
}

/// Any steps, on both sides of the end of such a nap.
fn any_steps(random: &mut Random, nap: u8) -> u8 {
    match random.below(4) {
        0 => random.byte(),
        1 => random.pick(&[0, nap.saturating_sub(1)]),
        _ => steps_past(random, nap),
    }
}

/// Any nap length, often none at all.
fn any_nap(random: &mut Random) -> u8 {
    match random.below(4) {
        0 => 0,
        1 => random.byte(),
        _ => draw::nap(random),
    }
}

/// Spoils a desk in form at one point, and at no other. Some points need a guard or a
/// partner first; where the desk has none the answer is false.
pub fn spoil(random: &mut Random, desk: &mut Desk, point: Point) -> bool {
    if point == Point::Totals {
        counters::exceed(random, desk);
        return true;
    }
    let spoiled = spoil_at(random, desk, point);
    counters::trim(desk);
    spoiled
}

fn spoil_at(random: &mut Random, desk: &mut Desk, point: Point) -> bool {
    let (party, n) = (random.below(desk.n), desk.n);
    let beyond = random.pick(&[n, n + 1, 32, 255]).max(n);
    match point {
        Point::PartyCount => {
            desk.n = random.pick(&[0, 1, 33, 34, 64, 255]);
            true
        }
        Point::KeptIndex => misplace_kept(random, desk, party),
        Point::NoNap => {
            forget_nap(desk);
            true
        }
        Point::Overslept => {
            desk.parties[party].place = Place::Asleep(steps_past(random, desk.nap));
            true
        }
        Point::OwnNamesItself => misname(random, &mut desk.parties[party].guards, party),
        Point::OwnNamesNobody => misname(random, &mut desk.parties[party].guards, beyond),
        Point::PostedNamesItself => misname(random, &mut desk.parties[party].posted, party),
        Point::PostedNamesNobody => misname(random, &mut desk.parties[party].posted, beyond),
        _ => {
            spoil_record(random, &mut desk.parties[party], point);
            true
        }
    }
}

/// Leaves a desk without a nap length. A sleeper would be out of form as well, so
/// that none is left.
fn forget_nap(desk: &mut Desk) {
    desk.nap = 0;
    for record in desk.parties.iter_mut().take(desk.n) {
        if matches!(record.place, Place::Asleep(_)) {
            record.place = Place::Entering;
        }
    }
}

/// The points that any record can be spoiled at.
fn spoil_record(random: &mut Random, record: &mut Party, point: Point) {
    let own = past(random, record.guards.len());
    let outside = IndexedMessage {
        index: own,
        message: message(random, NAN_IN),
    };
    match point {
        Point::OwnCount => overfill(random, &mut record.guards),
        Point::PostedCount => overfill(random, &mut record.posted),
        Point::IndexAtA => record.place = Place::Scanning(own),
        Point::IndexAtT => record.place = Place::Trying(own),
        Point::IndexAtC => record.place = Place::Committed { own, kept: 0 },
        Point::IndexInSignal => record.signal = Some(outside),
        _ => record.place = Place::Met(outside),
    }
}

/// An index past a list's end, mostly the first one.
fn past(random: &mut Random, count: usize) -> usize {
    match random.below(3) {
        0 => random.pick(&[8, 9, 255]).max(count),
        _ => count,
    }
}

fn overfill(random: &mut Random, list: &mut Vec<Guard>) {
    list.resize(random.pick(&[9, 10, 32, 255]), BLANK);
}

fn misname(random: &mut Random, list: &mut [Guard], partner: usize) -> bool {
    if list.is_empty() {
        return false;
    }
    let at = random.below(list.len());
    list[at].partner = partner;
    true
}

fn misplace_kept(random: &mut Random, desk: &mut Desk, party: usize) -> bool {
    let count = desk.parties[party].guards.len();
    if count == 0 {
        return false;
    }
    let own = random.below(count);
    let partner = desk.parties[party].guards[own].partner;
    let kept = past(random, desk.parties[partner].posted.len());
    desk.parties[party].place = Place::Committed { own, kept };
    true
}

/// A desk of any shape, mostly out of form.
pub fn any_desk(random: &mut Random) -> Desk {
    let nap = any_nap(random);
    Desk {
        n: match random.below(3) {
            0 => usize::from(random.byte()),
            _ => random.below(34),
        },
        nap,
        next_ticket: Ticket(random.bits()),
        meetings: counters::any(random),
        withdrawn: counters::any(random),
        parties: (0..PROCESSES).map(|_| any_party(random, nap)).collect(),
    }
}

fn any_party(random: &mut Random, nap: u8) -> Party {
    let index = random.below(10);
    let indexed = IndexedMessage {
        index,
        message: message(random, NAN_IN),
    };
    let kept = random.below(10);
    let with_index = random.pick(&[
        Place::Scanning(index),
        Place::Trying(index),
        Place::Committed { own: index, kept },
        Place::Met(indexed),
    ]);
    let steps = any_steps(random, nap);
    Party {
        guards: any_list(random),
        ticket: Ticket(random.bits()),
        posted: any_list(random),
        wake_count: random.below(2) as u8,
        signal: random.one_in(2).then_some(indexed),
        place: match random.one_in(2) {
            true => with_index,
            false => place_without_index(random, steps),
        },
    }
}

fn any_list(random: &mut Random) -> Vec<Guard> {
    let mut guards = list(random, 0, 33, NAN_IN);
    if random.one_in(8) {
        overfill(random, &mut guards);
    }
    guards
}

/// A desk that some calls reach, with one value and mostly the totals changed afterwards.
pub fn changed_desk(random: &mut Random) -> Desk {
    let n = 2 + random.below(4);
    let nap = draw::nap(random);
    let ranked = !random.one_in(3);
    let mut desk = Start { n, nap }.desk();
    for _ in 0..random.below(60) {
        let party = random.below(n);
        let mut call = match random.below(16) {
            0..=3 => draw::offer(random, party, n),
            4 => Call::Withdraw { party },
            _ => Call::Step { party },
        };
        if !ranked {
            draw::forget_ranks(&mut call);
        }
        // A refused call is as good as another here.
        let _ = call.on(&mut desk);
    }
    change_one_value(random, &mut desk);
    counters::loosen(random, &mut desk);
    desk.parties.resize(PROCESSES, Party::fresh());
    desk
}

fn change_one_value(random: &mut Random, desk: &mut Desk) {
    let (party, nap) = (random.below(desk.n), desk.nap);
    match random.below(10) {
        0 => desk.nap = any_nap(random),
        1 => desk.parties[party].place = Place::Asleep(any_steps(random, nap)),
        _ => change_record(random, &mut desk.parties[party], nap),
    }
}

fn change_record(random: &mut Random, record: &mut Party, nap: u8) {
    let count = record.guards.len().max(1);
    let steps = steps_within(random, nap);
    let byte = random.pick(&BYTES);
    match random.below(8) {
        0 => record.place = odd_place(random, count, steps),
        1 => record.wake_count ^= 1,
        2 => record.signal = Some(indexed(random, count)),
        3 => record.signal = None,
        4 => record.ticket = Ticket(random.below(5) as u32),
        5 => record.posted = record.guards.clone(),
        6 => record.posted = with_others(random, &record.guards, byte),
        _ => record.guards = with_others(random, &record.guards, byte),
    }
}
