//! The desk by value against the desk that is changed in place: the same
//! answers and the same desks, on damaged desks and along random runs.

use crate::draw::Draw;
use crate::tools::{fresh_with_nap, receive, total};
use model::by_value;
use model::{Desk, Guard, IndexedMessage, Party, Place, Refusal, Ticket};

/// An index or a party as a byte; what does not fit is past every list.
fn byte(number: usize) -> u8 {
    u8::try_from(number).unwrap_or(u8::MAX)
}

fn guard(guard: &Guard) -> by_value::Guard {
    by_value::Guard {
        enabled: guard.enabled,
        partner: byte(guard.partner),
        kind: guard.kind,
        rank: guard.rank,
        action: guard.action,
    }
}

/// The slots hold the first eight guards; the count tells if there are more.
fn list(guards: &[Guard]) -> by_value::GuardList {
    let first: Vec<_> = guards.iter().take(8).map(guard).collect();
    let mut list = by_value::GuardList::copied(&first);
    list.count = byte(guards.len());
    list
}

fn indexed(content: IndexedMessage) -> by_value::IndexedMessage {
    by_value::IndexedMessage {
        index: byte(content.index),
        message: content.message,
    }
}

fn place(place: Place) -> by_value::Place {
    match place {
        Place::Idle => by_value::Place::Idle,
        Place::Entering => by_value::Place::Entering,
        Place::Scanning(own) => by_value::Place::Scanning(byte(own)),
        Place::Trying(own) => by_value::Place::Trying(byte(own)),
        Place::Committed { own, kept } => by_value::Place::Committed {
            own: byte(own),
            kept: byte(kept),
        },
        Place::Posting => by_value::Place::Posting,
        Place::Opening => by_value::Place::Opening,
        Place::Showing => by_value::Place::Showing,
        Place::Asleep(steps) => by_value::Place::Asleep(steps),
        Place::Waiting => by_value::Place::Waiting,
        Place::Met(outcome) => by_value::Place::Met(indexed(outcome)),
    }
}

fn record(party: &Party) -> by_value::Party {
    by_value::Party {
        guards: list(&party.guards),
        ticket: party.ticket,
        posted: list(&party.posted),
        wake_count: party.wake_count,
        signal: party.signal.map(indexed),
        place: place(party.place),
    }
}

/// The same desk by value. Records past the array's end are no party's.
fn value_of(desk: &Desk) -> by_value::Desk {
    let mut parties = [by_value::Party::FRESH; by_value::MOST_PARTIES];
    for (slot, party) in parties.iter_mut().zip(&desk.parties) {
        *slot = record(party);
    }
    by_value::Desk {
        n: byte(desk.n),
        nap: desk.nap,
        next_ticket: desk.next_ticket,
        meetings: desk.meetings,
        withdrawn: desk.withdrawn,
        parties,
    }
}

pub fn compare_offer(desk: &mut Desk, party: u8, guards: &[Guard]) {
    let offered: Vec<_> = guards.iter().map(guard).collect();
    let (answer, after) = value_of(desk).offer(party, &offered);
    assert_eq!(answer, desk.offer(usize::from(party), guards));
    assert_eq!(after, value_of(desk));
}

pub fn compare_step(desk: &mut Desk, party: u8) {
    let (answer, after) = value_of(desk).step(party);
    let expected = desk.step(usize::from(party));
    let stands = |_| place(desk.parties[usize::from(party)].place);
    assert_eq!(answer, expected.map(|said| said.map(stands)));
    assert_eq!(after, value_of(desk));
}

pub fn compare_collect(desk: &mut Desk, party: u8) {
    let (answer, after) = value_of(desk).collect(party);
    let expected = desk.collect(usize::from(party));
    let outcome = |given: model::Outcome| by_value::Outcome {
        index: byte(given.index),
        partner: byte(given.partner),
        message: given.message,
    };
    assert_eq!(answer, expected.map(outcome));
    assert_eq!(after, value_of(desk));
}

pub fn compare_withdraw(desk: &mut Desk, party: u8) {
    let (answer, after) = value_of(desk).withdraw(party);
    assert_eq!(answer, desk.withdraw(usize::from(party)));
    assert_eq!(after, value_of(desk));
}

pub fn compare_movers(desk: &Desk) {
    let (answer, after) = value_of(desk).movers();
    assert_eq!(answer, desk.movers());
    assert_eq!(answer, desk.movers_by_rule());
    assert_eq!(after, value_of(desk));
}

/// Both models make every call that names this party, each on a copy.
pub fn compare_each(desk: &Desk, party: u8) {
    compare_movers(desk);
    compare_offer(&mut desk.clone(), party, &[receive(0)]);
    compare_step(&mut desk.clone(), party);
    compare_collect(&mut desk.clone(), party);
    compare_withdraw(&mut desk.clone(), party);
}

/// Both models refuse every call by 7, whatever else is wrong with it.
pub fn check_out_of_form(desk: &Desk) {
    let refused = Refusal::OutOfForm;
    for party in [0, 1, 2, 255] {
        compare_each(desk, party);
        let (mut after, party) = (desk.clone(), usize::from(party));
        assert_eq!(after.offer(party, &[]), Err(refused));
        assert_eq!(after.step(party), Err(refused));
        assert_eq!(after.collect(party), Err(refused));
        assert_eq!(after.withdraw(party), Err(refused));
        assert_eq!(after.movers(), Err(refused));
        assert_eq!(after, *desk);
    }
}

#[test]
fn fresh_desks() {
    for n in 0..=255 {
        for nap in 0..=255 {
            let in_place = Desk::new(usize::from(n), nap);
            let made = in_place.map(|desk| value_of(&desk));
            assert_eq!(by_value::Desk::new(n, nap), made);
        }
    }
}

/// Every call on one desk, each on a copy.
fn compare_calls(draw: &mut Draw, desk: &Desk) {
    compare_movers(desk);
    for party in [0, 1, 2, 3, 4, 5, 31, 32, 255] {
        let mut guards = draw.list(usize::from(party), desk.n.min(255));
        compare_offer(&mut desk.clone(), party, &guards);
        if let Some(first) = guards.first_mut() {
            first.partner = [usize::from(party), desk.n.min(255)][draw.random.below(2)];
            compare_offer(&mut desk.clone(), party, &guards);
        }
        compare_step(&mut desk.clone(), party);
        compare_collect(&mut desk.clone(), party);
        compare_withdraw(&mut desk.clone(), party);
    }
}

/// Random desks, of which more are damaged the more are wild.
fn compare_desks(seed: u64, wild: usize, desks: usize) {
    let mut draw = Draw::new(seed, wild);
    for _ in 0..desks {
        let desk = draw.desk();
        // No array of 32 records has fewer records than parties.
        if desk.parties.len() >= desk.n {
            compare_calls(&mut draw, &desk);
        }
    }
}

/// Puts one thing just past what refusal 7 allows.
fn damage(draw: &mut Draw, desk: &mut Desk) {
    if draw.random.one_in(8) {
        damage_totals(draw, desk);
    } else {
        // The party may come to have an open offer, which has to be no fault.
        (desk.meetings, desk.withdrawn) = (0, 0);
        desk.next_ticket = Ticket(u32::MAX);
        damage_party(draw, desk);
        assert!(total(desk) <= u128::from(u32::MAX));
    }
}

/// Puts the next ticket or one of the counters just past the edge.
fn damage_totals(draw: &mut Draw, desk: &mut Desk) {
    let next = u128::from(desk.next_ticket.0);
    let room = (next - total(desk)) as u64;
    match draw.random.below(3) {
        0 if total(desk) > 0 => desk.next_ticket = Ticket((total(desk) - 1) as u32),
        1 => desk.meetings += room / 2 + 1,
        _ => desk.withdrawn += room + 1,
    }
}

/// Puts one thing of a party, or the nap length, just past the edge.
fn damage_party(draw: &mut Draw, desk: &mut Desk) {
    let number = draw.random.below(desk.n);
    let fault = draw.random.below(11);
    let (n, partner) = (desk.n, desk.parties[number].guards[0].partner);
    let kept = desk.parties[partner].posted.len();
    let party = &mut desk.parties[number];
    let past = IndexedMessage {
        index: party.guards.len(),
        message: model::Message::Nothing,
    };
    match fault {
        0 => party.place = Place::Scanning(past.index),
        1 => party.place = Place::Trying(past.index),
        2 => party.place = Place::Met(past),
        3 => party.signal = Some(past),
        4 => party.place = Place::Committed { own: 0, kept },
        5 => party.guards[0].partner = number,
        6 => party.posted[0].partner = n,
        7 => party.place = Place::Asleep(desk.nap),
        8 => party.place = Place::Asleep(desk.nap.saturating_add(1)),
        9 => desk.nap = 0,
        _ => party.posted = vec![party.posted[0]; 9],
    }
}

#[test]
fn desks_in_form() {
    compare_desks(0x1111_5678_9abc_def1, 0, 500);
}

#[test]
fn rarely_wild_desks() {
    compare_desks(0x2222_5678_9abc_def1, 200, 500);
}

#[test]
fn often_wild_desks() {
    compare_desks(0x3333_5678_9abc_def1, 5, 300);
}

#[test]
fn desks_damaged_at_an_edge() {
    let mut draw = Draw::new(0x4444_5678_9abc_def1, 0);
    for _ in 0..500 {
        let mut desk = draw.desk();
        damage(&mut draw, &mut desk);
        assert!(desk.movers().is_err());
        compare_calls(&mut draw, &desk);
    }
}

/// Makes one random call, mostly a step, on both desks.
fn compare_call(draw: &mut Draw, desk: &mut Desk) {
    let party = draw.random.below(desk.n);
    let guards = draw.list(party, desk.n);
    let party = byte(party);
    match draw.random.below(12) {
        0 | 1 => compare_offer(desk, party, &guards),
        2 => compare_collect(desk, party),
        3 => compare_movers(desk),
        4 if draw.random.one_in(4) => compare_withdraw(desk, party),
        _ => compare_step(desk, party),
    }
}

#[test]
fn random_runs() {
    for (seed, n) in [(0x11, 2), (0x22, 3), (0x33, 8), (0x44, 32)] {
        let mut draw = Draw::new(seed, 0);
        for nap in [1, 2, 3, 255] {
            let mut desk = fresh_with_nap(n, nap);
            for _ in 0..1500 {
                compare_call(&mut draw, &mut desk);
                assert_eq!(total(&desk), u128::from(desk.next_ticket.0));
            }
        }
    }
}
