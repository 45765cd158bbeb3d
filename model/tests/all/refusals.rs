//! Each refusal but 7 and 8: its condition and its order against others.

use crate::tools::{disabled, fresh, indexed, receive, send, with_tickets_given};
use model::{Desk, Guard, Message, Place, Refusal, Ticket};

fn nan() -> Message {
    Message::Reading(f32::NAN)
}

/// The places other than I, each in form for party 0 with one guard, where
/// party 1 has a posted list.
fn busy_places() -> Vec<Place> {
    vec![
        Place::Entering,
        Place::Scanning(0),
        Place::Trying(0),
        Place::Committed { own: 0, kept: 0 },
        Place::Posting,
        Place::Opening,
        Place::Showing,
        Place::Asleep(0),
        Place::Waiting,
        Place::Met(indexed(0, Message::Nothing)),
    ]
}

/// Its one ticket is that of party 0's offer.
fn desk_with_party_0_at(place: Place) -> Desk {
    let mut desk = with_tickets_given(1, fresh(3));
    desk.parties[0].guards = vec![receive(1)];
    desk.parties[1].posted = vec![send(0, Message::Whole(4))];
    desk.parties[0].place = place;
    desk
}

/// Offers by party 0 of three, with the refusal that the list alone gives.
fn wrong_lists() -> Vec<(Vec<Guard>, Refusal)> {
    let good = receive(1);
    let bad = send(1, nan());
    let lists =
        |refusal, lists: Vec<Vec<Guard>>| lists.into_iter().map(move |list| (list, refusal));
    // Nine guards, whichever, are too many before they are anything else.
    let any = [good, receive(0), receive(3), bad, disabled(good)];
    let mut counts: Vec<Vec<Guard>> = any.iter().map(|&guard| vec![guard; 9]).collect();
    counts.push(vec![]);
    let none_enabled = vec![vec![disabled(good)], vec![disabled(good); 8]];
    lists(Refusal::GuardCount, counts)
        .chain(lists(Refusal::WrongPartner, wrong_partners()))
        .chain(lists(Refusal::NotANumber, not_numbers()))
        .chain(lists(Refusal::NoneEnabled, none_enabled))
        .collect()
}

fn wrong_partners() -> Vec<Vec<Guard>> {
    let (good, own) = (receive(1), receive(0));
    vec![
        vec![own],
        vec![receive(3)],
        vec![receive(255)],
        vec![good, disabled(own)],
        vec![disabled(own)],
        // In one guard 4 comes before 5, and so does an earlier guard's 4.
        vec![send(0, nan())],
        vec![send(3, nan())],
        vec![own, send(1, nan())],
    ]
}

fn not_numbers() -> Vec<Vec<Guard>> {
    let (good, bad) = (receive(1), send(1, nan()));
    let limit = |low, high| send(2, Message::Limit { low, high });
    vec![
        vec![bad],
        vec![good, limit(0.0, f32::NAN)],
        vec![good, limit(f32::NAN, 0.0)],
        vec![good, disabled(bad)],
        vec![disabled(bad)],
        // Guard by guard: an earlier guard's 5 comes before a later one's 4.
        vec![bad, receive(0)],
        vec![good, bad, receive(3)],
    ]
}

#[test]
fn offers_are_refused_in_order() {
    for place in [vec![Place::Idle], busy_places()].concat() {
        for next_ticket in [Ticket(1), Ticket(u32::MAX)] {
            let mut desk = desk_with_party_0_at(place);
            desk.next_ticket = next_ticket;
            let before = desk.clone();
            // 3 to 6 come before the state, and 2 before the list.
            for (guards, refusal) in wrong_lists() {
                assert_eq!(desk.offer(0, &guards), Err(refusal), "{guards:?}");
                assert_eq!(desk.offer(3, &guards), Err(Refusal::NoSuchParty));
            }
            // A good list: 11 first, then 12.
            let late = match (place, next_ticket) {
                (Place::Idle, Ticket(1)) => continue,
                (Place::Idle, _) => Refusal::TicketsUsedUp,
                _ => Refusal::NotIdle,
            };
            assert_eq!(desk.offer(0, &[receive(1)]), Err(late));
            assert_eq!(desk, before);
        }
    }
}

#[test]
fn an_accepted_offer_changes_four_things() {
    let mut desk = desk_with_party_0_at(Place::Idle);
    // Leftovers that an offer must not touch.
    desk.next_ticket = Ticket(9);
    (desk.meetings, desk.withdrawn) = (2, 5);
    desk.parties[0].wake_count = 0;
    desk.parties[0].signal = Some(indexed(0, Message::Whole(3)));
    desk.parties[0].posted = vec![receive(2), receive(1)];
    let mut expected = desk.clone();
    let guards = [disabled(receive(2)), send(1, Message::Nothing)];
    expected.next_ticket = Ticket(10);
    expected.parties[0].guards = guards.to_vec();
    expected.parties[0].ticket = Ticket(9);
    expected.parties[0].place = Place::Entering;
    assert_eq!(desk.offer(0, &guards), Ok(Ticket(9)));
    assert_eq!(desk, expected);
}

#[test]
fn an_accepted_offer_may_leave_a_desk_out_of_form() {
    // The leftover signal names guard 1, and the new list has guard 0 alone.
    let mut desk = fresh(2);
    desk.parties[0].guards = vec![receive(1), receive(1)];
    desk.parties[0].signal = Some(indexed(1, Message::Nothing));
    assert_eq!(desk.offer(0, &[receive(1)]), Ok(Ticket(0)));
    assert_eq!(desk.step(0), Err(Refusal::OutOfForm));
}

#[test]
fn steps_are_refused_by_the_party_alone() {
    for place in [vec![Place::Idle], busy_places()].concat() {
        let mut desk = desk_with_party_0_at(place);
        desk.next_ticket = Ticket(u32::MAX);
        let before = desk.clone();
        for party in [3, 4, 32, 255, usize::MAX] {
            assert_eq!(desk.step(party), Err(Refusal::NoSuchParty));
        }
        assert_eq!(desk, before);
        assert!(desk.step(2).is_ok() && desk.step(0).is_ok());
    }
}

#[test]
fn collections_are_refused_unless_met() {
    for place in [vec![Place::Idle], busy_places()].concat() {
        let mut desk = desk_with_party_0_at(place);
        let before = desk.clone();
        assert_eq!(desk.collect(3), Err(Refusal::NoSuchParty));
        if !matches!(place, Place::Met(_)) {
            assert_eq!(desk.collect(0), Err(Refusal::NotMet), "{place:?}");
        }
        assert_eq!(desk, before);
    }
}

#[test]
fn an_accepted_collection_changes_the_place_alone() {
    let mut desk = with_tickets_given(9, fresh(3));
    (desk.meetings, desk.withdrawn) = (2, 5);
    // On a damaged desk even NaN and a disabled guard come out as they are.
    let message = Message::Reading(f32::from_bits(0x7f80_0001));
    desk.parties[0].guards = vec![receive(1), disabled(receive(2))];
    desk.parties[0].posted = vec![receive(1)];
    desk.parties[0].signal = Some(indexed(0, Message::Whole(1)));
    desk.parties[0].wake_count = 0;
    desk.parties[0].place = Place::Met(indexed(1, message));
    let mut expected = desk.clone();
    expected.parties[0].place = Place::Idle;
    let outcome = desk.collect(0).unwrap();
    // The partner is the one that guard 1 of the own list names.
    assert_eq!((outcome.index, outcome.partner), (1, 2));
    assert_eq!(outcome.message, message);
    assert_eq!(desk, expected);
}

#[test]
fn withdrawals_are_refused_at_idle_and_met() {
    for place in [vec![Place::Idle], busy_places()].concat() {
        let mut desk = desk_with_party_0_at(place);
        let before = desk.clone();
        // 2 comes before 14: party 3 is none, and so is at no place.
        for party in [3, 4, 32, 255, usize::MAX] {
            assert_eq!(desk.withdraw(party), Err(Refusal::NoSuchParty));
        }
        assert_eq!(desk, before);
        let answer = desk.withdraw(0);
        if let Place::Idle | Place::Met(_) = place {
            assert_eq!(answer, Err(Refusal::NothingOffered), "{place:?}");
            assert_eq!(desk, before);
        } else {
            assert!(answer.is_ok(), "{place:?}");
        }
    }
}

#[test]
fn refusals_have_the_numbers_of_the_documents() {
    let numbers = [
        (Refusal::PartyCount, 1),
        (Refusal::NoSuchParty, 2),
        (Refusal::GuardCount, 3),
        (Refusal::WrongPartner, 4),
        (Refusal::NotANumber, 5),
        (Refusal::NoneEnabled, 6),
        (Refusal::OutOfForm, 7),
        (Refusal::MalformedLine, 8),
        (Refusal::NotIdle, 11),
        (Refusal::TicketsUsedUp, 12),
        (Refusal::NotMet, 13),
        (Refusal::NothingOffered, 14),
        (Refusal::Nap, 15),
    ];
    for (refusal, number) in numbers {
        assert_eq!(refusal.number(), number);
    }
}
