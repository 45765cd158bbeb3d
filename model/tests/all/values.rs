//! Messages by their bits, words, and what it means to match.

use crate::tools::{disabled, fresh, indexed, places_with_open, receive, send};
use model::guard::{best_match, guards_match, lists_match};
use model::{Message, Place, Word};

fn reading(bits: u32) -> Message {
    Message::Reading(f32::from_bits(bits))
}

fn limit(low: u32, high: u32) -> Message {
    Message::Limit {
        low: f32::from_bits(low),
        high: f32::from_bits(high),
    }
}

#[test]
fn messages_are_equal_by_their_bits() {
    assert_eq!(reading(0x7fc0_0001), reading(0x7fc0_0001));
    assert_ne!(reading(0x7fc0_0001), reading(0x7fc0_0002));
    assert_ne!(reading(0x0000_0000), reading(0x8000_0000));
    assert_eq!(limit(0x7f80_0001, 0), limit(0x7f80_0001, 0));
    assert_ne!(limit(0, 0), limit(0, 0x8000_0000));
    assert_ne!(limit(0, 0), limit(0x8000_0000, 0));
    assert_ne!(Message::Nothing, Message::Whole(0));
    assert_ne!(reading(0), limit(0, 0));
    assert_ne!(Message::Whole(1), Message::Whole(2));
}

#[test]
fn not_a_number_is_found_in_every_f32() {
    assert!(reading(0x7fc0_0000).holds_nan());
    assert!(limit(0x7f80_0001, 0).holds_nan());
    assert!(limit(0, 0xffff_ffff).holds_nan());
    assert!(!limit(0x7f80_0000, 0xff80_0000).holds_nan());
    assert!(!Message::Whole(0x7fc0_0000).holds_nan());
    assert!(!Message::Nothing.holds_nan());
}

#[test]
fn words_follow_from_places() {
    let table = [
        (Place::Idle, Word::Running),
        (Place::Entering, Word::Running),
        (Place::Met(indexed(0, Message::Nothing)), Word::Running),
        (Place::Scanning(0), Word::Alt),
        (Place::Trying(0), Word::Alt),
        (Place::Committed { own: 0, kept: 0 }, Word::Alt),
        (Place::Posting, Word::Alt),
        (Place::Opening, Word::Alt),
        (Place::Showing, Word::Alt),
        (Place::Asleep(0), Word::Sleeping),
        (Place::Waiting, Word::Waiting),
    ];
    for (place, word) in table {
        assert_eq!(place.word(), word, "{place:?}");
    }
}

#[test]
fn guards_match_only_under_all_conditions() {
    let (sender, receiver) = (send(7, Message::Nothing), receive(3));
    // Party 3 sends to 7 and party 7 receives from 3, in both orders.
    assert!(guards_match(3, &sender, 7, &receiver));
    assert!(guards_match(7, &receiver, 3, &sender));
    assert!(!guards_match(3, &disabled(sender), 7, &receiver));
    assert!(!guards_match(3, &sender, 7, &disabled(receiver)));
    // Either one names somebody else.
    assert!(!guards_match(3, &send(6, Message::Nothing), 7, &receiver));
    assert!(!guards_match(3, &sender, 7, &receive(4)));
    // Both send, both receive.
    assert!(!guards_match(3, &sender, 7, &send(3, Message::Nothing)));
    assert!(!guards_match(3, &receive(7), 7, &receiver));
}

#[test]
fn lists_match_by_any_two_guards() {
    let own = [receive(2), send(1, Message::Whole(5))];
    assert!(lists_match(
        0,
        &own,
        1,
        &[send(0, Message::Nothing), receive(0)]
    ));
    assert!(!lists_match(0, &own, 1, &[send(0, Message::Nothing)]));
    assert!(!lists_match(0, &own, 1, &[]));
}

#[test]
fn the_search_gives_the_first_match_of_equal_rank() {
    let list = [
        disabled(receive(0)),
        send(0, Message::Nothing),
        receive(2),
        receive(0),
        receive(0),
    ];
    // 0 is disabled, 1 sends too, 2 names another party; 3 is the first match.
    assert_eq!(best_match(0, &send(1, Message::Nothing), &list), Some(3));
    assert_eq!(best_match(0, &receive(1), &list), Some(1));
    assert_eq!(best_match(0, &disabled(receive(1)), &list), None);
}

#[test]
fn open_offers_follow_from_place_and_wake_count() {
    let mut desk = fresh(2);
    desk.parties[1].guards = vec![receive(0)];
    for (place, open_at_0, open_at_1) in places_with_open() {
        for (wake_count, open) in [(0, open_at_0), (1, open_at_1)] {
            desk.parties[1].place = place;
            desk.parties[1].wake_count = wake_count;
            let offers = desk.open_offers();
            assert_eq!(offers.len(), usize::from(open), "{place:?} {wake_count}");
            assert_eq!(desk.open_count(), offers.len());
            assert!(offers
                .iter()
                .all(|o| o.party == 1 && o.guards == [receive(0)]));
        }
    }
}
