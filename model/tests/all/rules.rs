//! The fifteen step rules, each with all that it changes and all it leaves.

use crate::tools::{disabled, fresh, indexed, of_kind, receive, send};
use model::{Desk, Guard, Message, Place, Refusal, Ticket};

const SEVEN: Message = Message::Whole(7);

/// Party 1 is the one that steps; it names 0, 2 (disabled), 0 and 2. The
/// others have posted lists, and all three have leftovers to be kept.
fn desk_with_party_1_at(place: Place) -> Desk {
    let mut desk = fresh(3);
    desk.next_ticket = Ticket(30);
    (desk.meetings, desk.withdrawn) = (8, 11);
    for (party, ticket) in [(0, 10), (1, 20), (2, 20)] {
        desk.parties[party].ticket = Ticket(ticket);
    }
    desk.parties[0].guards = vec![receive(1), receive(2)];
    desk.parties[0].posted = vec![send(1, SEVEN), receive(1), receive(1)];
    desk.parties[1].guards = own_list();
    desk.parties[1].posted = vec![receive(2)];
    desk.parties[2].guards = vec![receive(1)];
    desk.parties[2].posted = vec![send(0, SEVEN)];
    desk.parties[1].place = place;
    desk
}

fn own_list() -> Vec<Guard> {
    let nothing = Message::Nothing;
    vec![
        receive(0),
        disabled(receive(2)),
        send(0, nothing),
        receive(2),
    ]
}

/// Steps party 1 and compares the answer and the whole desk given back.
fn check(desk: &Desk, answer: &str, change: impl FnOnce(&mut Desk)) {
    let mut expected = desk.clone();
    change(&mut expected);
    let mut stepped = desk.clone();
    let place = stepped.step(1).expect("the desk is in form");
    let said = place.map_or("=".to_string(), |place| place.to_string());
    assert_eq!(said, answer, "{desk:?}");
    assert_eq!(stepped, expected);
    let moves = desk.movers().unwrap() >> 1 & 1;
    assert_eq!(moves == 1, answer != "=", "movers of {desk:?}");
}

/// As `check`, where nothing but the place changes.
fn check_place(desk: &Desk, answer: &str, place: Place) {
    check(desk, answer, |d| d.parties[1].place = place);
}

#[test]
fn rules_1_and_2_start_at_the_first_enabled_guard() {
    for start in [Place::Entering, Place::Asleep(0)] {
        let mut desk = desk_with_party_1_at(start);
        check_place(&desk, "A0", Place::Scanning(0));
        desk.parties[1].guards = vec![disabled(receive(0)), receive(2)];
        check_place(&desk, "A1", Place::Scanning(1));
        // None is enabled, or there are none at all: only on a damaged desk.
        desk.parties[1].guards = vec![disabled(receive(0)); 8];
        check_place(&desk, "P", Place::Posting);
        desk.parties[1].guards = vec![];
        check_place(&desk, "P", Place::Posting);
    }
}

/// Checks one step of party 1 at A0, whose partner 0 stands at `place`.
fn check_scan(place: Place, partner_ticket: u32, answer: &str, new: Place) {
    let mut desk = desk_with_party_1_at(Place::Scanning(0));
    desk.parties[0].place = place;
    desk.parties[0].ticket = Ticket(partner_ticket);
    for wake_count in [0, 1] {
        desk.parties[0].wake_count = wake_count;
        check_place(&desk, answer, new);
    }
}

#[test]
fn rules_3_to_6_go_by_the_partners_word() {
    let met = Place::Met(indexed(0, SEVEN));
    let committed = Place::Committed { own: 0, kept: 0 };
    // Party 1's ticket is 20: the partner is older, equal or younger.
    for ticket in [19, 20, 21] {
        // Rule 3. Guard 1 is disabled, so the next one is 2.
        for place in [Place::Idle, Place::Entering, met, Place::Asleep(0)] {
            check_scan(place, ticket, "A2", Place::Scanning(2));
        }
        // Rule 4.
        check_scan(Place::Waiting, ticket, "T0", Place::Trying(0));
    }
    for place in [
        Place::Scanning(1),
        Place::Trying(1),
        committed,
        Place::Posting,
        Place::Opening,
        Place::Showing,
    ] {
        // Rule 5.
        check_scan(place, 19, "S", Place::Asleep(0));
        check_scan(place, 0, "S", Place::Asleep(0));
        // Rule 6: an equal ticket is not smaller.
        check_scan(place, 20, "=", Place::Scanning(0));
        check_scan(place, 21, "=", Place::Scanning(0));
        check_scan(place, u32::MAX, "=", Place::Scanning(0));
    }
}

#[test]
fn rule_3_goes_to_posting_after_the_last_enabled_guard() {
    let mut desk = desk_with_party_1_at(Place::Scanning(3));
    check_place(&desk, "P", Place::Posting);
    desk.parties[1].place = Place::Scanning(2);
    desk.parties[1].guards[3] = disabled(receive(2));
    check_place(&desk, "P", Place::Posting);
}

#[test]
fn rules_3_and_4_take_a_disabled_guard_like_any_other() {
    // Only a damaged desk has A at a disabled guard.
    let mut desk = desk_with_party_1_at(Place::Scanning(1));
    check_place(&desk, "A2", Place::Scanning(2));
    desk.parties[2].place = Place::Waiting;
    check_place(&desk, "T1", Place::Trying(1));
}

#[test]
fn rule_7_commits() {
    let committed = |own, kept| {
        move |d: &mut Desk| {
            d.parties[0].wake_count = 1;
            d.parties[1].place = Place::Committed { own, kept };
            d.meetings = 9;
        }
    };
    // Neither the word nor the place of the partner is looked at again.
    for place in [
        Place::Waiting,
        Place::Showing,
        Place::Idle,
        Place::Asleep(0),
    ] {
        let mut desk = desk_with_party_1_at(Place::Trying(0));
        desk.parties[0].place = place;
        desk.parties[0].wake_count = 0;
        check(&desk, "C0", committed(0, 0));
        // Guard 2 sends: 1 is the first receiving guard posted, 2 is later.
        desk.parties[1].place = Place::Trying(2);
        check(&desk, "C2", committed(2, 1));
    }
}

#[test]
fn rule_8_goes_on() {
    let mut desk = desk_with_party_1_at(Place::Trying(0));
    // The posted list matches, but the wake count is 1.
    desk.parties[0].place = Place::Waiting;
    check_place(&desk, "A2", Place::Scanning(2));
    // The wake count is 0, but the posted list (not the own one) has no match.
    desk.parties[0].wake_count = 0;
    desk.parties[0].guards = vec![send(1, SEVEN)];
    desk.parties[0].posted = vec![disabled(send(1, SEVEN)), send(2, SEVEN), receive(1)];
    check_place(&desk, "A2", Place::Scanning(2));
    desk.parties[0].posted = vec![];
    check_place(&desk, "A2", Place::Scanning(2));
    // Guard 3 is the last one. Party 2 posted a guard to 0 only.
    desk.parties[1].place = Place::Trying(3);
    desk.parties[2].wake_count = 0;
    check_place(&desk, "P", Place::Posting);
}

#[test]
fn rule_8_goes_on_from_a_disabled_guard() {
    // A disabled guard matches nothing, even at T on a damaged desk.
    let mut desk = desk_with_party_1_at(Place::Trying(1));
    desk.parties[2].wake_count = 0;
    desk.parties[2].posted = vec![send(1, SEVEN)];
    check_place(&desk, "A2", Place::Scanning(2));
}

#[test]
fn rule_9_when_the_own_guard_receives() {
    let desk = desk_with_party_1_at(Place::Committed { own: 0, kept: 0 });
    check(&desk, "M", |d| {
        d.parties[0].signal = Some(indexed(0, Message::Nothing));
        d.parties[1].place = Place::Met(indexed(0, SEVEN));
    });
}

#[test]
fn rule_9_when_the_own_guard_sends() {
    let mut desk = desk_with_party_1_at(Place::Committed { own: 2, kept: 1 });
    let message = Message::Reading(f32::from_bits(0xffc1_2345));
    desk.parties[1].guards[2] = send(0, message);
    // An old signal, which only a damaged desk has here, is replaced.
    desk.parties[0].signal = Some(indexed(0, SEVEN));
    check(&desk, "M", |d| {
        d.parties[0].signal = Some(indexed(1, message));
        d.parties[1].place = Place::Met(indexed(2, Message::Nothing));
    });
}

#[test]
fn rule_9_when_both_receive_or_both_send() {
    let both_receive = desk_with_party_1_at(Place::Committed { own: 0, kept: 1 });
    check(&both_receive, "M", |d| {
        d.parties[0].signal = Some(indexed(1, Message::Nothing));
        d.parties[1].place = Place::Met(indexed(0, Message::Nothing));
    });
    // The own guard sends, so the rule's first case holds.
    let mut both_send = desk_with_party_1_at(Place::Committed { own: 2, kept: 0 });
    both_send.parties[1].guards[2] = send(0, Message::Whole(-1));
    check(&both_send, "M", |d| {
        d.parties[0].signal = Some(indexed(0, Message::Whole(-1)));
        d.parties[1].place = Place::Met(indexed(2, Message::Nothing));
    });
}

#[test]
fn rule_9_takes_the_kept_guard_as_it_is() {
    // Disabled, naming another party, of another kind: rule 9 asks for none.
    let mut desk = desk_with_party_1_at(Place::Committed { own: 0, kept: 0 });
    let sends = send(1, SEVEN);
    for guard in [disabled(sends), send(2, SEVEN), of_kind(1, sends)] {
        desk.parties[0].posted[0] = guard;
        check(&desk, "M", |d| {
            d.parties[0].signal = Some(indexed(0, Message::Nothing));
            d.parties[1].place = Place::Met(indexed(0, SEVEN));
        });
    }
}

#[test]
fn rule_9_may_leave_a_desk_out_of_form() {
    // Party 0 has three posted guards but two own ones: the signal's index 2
    // has no guard in the own list.
    let mut desk = desk_with_party_1_at(Place::Committed { own: 2, kept: 2 });
    assert_eq!(desk.step(1).unwrap().unwrap().letter, 'M');
    assert_eq!(desk.step(1), Err(Refusal::OutOfForm));
}

#[test]
fn rules_10_to_12_post_open_and_show() {
    let mut desk = desk_with_party_1_at(Place::Posting);
    check(&desk, "O", |d| {
        d.parties[1].posted = own_list();
        d.parties[1].place = Place::Opening;
    });
    for wake_count in [0, 1] {
        desk.parties[1].wake_count = wake_count;
        desk.parties[1].place = Place::Opening;
        check(&desk, "H", |d| {
            d.parties[1].wake_count = 0;
            d.parties[1].place = Place::Showing;
        });
        desk.parties[1].place = Place::Showing;
        check_place(&desk, "W", Place::Waiting);
    }
}

#[test]
fn rules_13_and_14_wait_for_a_signal() {
    let mut desk = desk_with_party_1_at(Place::Waiting);
    for wake_count in [0, 1] {
        desk.parties[1].wake_count = wake_count;
        desk.parties[1].signal = None;
        check(&desk, "=", |_| ());
        let signal = indexed(2, Message::Reading(f32::from_bits(0x7f80_0001)));
        desk.parties[1].signal = Some(signal);
        check(&desk, "M", |d| {
            d.parties[1].signal = None;
            d.parties[1].place = Place::Met(signal);
        });
    }
}

#[test]
fn rule_15_leaves_idle_and_met_alone() {
    let mut desk = desk_with_party_1_at(Place::Idle);
    desk.parties[1].signal = Some(indexed(0, SEVEN));
    check(&desk, "=", |_| ());
    desk.parties[1].place = Place::Met(indexed(3, SEVEN));
    check(&desk, "=", |_| ());
}

#[test]
fn movers_are_numbered_by_bits() {
    let mut desk = fresh(32);
    desk.offer(0, &[receive(1)]).unwrap();
    desk.offer(31, &[receive(1)]).unwrap();
    desk.offer(4, &[receive(1)]).unwrap();
    assert_eq!(desk.movers(), Ok(0x8000_0011));
    assert!(!desk.at_rest());
}
