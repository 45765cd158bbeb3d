//! Withdrawals: the answer at each place, what changes and what stays, and
//! stories in which the slot closes at an awkward moment.

use crate::tools::{check_script, fresh, indexed, receive, send};
use model::{Book, Call, Desk, Meeting, Message, Moment, Place, Refusal, Ticket, Told, Withdrawal};

const SEVEN: Message = Message::Whole(7);

type Answer = Result<Withdrawal, Refusal>;

/// Each place of party 1 below, with the answers at wake count 0 and 1.
fn table() -> [(Place, Answer, Answer); 11] {
    let (withdrawn, late) = (Ok(Withdrawal::Withdrawn), Ok(Withdrawal::TooLate));
    let refused = Err(Refusal::NothingOffered);
    [
        (Place::Idle, refused, refused),
        (Place::Entering, withdrawn, withdrawn),
        (Place::Scanning(1), withdrawn, withdrawn),
        (Place::Trying(0), withdrawn, withdrawn),
        (Place::Committed { own: 0, kept: 0 }, late, late),
        (Place::Posting, withdrawn, withdrawn),
        (Place::Opening, withdrawn, withdrawn),
        (Place::Showing, withdrawn, late),
        (Place::Asleep(0), withdrawn, withdrawn),
        (Place::Waiting, withdrawn, late),
        (Place::Met(indexed(1, SEVEN)), refused, refused),
    ]
}

/// Party 1 has something in every field, which a withdrawal might touch.
fn desk_with_party_1_at(place: Place, wake_count: u8) -> Desk {
    let mut desk = fresh(3);
    desk.next_ticket = Ticket(30);
    (desk.meetings, desk.withdrawn) = (8, 11);
    desk.parties[0].guards = vec![send(1, SEVEN)];
    desk.parties[0].posted = vec![send(1, SEVEN)];
    desk.parties[0].place = Place::Trying(0);
    let record = &mut desk.parties[1];
    record.guards = vec![receive(0), send(2, SEVEN)];
    record.ticket = Ticket(20);
    record.posted = vec![receive(0), receive(2), receive(0)];
    record.wake_count = wake_count;
    record.signal = Some(indexed(1, SEVEN));
    record.place = place;
    desk
}

/// Compares the answer and the whole desk given back.
fn check(desk: &Desk, answer: Answer) {
    let mut expected = desk.clone();
    if answer == Ok(Withdrawal::Withdrawn) {
        expected.parties[1].wake_count = 1;
        expected.parties[1].place = Place::Idle;
        expected.withdrawn = 12;
    }
    let mut after = desk.clone();
    assert_eq!(after.withdraw(1), answer, "{desk:?}");
    assert_eq!(after, expected);
}

#[test]
fn each_place_with_each_wake_count() {
    for (place, at_0, at_1) in table() {
        // A wake count that the documents do not have is not 0.
        for (wake_count, answer) in [(0, at_0), (1, at_1), (2, at_1), (255, at_1)] {
            let mut desk = desk_with_party_1_at(place, wake_count);
            check(&desk, answer);
            desk.parties[1].signal = None;
            check(&desk, answer);
        }
    }
}

#[test]
fn withdrawn_exactly_where_an_offer_was_open() {
    for (place, _, _) in table() {
        for wake_count in [0, 1, 2, 255] {
            let mut desk = desk_with_party_1_at(place, wake_count);
            let was_open = desk.parties[1].is_open();
            let withdrawn = desk.withdraw(1) == Ok(Withdrawal::Withdrawn);
            assert_eq!(withdrawn, was_open, "{place:?} {wake_count}");
            assert!(!desk.parties[1].is_open(), "it is open no more");
        }
    }
}

#[test]
fn a_withdrawn_offer_holds_nobody_up() {
    check_script(&[
        ("n 2", "n 2"),
        ("o 0 1?", "o 0 t0"),
        ("o 1 0!w7", "o 1 t1"),
        ("s 0", "s 0 A0"),
        ("s 1", "s 1 A0"),
        // Party 0 waits for the younger one at A.
        ("s 0", "s 0 ="),
        ("m", "m 00000002"),
        ("w 1", "w 1 ok"),
        ("m", "m 00000001"),
        ("s 0", "s 0 P"),
        // Asleep and entering offers are withdrawn too.
        ("o 1 0!w8", "o 1 t2"),
        ("s 1", "s 1 A0"),
        ("s 1", "s 1 S"),
        ("w 1", "w 1 ok"),
        ("o 1 0!w9", "o 1 t3"),
        ("w 1", "w 1 ok"),
        ("m", "m 00000001"),
    ]);
}

/// Party 1 waits for party 0, which is about to try it.
const ABOUT_TO_COMMIT: [(&str, &str); 10] = [
    ("n 3", "n 3"),
    ("o 1 0?", "o 1 t0"),
    ("s 1", "s 1 A0"),
    ("s 1", "s 1 P"),
    ("s 1", "s 1 O"),
    ("s 1", "s 1 H"),
    ("s 1", "s 1 W"),
    ("o 0 1!w7", "o 0 t1"),
    ("s 0", "s 0 A0"),
    ("s 0", "s 0 T0"),
];

fn check_story(pairs: &[(&str, &str)]) {
    check_script(&[&ABOUT_TO_COMMIT, pairs].concat());
}

#[test]
fn the_slot_closes_just_before_the_commit() {
    check_story(&[
        ("w 1", "w 1 ok"),
        ("m", "m 00000001"),
        // The wake count is 1 again, so rule 8 holds.
        ("s 0", "s 0 P"),
        ("s 0", "s 0 O"),
        ("s 0", "s 0 H"),
        ("s 0", "s 0 W"),
        ("s 0", "s 0 ="),
        ("s 1", "s 1 ="),
        ("m", "m 00000000"),
        ("w 1", "x 14"),
        ("c 1", "x 13"),
        ("w 0", "w 0 ok"),
        ("m", "m 00000000"),
    ]);
}

#[test]
fn the_slot_of_the_one_that_tries_closes_just_before_the_commit() {
    check_story(&[
        ("w 0", "w 0 ok"),
        ("s 0", "s 0 ="),
        ("m", "m 00000000"),
        // Party 1 still waits, and meets a later offer.
        ("o 0 1!w8", "o 0 t2"),
        ("s 0", "s 0 A0"),
        ("s 0", "s 0 T0"),
        ("s 0", "s 0 C0"),
        ("s 0", "s 0 M"),
        ("s 1", "s 1 M"),
        ("c 1", "c 1 0 0 w8"),
        ("c 0", "c 0 0 1 0"),
    ]);
}

#[test]
fn the_slot_closes_just_after_the_commit() {
    check_story(&[
        ("s 0", "s 0 C0"),
        ("w 1", "w 1 late"),
        ("w 0", "w 0 late"),
        ("s 0", "s 0 M"),
        // The signal is there, but not yet absorbed.
        ("w 1", "w 1 late"),
        ("w 0", "x 14"),
        ("s 1", "s 1 M"),
        ("w 1", "x 14"),
        ("c 1", "c 1 0 0 w7"),
        ("c 0", "c 0 0 1 0"),
        ("w 1", "x 14"),
        ("w 0", "x 14"),
        ("m", "m 00000000"),
    ]);
}

#[test]
fn a_new_offer_cannot_pass_the_one_that_tries_the_old_one() {
    check_story(&[
        ("w 1", "w 1 ok"),
        ("o 1 2? 0?", "o 1 t2"),
        ("s 1", "s 1 A0"),
        ("s 1", "s 1 A1"),
        // Party 0 at T is ALT and older.
        ("s 1", "s 1 S"),
        ("s 0", "s 0 P"),
        ("s 0", "s 0 O"),
        ("s 0", "s 0 H"),
        ("s 0", "s 0 W"),
        ("s 1", "s 1 A0"),
        ("s 1", "s 1 A1"),
        ("s 1", "s 1 T1"),
        ("s 1", "s 1 C1"),
        ("s 1", "s 1 M"),
        ("s 0", "s 0 M"),
        ("c 1", "c 1 1 0 w7"),
        ("c 0", "c 0 0 1 0"),
    ]);
}

#[test]
fn the_one_that_tries_finds_the_new_list_of_an_offer_to_another() {
    check_story(&[
        ("w 1", "w 1 ok"),
        ("o 1 2?", "o 1 t2"),
        ("s 1", "s 1 A0"),
        ("s 1", "s 1 P"),
        ("s 1", "s 1 O"),
        ("s 1", "s 1 H"),
        ("s 1", "s 1 W"),
        // The wake count is 0 again, but the list posted now names party 2.
        ("s 0", "s 0 P"),
        ("w 1", "w 1 ok"),
    ]);
}

/// Makes calls that are not refused, and gives the book that is fed them.
fn book_of(calls: &[Call]) -> Book {
    let (mut desk, mut book) = (fresh(2), Book::default());
    for call in calls {
        let answer = call.on(&mut desk);
        assert!(answer.is_ok(), "{call:?}");
        book.feed(call, Told::of(&answer)).expect("it is not stuck");
    }
    book
}

#[test]
fn no_ticket_stands_in_two_moments() {
    let offer = |party, guard| Call::Offer {
        party,
        guards: vec![guard],
    };
    let step = |party| Call::Step { party };
    let withdraw = |party| Call::Withdraw { party };
    let wait = [vec![offer(1, receive(0))], vec![step(1); 5]].concat();
    let commit = [vec![offer(0, send(1, SEVEN))], vec![step(0); 3]].concat();
    let too_late = vec![withdraw(0), withdraw(1)];
    let calls = [wait.clone(), vec![withdraw(1)], wait, commit, too_late].concat();
    let withdrew = Moment::Withdrew {
        party: 1,
        ticket: Ticket(0),
    };
    let met = Moment::Met(Meeting {
        p_ticket: Ticket(2),
        q_ticket: Ticket(1),
        p: 0,
        i: 0,
        q: 1,
        j: 0,
        message: SEVEN,
    });
    assert_eq!(book_of(&calls).moments(), [withdrew, met]);
}
