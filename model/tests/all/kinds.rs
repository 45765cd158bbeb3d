//! Kinds: what they part, what rule 7 and the book then keep, what stays open
//! at rest, and what does not look at them.

use crate::tools::{
    about_to_try, check_marked_session, check_scanning, check_script, disabled, enter_commit,
    enter_offer, fresh, indexed, of_kind, outcome, receive, send, steps,
};
use model::guard::{best_match, guards_match, lists_match};
use model::{by_value, Action, Book, Entry, Guard, Meeting, Message, Place, Stuck, Ticket};

/// The two sensors of a pier, with one number of each.
const TEMPERATURE: u8 = 1;
const STRAIN: u8 = 2;
const EIGHTEEN: Message = Message::Whole(18);
const FORTY: Message = Message::Whole(40);

/// Party 3 sends to party 7 and party 7 receives from 3, with these kinds.
fn kinds_match(sender: u8, receiver: u8) -> bool {
    let a = of_kind(sender, send(7, EIGHTEEN));
    let b = of_kind(receiver, receive(3));
    let answer = guards_match(3, &a, 7, &b);
    assert_eq!(guards_match(7, &b, 3, &a), answer);
    assert_eq!(lists_match(3, &[a], 7, &[b]), answer);
    assert_eq!(lists_match(7, &[b], 3, &[a]), answer);
    assert_eq!(kinds_match_by_value(sender, receiver), answer);
    answer
}

/// The same two guards for the desk by value.
fn kinds_match_by_value(sender: u8, receiver: u8) -> bool {
    let guard = |partner, kind, action| by_value::Guard {
        enabled: true,
        partner,
        kind,
        rank: 0,
        action,
    };
    let a = guard(7, sender, Action::Send(EIGHTEEN));
    let b = guard(3, receiver, Action::Receive);
    let answer = a.matches(3, &b, 7);
    assert_eq!(b.matches(7, &a, 3), answer);
    answer
}

#[test]
fn chosen_kinds() {
    for kind in [0, 1, 16, 127, 128, 254, 255] {
        assert!(kinds_match(kind, kind), "{kind}");
    }
    // Neighbours, the two ends, and pairs that agree in some of their bits.
    let unequal = [
        (0, 1),
        (7, 8),
        (127, 128),
        (254, 255),
        (0, 255),
        (1, 129),
        (16, 0),
        (15, 255),
        (0, 128),
        (85, 170),
    ];
    for (a, b) in unequal {
        assert!(!kinds_match(a, b), "{a} and {b}");
        assert!(!kinds_match(b, a), "{b} and {a}");
    }
}

#[test]
fn all_kinds() {
    for a in 0..=255 {
        for b in 0..=255 {
            assert_eq!(kinds_match(a, b), a == b, "{a} and {b}");
        }
    }
}

#[test]
fn equal_kinds_make_up_for_nothing_else() {
    let sender = of_kind(9, send(7, EIGHTEEN));
    let receiver = of_kind(9, receive(3));
    assert!(guards_match(3, &sender, 7, &receiver));
    assert!(!guards_match(3, &disabled(sender), 7, &receiver));
    assert!(!guards_match(3, &sender, 7, &disabled(receiver)));
    assert!(!guards_match(3, &sender, 7, &of_kind(9, receive(4))));
    assert!(!guards_match(4, &sender, 7, &receiver));
    assert!(!guards_match(3, &sender, 7, &of_kind(9, send(3, EIGHTEEN))));
    assert!(!guards_match(3, &of_kind(9, receive(7)), 7, &receiver));
}

/// A list of party 1. To party 0's guard of kind STRAIN, guard 0 is of another
/// kind, 1 is disabled and 2 is the first match.
fn senders() -> [Guard; 4] {
    [
        of_kind(TEMPERATURE, send(0, EIGHTEEN)),
        disabled(of_kind(STRAIN, send(0, EIGHTEEN))),
        of_kind(STRAIN, send(0, FORTY)),
        of_kind(STRAIN, send(0, EIGHTEEN)),
    ]
}

#[test]
fn the_search_passes_over_other_kinds() {
    let search = |kind| best_match(0, &of_kind(kind, receive(1)), &senders());
    assert_eq!(search(STRAIN), Some(2));
    assert_eq!(search(TEMPERATURE), Some(0));
    assert_eq!(search(0), None);
    assert_eq!(search(3), None);
}

#[test]
fn rule_7_keeps_the_first_guard_of_the_same_kind() {
    let mut desk = about_to_try(of_kind(STRAIN, receive(1)), &senders());
    assert_eq!(steps(&mut desk, 0, 1), ["C0"]);
    let kept = Place::Committed { own: 0, kept: 2 };
    assert_eq!(
        (desk.parties[0].place, desk.parties[1].wake_count),
        (kept, 1)
    );
    assert_eq!(steps(&mut desk, 0, 1), ["M"]);
    assert_eq!(desk.parties[0].place, Place::Met(indexed(0, FORTY)));
    let signal = Some(indexed(2, Message::Nothing));
    assert_eq!(desk.parties[1].signal, signal);
}

#[test]
fn rule_8_holds_if_every_kind_is_another() {
    let mut desk = about_to_try(of_kind(3, receive(1)), &senders());
    let mut expected = desk.clone();
    expected.parties[0].place = Place::Posting;
    assert_eq!(steps(&mut desk, 0, 1), ["P"]);
    assert_eq!(desk, expected);
}

#[test]
fn lists_keep_the_kinds_of_all_guards() {
    let guards = [
        disabled(of_kind(7, receive(1))),
        of_kind(255, send(1, EIGHTEEN)),
        disabled(receive(1)),
        disabled(of_kind(128, send(1, EIGHTEEN))),
    ];
    let kinds = |list: &[Guard]| -> Vec<u8> { list.iter().map(|guard| guard.kind).collect() };
    let mut desk = fresh(2);
    desk.offer(0, &guards).unwrap();
    assert_eq!(kinds(&desk.parties[0].guards), [7, 255, 0, 128]);
    assert_eq!(steps(&mut desk, 0, 3), ["A1", "P", "O"]);
    assert_eq!(kinds(&desk.parties[0].posted), [7, 255, 0, 128]);
    assert_eq!(kinds(&desk.open_offers()[0].guards), [7, 255, 0, 128]);
}

/// Forty goes over: the second offer commits to the first. Each party with the
/// index of its guard.
fn forty_meets([p, i]: [usize; 2], [q, j]: [usize; 2]) -> Result<Entry, Stuck> {
    Ok(Entry::Met(Meeting {
        p_ticket: Ticket(1),
        q_ticket: Ticket(0),
        p,
        i,
        q,
        j,
        message: FORTY,
    }))
}

#[test]
fn the_book_keeps_the_first_guard_of_the_same_kind() {
    let mut book = Book::default();
    enter_offer(&mut book, 1, &senders());
    enter_offer(&mut book, 0, &[of_kind(STRAIN, receive(1))]);
    assert_eq!(enter_commit(&mut book, 0, 0), forty_meets([0, 0], [1, 2]));
    assert_eq!(book.due(0), Some(outcome(0, 1, FORTY)));
    assert_eq!(book.due(1), Some(outcome(2, 0, Message::Nothing)));
}

#[test]
fn the_book_goes_by_kinds_when_the_sender_commits() {
    let mut book = Book::default();
    let receivers = [TEMPERATURE, STRAIN].map(|kind| of_kind(kind, receive(1)));
    enter_offer(&mut book, 0, &receivers);
    enter_offer(&mut book, 1, &senders());
    assert_eq!(enter_commit(&mut book, 1, 2), forty_meets([1, 2], [0, 1]));
    assert_eq!(book.due(0), Some(outcome(1, 1, FORTY)));
    assert_eq!(book.due(1), Some(outcome(2, 0, Message::Nothing)));
}

#[test]
fn the_book_is_stuck_if_every_kind_is_another() {
    let mut book = Book::default();
    enter_offer(&mut book, 1, &senders());
    enter_offer(&mut book, 0, &[of_kind(3, receive(1))]);
    let stuck = |party, index| Err(Stuck::NoMatch { party, index });
    assert_eq!(enter_commit(&mut book, 0, 0), stuck(0, 0));
    assert_eq!(enter_commit(&mut book, 1, 2), stuck(1, 2));
    assert_eq!(book.open_offers().len(), 2);
}

#[test]
fn two_offers_that_differ_in_kind_alone_stay_open_at_rest() {
    let posted = [of_kind(STRAIN, send(0, FORTY))];
    let mut desk = about_to_try(of_kind(TEMPERATURE, receive(1)), &posted);
    assert_eq!(steps(&mut desk, 0, 5), ["P", "O", "H", "W", "="]);
    assert!(desk.at_rest());
    let mut open = desk.open_offers();
    assert_eq!(open.len(), 2);
    assert!(!open[0].matches(&open[1]) && !open[1].matches(&open[0]));
    // With the same kind they would match.
    open[0].guards[0].kind = STRAIN;
    assert!(open[0].matches(&open[1]) && open[1].matches(&open[0]));
}

#[test]
fn an_offer_withdrawn_and_made_again_with_the_right_kind_meets() {
    check_script(&[
        ("n 2", "n 2"),
        ("o 0 1!w18:1", "o 0 t0"),
        ("s 0", "s 0 A0"),
        ("s 0", "s 0 P"),
        ("s 0", "s 0 O"),
        ("s 0", "s 0 H"),
        ("s 0", "s 0 W"),
        ("o 1 0?:2", "o 1 t1"),
        ("s 1", "s 1 A0"),
        ("s 1", "s 1 T0"),
        ("s 1", "s 1 P"),
        ("s 1", "s 1 O"),
        ("s 1", "s 1 H"),
        ("s 1", "s 1 W"),
        ("m", "m 00000000"),
        ("c 0", "x 13"),
        ("w 1", "w 1 ok"),
        ("o 1 0?:1", "o 1 t2"),
        ("s 1", "s 1 A0"),
        ("s 1", "s 1 T0"),
        ("s 1", "s 1 C0"),
        ("s 1", "s 1 M"),
        ("s 0", "s 0 M"),
        // A collection shows the message as before, without a kind.
        ("c 1", "c 1 0 0 w18"),
        ("c 0", "c 0 0 1 0"),
    ]);
}

#[test]
fn a_waiting_sender_of_two_kinds_gives_the_one_asked_for() {
    check_script(&[
        ("n 2", "n 2"),
        ("o 0 1!w18:1 1!w40:2", "o 0 t0"),
        ("s 0", "s 0 A0"),
        ("s 0", "s 0 A1"),
        ("s 0", "s 0 P"),
        ("s 0", "s 0 O"),
        ("s 0", "s 0 H"),
        ("s 0", "s 0 W"),
        ("o 1 0?:2", "o 1 t1"),
        ("s 1", "s 1 A0"),
        ("s 1", "s 1 T0"),
        ("s 1", "s 1 C0"),
        ("s 1", "s 1 M"),
        ("s 0", "s 0 M"),
        ("c 1", "c 1 0 0 w40"),
        ("c 0", "c 0 1 1 0"),
        ("m", "m 00000000"),
    ]);
}

#[test]
fn a_trying_sender_of_two_kinds_goes_on_to_the_one_asked_for() {
    check_script(&[
        ("n 2", "n 2"),
        ("o 1 -0?:1 0?:3 0?:2", "o 1 t0"),
        ("s 1", "s 1 A1"),
        ("s 1", "s 1 A2"),
        ("s 1", "s 1 P"),
        ("s 1", "s 1 O"),
        ("s 1", "s 1 H"),
        ("s 1", "s 1 W"),
        ("o 0 1!w18:1 1!w40:2", "o 0 t1"),
        ("s 0", "s 0 A0"),
        ("s 0", "s 0 T0"),
        ("s 0", "s 0 A1"),
        ("s 0", "s 0 T1"),
        ("s 0", "s 0 C1"),
        ("s 0", "s 0 M"),
        ("s 1", "s 1 M"),
        ("c 0", "c 0 1 1 0"),
        ("c 1", "c 1 2 0 w40"),
    ]);
}

#[test]
fn a_kind_left_out_is_0() {
    for sender in ["1!r40970a3d", "1!r40970a3d:0"] {
        for receiver in ["0?", "0?:0"] {
            check_marked_session(sender, receiver);
        }
    }
    check_marked_session("1!r40970a3d:255", "0?:255");
}

/// Party 0 waits with one guard, party 1 tries it with one guard and gives
/// this answer.
fn check_try(waits: &str, tries: &str, answer: &str) {
    check_script(&[
        ("n 2", "n 2"),
        (&format!("o 0 {waits}"), "o 0 t0"),
        ("s 0", "s 0 A0"),
        ("s 0", "s 0 P"),
        ("s 0", "s 0 O"),
        ("s 0", "s 0 H"),
        ("s 0", "s 0 W"),
        (&format!("o 1 {tries}"), "o 1 t1"),
        ("s 1", "s 1 A0"),
        ("s 1", "s 1 T0"),
        ("s 1", &format!("s 1 {answer}")),
    ]);
}

#[test]
fn every_kind_is_read_as_written() {
    for kind in 0..=255u8 {
        let tries = format!("0?:{kind}");
        check_try(&format!("1!w-5:{kind}"), &tries, "C0");
        for other in [kind ^ 1, kind ^ 128, !kind] {
            check_try(&format!("1!w-5:{other}"), &tries, "P");
        }
    }
    check_try("1?", "0!l40970a3dc0970a3d:1", "P");
    check_try("1?:1", "0!0", "P");
    check_try("1?:1", "0!0:1", "C0");
}

#[test]
fn scanning_does_not_look_at_kinds() {
    // The two cannot meet, and yet one keeps the other waiting.
    check_scanning("1!0:1", "0?:2");
}

#[test]
fn no_refusal_goes_by_kinds() {
    check_script(&[
        ("n 2", "n 2"),
        ("o 2 1?:1", "x 2"),
        ("o 0 1?:1 1?:2 1?:3 1?:4 1?:5 1?:6 1?:7 1?:8 1?:9", "x 3"),
        ("o 0 0?:1", "x 4"),
        ("o 0 1?:1 -2?:255", "x 4"),
        ("o 0 1!r7fc00000:1", "x 5"),
        ("o 0 1? -1!r7fc00000:255", "x 5"),
        ("o 0 -1?:1 -1!0:255", "x 6"),
        ("o 0 1?:1 1?:1 1?:2 1?:3 1?:4 1?:5 1?:6 1?:255", "o 0 t0"),
        ("o 0 1?:1", "x 11"),
    ]);
}
