//! Document 01's list of edges to try, and its list of shortcuts.

use crate::tools::{check_script, disabled, fresh, receive, send, steps};
use model::{Desk, Guard, Message, Outcome, Place, Refusal, Ticket};

#[test]
fn party_counts() {
    assert_eq!(Desk::new(0, 1), Err(Refusal::PartyCount));
    assert_eq!(Desk::new(1, 1), Err(Refusal::PartyCount));
    assert_eq!(Desk::new(33, 1), Err(Refusal::PartyCount));
    assert_eq!(Desk::new(usize::MAX, 1), Err(Refusal::PartyCount));
    for n in [2, 32] {
        let desk = fresh(n);
        assert_eq!((desk.n, desk.parties.len()), (n, n));
        assert_eq!(desk.next_ticket, Ticket(0));
        assert_eq!((desk.meetings, desk.withdrawn), (0, 0));
        for party in &desk.parties {
            assert_eq!(party.place, Place::Idle);
            assert!(party.guards.is_empty() && party.posted.is_empty());
            assert_eq!((party.wake_count, party.signal), (1, None));
            assert_eq!(party.ticket, Ticket(0));
        }
        assert!(desk.at_rest() && desk.open_offers().is_empty());
    }
}

#[test]
fn guard_counts() {
    for (count, answer) in [
        (0, Err(Refusal::GuardCount)),
        (1, Ok(Ticket(0))),
        (8, Ok(Ticket(0))),
        (9, Err(Refusal::GuardCount)),
        (1000, Err(Refusal::GuardCount)),
    ] {
        assert_eq!(fresh(2).offer(0, &vec![receive(1); count]), answer);
    }
    // The party comes before the count.
    let nine = [receive(1); 9];
    assert_eq!(fresh(2).offer(2, &nine), Err(Refusal::NoSuchParty));
}

#[test]
fn partners() {
    let mut desk = fresh(5);
    assert_eq!(desk.offer(0, &[receive(0)]), Err(Refusal::WrongPartner));
    assert_eq!(desk.offer(0, &[receive(5)]), Err(Refusal::WrongPartner));
    assert_eq!(desk.offer(0, &[receive(4)]), Ok(Ticket(0)));
    // Also while busy: 4 comes before 11.
    assert_eq!(desk.offer(0, &[receive(0)]), Err(Refusal::WrongPartner));
    assert_eq!(desk.offer(0, &[receive(4)]), Err(Refusal::NotIdle));
}

#[test]
fn special_readings() {
    let reading = |bits| send(1, Message::Reading(f32::from_bits(bits)));
    let offer = |bits| fresh(2).offer(0, &[reading(bits)]);
    assert_eq!(offer(0x7fc0_0000), Err(Refusal::NotANumber));
    assert_eq!(offer(0x7f80_0000), Ok(Ticket(0)));
}

/// The sender waits and the receiver commits; gives both collections.
fn receiver_commits(message: Message) -> (Outcome, Outcome) {
    let mut desk = fresh(2);
    desk.offer(0, &[send(1, message)]).unwrap();
    desk.offer(1, &[receive(0)]).unwrap();
    assert_eq!(steps(&mut desk, 0, 5), ["A0", "P", "O", "H", "W"]);
    assert_eq!(steps(&mut desk, 1, 4), ["A0", "T0", "C0", "M"]);
    assert_eq!(steps(&mut desk, 0, 1), ["M"]);
    (desk.collect(0).unwrap(), desk.collect(1).unwrap())
}

/// The receiver waits and the sender commits; gives both collections.
fn sender_commits(message: Message) -> (Outcome, Outcome) {
    let mut desk = fresh(2);
    desk.offer(1, &[receive(0)]).unwrap();
    assert_eq!(steps(&mut desk, 1, 5), ["A0", "P", "O", "H", "W"]);
    desk.offer(0, &[send(1, message)]).unwrap();
    assert_eq!(steps(&mut desk, 0, 4), ["A0", "T0", "C0", "M"]);
    assert_eq!(steps(&mut desk, 1, 1), ["M"]);
    (desk.collect(0).unwrap(), desk.collect(1).unwrap())
}

#[test]
fn messages_arrive_bit_for_bit() {
    let limit = |low, high| Message::Limit { low, high };
    for message in [
        Message::Nothing,
        Message::Whole(i32::MIN),
        Message::Whole(i32::MAX),
        Message::Reading(f32::from_bits(0x8000_0000)),
        Message::Reading(f32::INFINITY),
        Message::Reading(f32::from_bits(1)),
        limit(3.5, -3.5),
        // One third has no finite decimal, so a text in between would show.
        limit(1.0 / 3.0, f32::from_bits(0x8000_0000)),
    ] {
        // Party 0 sends and so holds nothing; party 1 has the message.
        let own = |partner, message| Outcome {
            index: 0,
            partner,
            message,
        };
        let expected = (own(1, Message::Nothing), own(0, message));
        assert_eq!(receiver_commits(message), expected);
        assert_eq!(sender_commits(message), expected);
    }
}

#[test]
fn only_disabled_guards() {
    let guards = [disabled(receive(1)), disabled(send(1, Message::Nothing))];
    assert_eq!(fresh(2).offer(0, &guards), Err(Refusal::NoneEnabled));
}

#[test]
fn second_offer_while_open() {
    let mut desk = fresh(2);
    desk.offer(0, &[receive(1)]).unwrap();
    // E, A, P, O, H and W are all busy, and so is M below in `refusals`.
    for _ in 0..6 {
        assert_eq!(desk.offer(0, &[receive(1)]), Err(Refusal::NotIdle));
        desk.step(0).unwrap();
    }
}

#[test]
fn collecting_at_waiting() {
    let mut desk = fresh(2);
    desk.offer(0, &[receive(1)]).unwrap();
    assert_eq!(steps(&mut desk, 0, 5), ["A0", "P", "O", "H", "W"]);
    assert_eq!(desk.collect(0), Err(Refusal::NotMet));
}

#[test]
fn last_ticket() {
    let mut desk = fresh(2);
    desk.next_ticket = Ticket(4_294_967_294);
    assert_eq!(desk.offer(0, &[receive(1)]), Ok(Ticket(4_294_967_294)));
    assert_eq!(desk.parties[0].ticket, Ticket(4_294_967_294));
    assert_eq!(desk.next_ticket, Ticket(4_294_967_295));
    assert_eq!(desk.offer(1, &[receive(0)]), Err(Refusal::TicketsUsedUp));
}

#[test]
fn two_scanning_parties() {
    let mut desk = fresh(2);
    desk.offer(0, &[receive(1)]).unwrap();
    desk.offer(1, &[receive(0)]).unwrap();
    assert_eq!(steps(&mut desk, 0, 1), ["A0"]);
    assert_eq!(steps(&mut desk, 1, 1), ["A0"]);
    assert_eq!(steps(&mut desk, 0, 1), ["="]);
    assert_eq!(steps(&mut desk, 1, 1), ["S"]);
    assert_eq!(steps(&mut desk, 0, 1), ["P"]);
}

#[test]
fn priority_goes_by_tickets_not_by_party_numbers() {
    let mut desk = fresh(2);
    // Party 1 is older here, so the answers of the test above are exchanged.
    desk.offer(1, &[receive(0)]).unwrap();
    desk.offer(0, &[receive(1)]).unwrap();
    assert_eq!(steps(&mut desk, 0, 1), ["A0"]);
    assert_eq!(steps(&mut desk, 1, 1), ["A0"]);
    assert_eq!(steps(&mut desk, 1, 1), ["="]);
    assert_eq!(steps(&mut desk, 0, 1), ["S"]);
}

#[test]
fn a_retry_keeps_its_ticket() {
    let mut desk = fresh(2);
    desk.offer(0, &[receive(1)]).unwrap();
    desk.offer(1, &[receive(0)]).unwrap();
    desk.step(0).unwrap();
    // While 0 stays at A, party 1 falls asleep again and again.
    assert_eq!(steps(&mut desk, 1, 5), ["A0", "S", "A0", "S", "A0"]);
    assert_eq!(desk.parties[1].ticket, Ticket(1));
    assert_eq!(desk.next_ticket, Ticket(2));
}

#[test]
fn opening_comes_before_showing() {
    let mut desk = fresh(2);
    desk.offer(0, &[receive(1)]).unwrap();
    assert_eq!(steps(&mut desk, 0, 3), ["A0", "P", "O"]);
    assert_eq!(desk.parties[0].wake_count, 1);
    assert_eq!(steps(&mut desk, 0, 1), ["H"]);
    // The wake count is 0 already while the word is still ALT.
    assert_eq!(desk.parties[0].wake_count, 0);
    assert_eq!(steps(&mut desk, 0, 1), ["W"]);
}

#[test]
fn the_marked_session() {
    let step = ("s 0", "s 1");
    check_script(&[
        ("n 2", "n 2"),
        ("o 0 1!r40970a3d", "o 0 t0"),
        ("o 1 0?", "o 1 t1"),
        (step.0, "s 0 A0"),
        (step.0, "s 0 P"),
        (step.0, "s 0 O"),
        (step.0, "s 0 H"),
        (step.0, "s 0 W"),
        (step.1, "s 1 A0"),
        (step.1, "s 1 T0"),
        (step.1, "s 1 C0"),
        (step.1, "s 1 M"),
        (step.0, "s 0 M"),
        ("c 1", "c 1 0 0 r40970a3d"),
        ("c 0", "c 0 0 1 0"),
        ("m", "m 00000000"),
    ]);
    assert_eq!(f32::from_bits(0x4097_0a3d), 4.72);
}

#[test]
fn the_posted_list_and_the_wake_count_are_tested_in_one_step() {
    // Two senders both reach T while party 0 waits; only one may commit.
    let mut desk = fresh(3);
    let offer: [Guard; 2] = [receive(1), receive(2)];
    desk.offer(0, &offer).unwrap();
    assert_eq!(steps(&mut desk, 0, 6), ["A0", "A1", "P", "O", "H", "W"]);
    desk.offer(1, &[send(0, Message::Whole(1))]).unwrap();
    desk.offer(2, &[send(0, Message::Whole(2))]).unwrap();
    assert_eq!(steps(&mut desk, 1, 2), ["A0", "T0"]);
    assert_eq!(steps(&mut desk, 2, 2), ["A0", "T0"]);
    assert_eq!(steps(&mut desk, 2, 1), ["C0"]);
    assert_eq!(steps(&mut desk, 1, 1), ["P"]);
    assert_eq!(steps(&mut desk, 2, 1), ["M"]);
    assert_eq!(steps(&mut desk, 0, 1), ["M"]);
    let message = Message::Whole(2);
    let expected = Outcome {
        index: 1,
        partner: 2,
        message,
    };
    assert_eq!(desk.collect(0), Ok(expected));
}
