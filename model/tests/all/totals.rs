//! The desk's counts of meetings and withdrawals, and what refusal 7 says of
//! them. Both models make every call here.

use crate::by_value::{
    check_out_of_form, compare_collect, compare_each, compare_movers, compare_offer, compare_step,
    compare_withdraw,
};
use crate::draw::Draw;
use crate::runs::random_call;
use crate::tools::{
    about_to_try, fresh, indexed, places_with_open, receive, send, steps, total,
    with_tickets_given, Xorshift,
};
use model::{Call, Desk, Given, Guard, Message, Party, Place, Refusal, Ticket, Withdrawal};

const SEVEN: Message = Message::Whole(7);

/// A desk of two idle parties.
fn idle(next: u32, meetings: u64, withdrawn: u64) -> Desk {
    let mut desk = with_tickets_given(next, fresh(2));
    (desk.meetings, desk.withdrawn) = (meetings, withdrawn);
    desk
}

fn check_form(desk: &Desk, in_form: bool) {
    if !in_form {
        return check_out_of_form(desk);
    }
    assert!(desk.movers().is_ok(), "{desk:?}");
    for party in [0, 1, 2, 255] {
        compare_each(desk, party);
    }
}

/// Makes a call on both models.
fn call_both(desk: &mut Desk, call: &Call) {
    let small = |party: &usize| u8::try_from(*party).expect("a party is a byte");
    match call {
        Call::Offer { party, guards } => compare_offer(desk, small(party), guards),
        Call::Step { party } => compare_step(desk, small(party)),
        Call::Collect { party } => compare_collect(desk, small(party)),
        Call::Withdraw { party } => compare_withdraw(desk, small(party)),
        Call::Movers => compare_movers(desk),
    }
}

#[test]
fn the_sum_is_held_against_the_next_ticket() {
    for next in 0..16 {
        for meetings in 0..6 {
            for withdrawn in 0..6 {
                let desk = idle(next, meetings, withdrawn);
                let sum = 2 * meetings + withdrawn;
                check_form(&desk, sum <= u64::from(next));
            }
        }
    }
}

#[test]
fn the_sum_at_the_last_ticket() {
    let (most, half) = (u64::from(u32::MAX), 1 << 31);
    for (meetings, withdrawn) in [(half - 1, 1), (0, most), (1, most - 2), (5, most - 10)] {
        let desk = idle(u32::MAX, meetings, withdrawn);
        assert_eq!(total(&desk), u128::from(most));
        check_form(&desk, true);
        // One below is in form, one above is not.
        check_form(&idle(u32::MAX, meetings, withdrawn - 1), true);
        check_form(&idle(u32::MAX, meetings, withdrawn + 1), false);
        check_form(&idle(u32::MAX, meetings + 1, withdrawn), false);
        check_form(&idle(u32::MAX - 1, meetings, withdrawn), false);
    }
    check_form(&idle(u32::MAX, half - 1, 0), true);
    // The sum is 2^32, of which 32 bits would leave 0.
    check_form(&idle(u32::MAX, half, 0), false);
    check_form(&idle(u32::MAX, 0, most + 1), false);
    check_form(&idle(u32::MAX, 2 * half, 0), false);
}

#[test]
fn the_sum_does_not_wrap() {
    let (top, most) = (1 << 63, u64::MAX);
    let counters = [
        (top, 0), // 2^64, of which 64 bits would leave 0; so for those marked.
        (top, 1),
        (top - 1, 0),
        (top - 1, 1),
        (top - 1, 2), // 0 would be left.
        (top - 1, 3),
        (top + 1, 0),
        (top / 2, top), // 0 would be left.
        (most, 0),
        (most, 1),
        (most, 2), // 0 would be left.
        (most, most),
        (top, most),
        (0, most),
        (1, most),
        (1, most - 1), // 0 would be left.
        (0, top),
    ];
    for (meetings, withdrawn) in counters {
        for next in [0, 1, 2, 40, u32::MAX - 1, u32::MAX] {
            check_form(&idle(next, meetings, withdrawn), false);
        }
    }
}

#[test]
fn the_sum_with_open_offers_does_not_wrap() {
    // 64 bits would leave 0 with one open offer, and 1 with two.
    for (meetings, withdrawn) in [(0, u64::MAX), ((1 << 63) - 1, 1), (u64::MAX, 1)] {
        for next in [0, 1, 2, u32::MAX] {
            let mut desk = idle(next, meetings, withdrawn);
            for party in [0, 1] {
                desk.parties[party].place = Place::Entering;
                check_form(&desk, false);
            }
        }
    }
}

/// Party 1 stands at a place, and party 0 is idle.
fn desk_with_party_1_at(place: Place, wake_count: u8) -> Desk {
    let mut desk = fresh(2);
    desk.parties[0].posted = vec![send(1, SEVEN)];
    desk.parties[1].guards = vec![receive(0)];
    desk.parties[1].wake_count = wake_count;
    desk.parties[1].place = place;
    desk
}

#[test]
fn open_goes_by_place_and_wake_count() {
    for (place, at_0, at_1) in places_with_open() {
        for (wake_count, open) in [(0, at_0), (1, at_1), (2, at_1), (255, at_1)] {
            let mut desk = desk_with_party_1_at(place, wake_count);
            for (meetings, withdrawn) in [(0, 0), (0, 1), (1, 0), (3, 4)] {
                (desk.meetings, desk.withdrawn) = (meetings, withdrawn);
                let sum = 2 * meetings + withdrawn + u64::from(open);
                // One below, the same, and one above.
                for next in sum.saturating_sub(1)..=sum + 1 {
                    desk.next_ticket = Ticket(next as u32);
                    check_form(&desk, sum <= next);
                }
            }
        }
    }
}

#[test]
fn every_party_below_n_may_be_open_and_no_other_record() {
    let mut desk = with_tickets_given(32, fresh(32));
    for party in &mut desk.parties {
        party.place = Place::Posting;
    }
    check_form(&desk, true);
    check_form(&with_tickets_given(31, desk.clone()), false);
    desk.n = 31;
    check_form(&with_tickets_given(31, desk.clone()), true);
    check_form(&with_tickets_given(30, desk.clone()), false);
    for party in [0, 1, 15, 31] {
        let mut desk = fresh(32);
        desk.parties[party].place = Place::Opening;
        check_form(&desk, false);
        check_form(&with_tickets_given(1, desk), true);
    }
    let mut desk = fresh(2);
    desk.parties.push(Party::fresh());
    desk.parties[2].place = Place::Entering;
    check_form(&desk, true);
}

/// Makes the calls on both models; after each, the desk has counted so many
/// meetings and withdrawals.
fn check_counts(desk: &mut Desk, calls: &[(Call, (u64, u64))]) {
    for (call, counts) in calls {
        call_both(desk, call);
        let counted = (desk.meetings, desk.withdrawn);
        assert_eq!(counted, *counts, "after {call:?}");
        assert_eq!(total(desk), u128::from(desk.next_ticket.0));
    }
}

fn offer(party: usize, guard: Guard) -> Call {
    let guards = vec![guard];
    Call::Offer { party, guards }
}

#[test]
fn the_commit_counts_and_nothing_else_of_a_meeting() {
    let mut desk = about_to_try(receive(1), &[send(0, SEVEN)]);
    let step = |party| Call::Step { party };
    let withdraw = |party| Call::Withdraw { party };
    let collect = |party| Call::Collect { party };
    let once = (1, 0);
    // A number alone is that of the refusal.
    let calls = [
        (Call::Movers, (0, 0)),
        (offer(1, receive(0)), (0, 0)), // 11
        (collect(1), (0, 0)),           // 13
        (step(1), (0, 0)),              // Nothing changes at W.
        (step(2), (0, 0)),              // 2
        (step(0), once),                // C
        (withdraw(0), once),            // Too late, like the next two.
        (withdraw(1), once),
        (step(1), once),
        (step(0), once), // M, by rule 9
        (withdraw(1), once),
        (withdraw(0), once), // 14
        (step(0), once),
        (step(1), once), // M, by rule 13
        (collect(1), once),
        (collect(0), once),
        (withdraw(1), once), // 14
        (offer(0, receive(1)), once),
        (withdraw(0), (1, 1)),
        (withdraw(0), (1, 1)),          // 14
        (withdraw(2), (1, 1)),          // 2
        (offer(0, receive(0)), (1, 1)), // 4
        (offer(1, receive(0)), (1, 1)),
        (withdraw(1), (1, 2)),
    ];
    check_counts(&mut desk, &calls);
}

#[test]
fn a_withdrawal_counts_from_every_place_on_the_way_to_waiting() {
    let mut desk = fresh(2);
    for made in 0..=6 {
        desk.offer(0, &[receive(1)]).unwrap();
        let places = ["A0", "P", "O", "H", "W", "="];
        assert_eq!(steps(&mut desk, 0, made), places[..made]);
        let withdrawn = made as u64 + 1;
        check_counts(&mut desk, &[(Call::Withdraw { party: 0 }, (0, withdrawn))]);
    }
}

#[test]
fn an_offer_tried_in_vain_counts_for_nothing() {
    // Both send, so rule 8 holds and both wait.
    let mut desk = about_to_try(send(1, SEVEN), &[send(0, SEVEN)]);
    let calls = vec![(Call::Step { party: 0 }, (0, 0)); 6];
    check_counts(&mut desk, &calls);
    assert_eq!(desk.open_count(), 2);
}

#[test]
fn counters_go_on_along_one_desk() {
    let mut desk = fresh(3);
    for round in 0..50 {
        desk.offer(1, &[send(0, SEVEN)]).unwrap();
        assert_eq!(steps(&mut desk, 1, 5), ["A0", "P", "O", "H", "W"]);
        desk.offer(0, &[receive(1)]).unwrap();
        assert_eq!(steps(&mut desk, 0, 4), ["A0", "T0", "C0", "M"]);
        assert_eq!(steps(&mut desk, 1, 1), ["M"]);
        desk.collect(0).unwrap();
        desk.collect(1).unwrap();
        for _ in 0..3 {
            desk.offer(2, &[receive(1)]).unwrap();
            let withdrawn = desk.withdraw(2);
            assert_eq!(withdrawn, Ok(Withdrawal::Withdrawn));
        }
        let counted = (desk.meetings, desk.withdrawn);
        assert_eq!(counted, (round + 1, 3 * (round + 1)));
        assert_eq!(desk.next_ticket.0, 5 * (round as u32 + 1));
        check_form(&desk, true);
    }
}

#[test]
fn the_last_offers_count() {
    // The last two tickets are given. Of the offers before, one was withdrawn
    // and the others have met.
    let mut desk = about_to_try(receive(1), &[send(0, SEVEN)]);
    desk.next_ticket = Ticket(u32::MAX);
    desk.meetings = (1 << 31) - 2;
    desk.withdrawn = 1;
    let mut met = desk.clone();
    compare_step(&mut met, 0);
    assert_eq!((met.meetings, met.withdrawn), ((1 << 31) - 1, 1));
    check_form(&met, true);
    compare_withdraw(&mut desk, 0);
    compare_withdraw(&mut desk, 1);
    assert_eq!((desk.meetings, desk.withdrawn), ((1 << 31) - 2, 3));
    check_form(&desk, true);
}

/// Party 0 tries party 1, which has wake count 0 and a matching posted list and
/// stands at this place. The next ticket is so much above the sum.
fn damaged(place: Place, spare: u32) -> Desk {
    let mut desk = desk_with_party_1_at(place, 0);
    desk.parties[0].guards = vec![send(1, SEVEN)];
    desk.parties[0].place = Place::Trying(0);
    desk.parties[1].posted = vec![receive(0)];
    (desk.meetings, desk.withdrawn) = (4, 3);
    let sum = total(&desk) as u32;
    with_tickets_given(sum + spare, desk)
}

#[test]
fn a_commit_may_leave_a_damaged_desk_out_of_form() {
    for (place, _, _) in places_with_open() {
        // At H and W both offers close; elsewhere the commit closes only the
        // own one, and counts two.
        let closes_both = matches!(place, Place::Showing | Place::Waiting);
        for spare in [0, 1, 2] {
            let mut desk = damaged(place, spare);
            assert_eq!(desk.movers().map(|set| set & 1), Ok(1));
            compare_movers(&desk);
            let mut expected = desk.clone();
            expected.parties[0].place = Place::Committed { own: 0, kept: 0 };
            expected.parties[1].wake_count = 1;
            expected.meetings = 5;
            compare_step(&mut desk, 0);
            assert_eq!(desk, expected, "{place:?}");
            check_form(&desk, closes_both || spare > 0);
        }
    }
}

#[test]
fn an_open_offer_that_absorbs_a_signal_counts_for_nothing() {
    // Only a damaged desk has a signal at W with wake count 0. The sum falls.
    let mut desk = with_tickets_given(1, desk_with_party_1_at(Place::Waiting, 0));
    desk.parties[1].signal = Some(indexed(0, SEVEN));
    check_form(&desk, true);
    compare_step(&mut desk, 1);
    assert_eq!(desk.parties[1].place, Place::Met(indexed(0, SEVEN)));
    assert_eq!((desk.meetings, desk.withdrawn, total(&desk)), (0, 0, 0));
    check_form(&desk, true);
}

#[test]
fn a_desk_below_its_next_ticket_stays_as_far_below() {
    let mut random = Xorshift::new(0x6666_5678_9abc_def1);
    let (mut meetings, mut withdrawn) = (0, 0);
    for gap in [1, 2, 3, 1000] {
        let mut desk = with_tickets_given(gap + 7, fresh(3));
        (desk.meetings, desk.withdrawn) = (2, 3);
        for _ in 0..2000 {
            call_both(&mut desk, &random_call(&mut random, 3));
            let next = u128::from(desk.next_ticket.0);
            assert_eq!(total(&desk) + u128::from(gap), next);
        }
        meetings += desk.meetings - 2;
        withdrawn += desk.withdrawn - 3;
    }
    // The runs are not empty.
    assert!(meetings > 20 && withdrawn > 100, "{meetings} {withdrawn}");
}

/// Makes one call on a copy of a desk in form. The counters grow by the answer
/// alone, and only a commit may leave the sum above the next ticket. Gives
/// whether one did.
fn check_answer(desk: &Desk, call: &Call) -> bool {
    let mut after = desk.clone();
    let answer = call.on(&mut after);
    assert_ne!(answer, Err(Refusal::OutOfForm));
    let committed = matches!(answer, Ok(Given::Place(Some(place))) if place.letter == 'C');
    let withdrawn = answer == Ok(Given::Withdrawal(Withdrawal::Withdrawn));
    let offered = matches!(answer, Ok(Given::Ticket(_)));
    assert_eq!(after.meetings, desk.meetings + u64::from(committed));
    assert_eq!(after.withdrawn, desk.withdrawn + u64::from(withdrawn));
    let next = desk.next_ticket.0 + u32::from(offered);
    assert_eq!(after.next_ticket, Ticket(next));
    let is_above = total(&after) > u128::from(next);
    assert!(committed || !is_above, "{call:?} on {desk:?}");
    is_above
}

#[test]
fn random_desks_count_by_their_answers() {
    let mut draw = Draw::new(0x7777_5678_9abc_def1, 0);
    let mut above = 0;
    for _ in 0..2000 {
        let desk = draw.desk();
        for party in 0..desk.n {
            let guards = draw.list(party, desk.n);
            for call in [
                Call::Offer { party, guards },
                Call::Step { party },
                Call::Collect { party },
                Call::Withdraw { party },
            ] {
                above += usize::from(check_answer(&desk, &call));
            }
        }
    }
    assert!(above > 0);
}
