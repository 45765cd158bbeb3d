//! The plain book by itself, with stories written by hand.

use crate::tools::{disabled, receive, send};
use model::{
    Answer, Book, Call, Entry, Given, Guard, Meeting, Message, Moment, Outcome, Refusal, Stuck,
    Ticket, Told, Withdrawal,
};

const NINE: Message = Message::Whole(9);

fn offer(book: &mut Book, party: usize, guards: &[Guard]) -> Result<Entry, Stuck> {
    let guards = guards.to_vec();
    book.feed(&Call::Offer { party, guards }, Told::Accepted)
}

fn step(book: &mut Book, party: usize, letter: char, index: Option<usize>) -> Result<Entry, Stuck> {
    let said = Told::Place(Answer { letter, index });
    book.feed(&Call::Step { party }, said)
}

fn collect(book: &mut Book, party: usize) -> Result<Entry, Stuck> {
    book.feed(&Call::Collect { party }, Told::Accepted)
}

fn withdraw(book: &mut Book, party: usize, told: Told) -> Result<Entry, Stuck> {
    book.feed(&Call::Withdraw { party }, told)
}

/// Party 3 sends to 5 with its guard 1; party 5 receives with its guard 2.
fn opened() -> Book {
    let mut book = Book::default();
    let sender = [receive(4), send(5, NINE)];
    let receiver = [disabled(receive(3)), send(3, NINE), receive(3), receive(3)];
    assert_eq!(offer(&mut book, 3, &sender), Ok(Entry::Opened(Ticket(0))));
    assert_eq!(offer(&mut book, 5, &receiver), Ok(Entry::Opened(Ticket(1))));
    book
}

fn check_meeting(mut book: Book, meeting: Meeting, due_3: Outcome, due_5: Outcome) {
    let entry = step(&mut book, meeting.p, 'C', Some(meeting.i));
    assert_eq!(entry, Ok(Entry::Met(meeting)));
    assert_eq!(book.moments(), [Moment::Met(meeting)]);
    assert!(book.open_offers().is_empty());
    assert_eq!((book.due(3), book.due(5)), (Some(due_3), Some(due_5)));
    // Offering with an outcome due is not foreseen.
    assert_eq!(
        offer(&mut book, 3, &[receive(5)]),
        Err(Stuck::OfferWhileDue { party: 3 })
    );
    assert_eq!(collect(&mut book, 5), Ok(Entry::Given(due_5)));
    assert_eq!(collect(&mut book, 5), Err(Stuck::NothingDue { party: 5 }));
    assert_eq!(collect(&mut book, 3), Ok(Entry::Given(due_3)));
    assert_eq!(
        offer(&mut book, 3, &[receive(5)]),
        Ok(Entry::Opened(Ticket(2)))
    );
}

/// The sender has nothing due for a message, whoever commits.
fn due() -> (Outcome, Outcome) {
    let sender = Outcome {
        index: 1,
        partner: 5,
        message: Message::Nothing,
    };
    let receiver = Outcome {
        index: 2,
        partner: 3,
        message: NINE,
    };
    (sender, receiver)
}

#[test]
fn the_sender_commits() {
    let (p_ticket, q_ticket) = (Ticket(0), Ticket(1));
    let meeting = Meeting {
        p_ticket,
        q_ticket,
        p: 3,
        i: 1,
        q: 5,
        j: 2,
        message: NINE,
    };
    check_meeting(opened(), meeting, due().0, due().1);
}

#[test]
fn the_receiver_commits() {
    let (p_ticket, q_ticket) = (Ticket(1), Ticket(0));
    let meeting = Meeting {
        p_ticket,
        q_ticket,
        p: 5,
        i: 2,
        q: 3,
        j: 1,
        message: NINE,
    };
    check_meeting(opened(), meeting, due().0, due().1);
}

#[test]
fn other_steps_and_refused_calls_change_nothing() {
    let mut book = opened();
    let before = format!("{book:?}");
    for letter in ['A', 'T'] {
        assert_eq!(step(&mut book, 3, letter, Some(1)), Ok(Entry::Unchanged));
    }
    for letter in ['P', 'O', 'H', 'W', 'S', 'M'] {
        assert_eq!(step(&mut book, 3, letter, None), Ok(Entry::Unchanged));
    }
    let still = book.feed(&Call::Step { party: 3 }, Told::Accepted);
    assert_eq!(still, Ok(Entry::Unchanged));
    let movers = book.feed(&Call::Movers, Told::Accepted);
    assert_eq!(movers, Ok(Entry::Unchanged));
    // Party 3's offer is open, but the withdrawal came too late.
    let late = withdraw(&mut book, 3, Told::Accepted);
    assert_eq!(late, Ok(Entry::Unchanged));
    for call in [
        Call::Offer {
            party: 9,
            guards: vec![receive(1)],
        },
        Call::Step { party: 3 },
        Call::Collect { party: 3 },
        Call::Withdraw { party: 3 },
        Call::Movers,
    ] {
        assert_eq!(book.feed(&call, Told::Refused), Ok(Entry::Unchanged));
    }
    assert_eq!(format!("{book:?}"), before);
}

#[test]
fn the_book_is_stuck_where_something_lacks() {
    let mut book = opened();
    let before = format!("{book:?}");
    let stuck = |party, index| Stuck::NoMatch { party, index };
    assert_eq!(
        offer(&mut book, 3, &[receive(5)]),
        Err(Stuck::OfferWhileOpen { party: 3 })
    );
    assert_eq!(collect(&mut book, 3), Err(Stuck::NothingDue { party: 3 }));
    // Party 4 has no offer, and neither has it for guard 0 of party 3.
    assert_eq!(
        step(&mut book, 4, 'C', Some(0)),
        Err(Stuck::NotOpen { party: 4 })
    );
    assert_eq!(
        step(&mut book, 3, 'C', Some(0)),
        Err(Stuck::NotOpen { party: 4 })
    );
    assert_eq!(
        step(&mut book, 3, 'C', Some(2)),
        Err(Stuck::NoGuard { party: 3, index: 2 })
    );
    // Guard 0 of party 5 is disabled; guard 1 sends, as 3's only guard to 5.
    assert_eq!(step(&mut book, 5, 'C', Some(0)), Err(stuck(5, 0)));
    assert_eq!(step(&mut book, 5, 'C', Some(1)), Err(stuck(5, 1)));
    let unnamed = step(&mut book, 5, 'C', None);
    assert_eq!(unnamed, Err(Stuck::CommitWithoutIndex { party: 5 }));
    let withdrawn = withdraw(&mut book, 4, Told::Withdrawn);
    assert_eq!(withdrawn, Err(Stuck::NothingToWithdraw { party: 4 }));
    assert_eq!(format!("{book:?}"), before);
    assert!(stuck(5, 1).to_string().contains("guard 1 of party 5"));
}

#[test]
fn a_withdrawn_offer_is_closed_and_leaves_a_moment() {
    let mut book = opened();
    let withdrew = Moment::Withdrew {
        party: 3,
        ticket: Ticket(0),
    };
    let entry = withdraw(&mut book, 3, Told::Withdrawn);
    assert_eq!(entry, Ok(Entry::Withdrew(Ticket(0))));
    assert_eq!(book.moments(), [withdrew]);
    assert_eq!(book.meetings().count(), 0);
    assert_eq!((book.due(3), book.due(5)), (None, None));
    let open: Vec<usize> = book.open_offers().iter().map(|o| o.party).collect();
    assert_eq!(open, [5]);
    // No one else can meet that offer, and it cannot be withdrawn again.
    let before = format!("{book:?}");
    let commit = step(&mut book, 5, 'C', Some(2));
    assert_eq!(commit, Err(Stuck::NotOpen { party: 3 }));
    let again = withdraw(&mut book, 3, Told::Withdrawn);
    assert_eq!(again, Err(Stuck::NothingToWithdraw { party: 3 }));
    assert_eq!(format!("{book:?}"), before);
}

#[test]
fn an_offer_after_a_withdrawal_has_a_ticket_and_a_moment_of_its_own() {
    let mut book = opened();
    withdraw(&mut book, 3, Told::Withdrawn).unwrap();
    let entry = offer(&mut book, 3, &[send(5, NINE)]);
    assert_eq!(entry, Ok(Entry::Opened(Ticket(2))));
    step(&mut book, 3, 'C', Some(0)).unwrap();
    // The tickets of each moment, in the order of the moments.
    let tickets: Vec<Vec<Ticket>> = book.moments().iter().map(Moment::tickets).collect();
    assert_eq!(tickets, [vec![Ticket(0)], vec![Ticket(2), Ticket(1)]]);
    let met: Vec<usize> = book.meetings().map(|meeting| meeting.p).collect();
    assert_eq!(met, [3]);
    // Both have met: what is due is no open offer.
    for party in [3, 5] {
        let withdrawn = withdraw(&mut book, party, Told::Withdrawn);
        assert_eq!(withdrawn, Err(Stuck::NothingToWithdraw { party }));
        assert!(book.due(party).is_some());
    }
}

#[test]
fn the_book_is_told_no_more_than_it_may_see() {
    let place = Answer {
        letter: 'A',
        index: Some(0),
    };
    let outcome = due().1;
    let table = [
        (Err(Refusal::NotMet), Told::Refused),
        (Ok(Given::Ticket(Ticket(7))), Told::Accepted),
        (Ok(Given::Place(Some(place))), Told::Place(place)),
        (Ok(Given::Place(None)), Told::Accepted),
        (Ok(Given::Outcome(outcome)), Told::Accepted),
        (
            Ok(Given::Withdrawal(Withdrawal::Withdrawn)),
            Told::Withdrawn,
        ),
        (Ok(Given::Withdrawal(Withdrawal::TooLate)), Told::Accepted),
        (Ok(Given::Set(3)), Told::Accepted),
    ];
    for (answer, told) in table {
        assert_eq!(Told::of(&answer), told, "{answer:?}");
    }
}
