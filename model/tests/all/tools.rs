//! Small helpers that the tests share.

use model::script::run;
use model::{
    Action, Answer, Book, Call, Desk, Entry, Guard, IndexedMessage, Message, Outcome, Place, Stuck,
    Ticket, Told,
};

/// A small random generator with a fixed seed, so that every run is the same.
pub struct Xorshift(u64);

impl Xorshift {
    pub fn new(seed: u64) -> Xorshift {
        assert_ne!(seed, 0, "a zero word would stay zero");
        Xorshift(seed)
    }

    pub fn word(&mut self) -> u64 {
        self.0 ^= self.0 << 13;
        self.0 ^= self.0 >> 7;
        self.0 ^= self.0 << 17;
        self.0
    }

    /// A number below `bound`.
    pub fn below(&mut self, bound: usize) -> usize {
        ((self.word() >> 16) % bound as u64) as usize
    }

    pub fn one_in(&mut self, count: usize) -> bool {
        self.below(count) == 0
    }

    pub fn bits(&mut self) -> u32 {
        (self.word() >> 20) as u32
    }
}

pub fn receive(partner: usize) -> Guard {
    Guard {
        enabled: true,
        partner,
        kind: 0,
        rank: 0,
        action: Action::Receive,
    }
}

pub fn send(partner: usize, message: Message) -> Guard {
    Guard {
        enabled: true,
        partner,
        kind: 0,
        rank: 0,
        action: Action::Send(message),
    }
}

pub fn disabled(guard: Guard) -> Guard {
    Guard {
        enabled: false,
        ..guard
    }
}

pub fn of_kind(kind: u8, guard: Guard) -> Guard {
    Guard { kind, ..guard }
}

pub fn of_rank(rank: u8, guard: Guard) -> Guard {
    Guard { rank, ..guard }
}

pub fn indexed(index: usize, message: Message) -> IndexedMessage {
    IndexedMessage { index, message }
}

pub fn outcome(index: usize, partner: usize, message: Message) -> Outcome {
    Outcome {
        index,
        partner,
        message,
    }
}

/// Each place of a party with one guard, and whether its offer is open with wake
/// count 0 and with wake count 1.
pub fn places_with_open() -> [(Place, bool, bool); 11] {
    let met = Place::Met(indexed(0, Message::Nothing));
    let committed = Place::Committed { own: 0, kept: 0 };
    [
        (Place::Idle, false, false),
        (Place::Entering, true, true),
        (Place::Scanning(0), true, true),
        (Place::Trying(0), true, true),
        (committed, false, false),
        (Place::Posting, true, true),
        (Place::Opening, true, true),
        (Place::Showing, true, false),
        (Place::Asleep(0), true, true),
        (Place::Waiting, true, false),
        (met, false, false),
    ]
}

/// A fresh desk with the shortest nap.
pub fn fresh(n: usize) -> Desk {
    fresh_with_nap(n, 1)
}

pub fn fresh_with_nap(n: usize, nap: u8) -> Desk {
    Desk::new(n, nap).expect("2 to 32 parties with a nap of 1 or more are made")
}

/// The desk with so many tickets given, so that a test may put as many parties
/// where offers are open.
pub fn with_tickets_given(tickets: u32, mut desk: Desk) -> Desk {
    desk.next_ticket = Ticket(tickets);
    desk
}

/// The sum that request 6 holds against the next ticket.
pub fn total(desk: &Desk) -> u128 {
    let open = desk.open_offers().len() as u128;
    2 * u128::from(desk.meetings) + u128::from(desk.withdrawn) + open
}

/// Request 6's equation on a desk reached from a fresh one, and the counters of
/// the desk against the book's run.
pub fn check_totals(desk: &Desk, book: &Book) {
    assert_eq!(total(desk), u128::from(desk.next_ticket.0), "{desk:?}");
    let meetings = book.meetings().count();
    let withdrawals = book.moments().len() - meetings;
    let counted = (desk.meetings, desk.withdrawn);
    assert_eq!(counted, (meetings as u64, withdrawals as u64));
}

/// Steps one party and gives the answers as the script writes them.
pub fn steps(desk: &mut Desk, party: usize, count: usize) -> Vec<String> {
    (0..count)
        .map(|_| match desk.step(party).expect("a step is taken") {
            Some(place) => place.to_string(),
            None => "=".to_string(),
        })
        .collect()
}

/// Party 0 tries, with one guard, party 1, which waits with this posted list.
pub fn about_to_try(own: Guard, posted: &[Guard]) -> Desk {
    let mut desk = fresh(2);
    desk.offer(1, posted).unwrap();
    while desk.parties[1].place != Place::Waiting {
        desk.step(1).unwrap();
    }
    desk.offer(0, &[own]).unwrap();
    assert_eq!(steps(&mut desk, 0, 2), ["A0", "T0"]);
    desk
}

/// Feeds the book an accepted offer.
pub fn enter_offer(book: &mut Book, party: usize, guards: &[Guard]) {
    let guards = guards.to_vec();
    let entry = book.feed(&Call::Offer { party, guards }, Told::Accepted);
    assert!(entry.is_ok(), "{entry:?}");
}

/// Feeds the book a commit of the party with its guard at this index.
pub fn enter_commit(book: &mut Book, party: usize, index: usize) -> Result<Entry, Stuck> {
    let place = Answer {
        letter: 'C',
        index: Some(index),
    };
    book.feed(&Call::Step { party }, Told::Place(place))
}

/// Runs a script given as pairs of an input line and its output line.
pub fn check_script(pairs: &[(&str, &str)]) {
    let lines = |pick: fn(&(&str, &str)) -> String| pairs.iter().map(pick).collect::<String>();
    let input = lines(|pair| format!("{}\n", pair.0));
    let expected = lines(|pair| format!("{}\n", pair.1));
    let output = String::from_utf8(run(input.as_bytes())).expect("the output is text");
    assert_eq!(output, expected, "for the input\n{input}");
}

/// Parties 0 and 1 offer one guard each, and scan each other.
pub fn check_scanning(older: &str, younger: &str) {
    check_script(&[
        ("n 2", "n 2"),
        (&format!("o 0 {older}"), "o 0 t0"),
        (&format!("o 1 {younger}"), "o 1 t1"),
        ("s 0", "s 0 A0"),
        ("s 1", "s 1 A0"),
        ("s 0", "s 0 ="),
        // Only party 1 would move: party 0 waits for the younger one.
        ("m", "m 00000002"),
        ("s 1", "s 1 S"),
        ("s 0", "s 0 P"),
    ]);
}

/// The marked session of document 01 with its two guards written otherwise.
pub fn check_marked_session(sender: &str, receiver: &str) {
    check_script(&[
        ("n 2", "n 2"),
        (&format!("o 0 {sender}"), "o 0 t0"),
        (&format!("o 1 {receiver}"), "o 1 t1"),
        ("s 0", "s 0 A0"),
        ("s 0", "s 0 P"),
        ("s 0", "s 0 O"),
        ("s 0", "s 0 H"),
        ("s 0", "s 0 W"),
        ("s 1", "s 1 A0"),
        ("s 1", "s 1 T0"),
        ("s 1", "s 1 C0"),
        ("s 1", "s 1 M"),
        ("s 0", "s 0 M"),
        ("c 1", "c 1 0 0 r40970a3d"),
        ("c 0", "c 0 0 1 0"),
        ("m", "m 00000000"),
    ]);
}
