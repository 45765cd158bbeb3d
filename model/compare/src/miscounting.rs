//! Libraries that err in the day sheet's totals, to try whether the parts find it.

use crate::library::{Library, Modelled, Reply};
use crate::sum;
use crate::wire::{decode, encode, normal, Table};
use model::{Call, Desk, Given, Party, Place, Ticket, Withdrawal};

type Said = Result<Given, u8>;

/// The model, but where a call says this, the totals become others.
pub struct Miscounts {
    at: fn(&Said) -> bool,
    totals: fn(&mut Desk),
}

/// A commit counted twice and not at all, a rendezvous counted at its collection too, a
/// withdrawal that is too late counted, one in time not, and one counted as a rendezvous.
pub const MISCOUNTS: [Miscounts; 6] = [
    Miscounts {
        at: commits,
        totals: |desk| desk.meetings += 1,
    },
    Miscounts {
        at: commits,
        totals: |desk| desk.meetings -= 1,
    },
    Miscounts {
        at: |said| matches!(said, Ok(Given::Outcome(_))),
        totals: |desk| desk.meetings += 1,
    },
    Miscounts {
        at: |said| *said == Ok(Given::Withdrawal(Withdrawal::TooLate)),
        totals: |desk| desk.withdrawn += 1,
    },
    Miscounts {
        at: withdraws,
        totals: |desk| desk.withdrawn -= 1,
    },
    Miscounts {
        at: withdraws,
        totals: |desk| {
            desk.withdrawn -= 1;
            desk.meetings += 1;
        },
    },
];

fn commits(said: &Said) -> bool {
    matches!(said, Ok(Given::Place(Some(place))) if place.letter == 'C')
}

fn withdraws(said: &Said) -> bool {
    *said == Ok(Given::Withdrawal(Withdrawal::Withdrawn))
}

impl Library for Miscounts {
    fn create(&self, n: u8, nap: u8) -> Result<Table, u8> {
        Modelled.create(n, nap)
    }

    fn call(&self, table: &Table, call: &Call) -> Reply {
        let mut reply = Modelled.call(table, call);
        if (self.at)(&reply.answer) {
            let mut desk = decode(&reply.table);
            (self.totals)(&mut desk);
            reply.table = normal(&encode(&desk));
        }
        reply
    }
}

/// The model, but it holds another sum against the next ticket.
pub struct OtherSum(pub fn(&Desk) -> u128);

/// The sum in 64 bits; with 2 × meetings alone in 64 bits; in 32 bits; one more, so that
/// equal is above; without the open offers; without regard to wake counts; with the records
/// past the last process; with meetings once.
pub const OTHER_SUMS: [OtherSum; 8] = [
    OtherSum(|desk| u128::from(sum::of_desk(desk) as u64)),
    OtherSum(|desk| {
        let rest = u128::from(desk.withdrawn) + desk.open_count() as u128;
        u128::from(desk.meetings.wrapping_mul(2)) + rest
    }),
    OtherSum(|desk| u128::from(sum::of_desk(desk) as u32)),
    OtherSum(|desk| sum::of_desk(desk) + 1),
    OtherSum(|desk| sum::of_desk(desk) - desk.open_count() as u128),
    OtherSum(|desk| sum::of_desk(desk) + count(&desk.parties[..desk.n], waits_no_more)),
    OtherSum(|desk| sum::of_desk(desk) + count(&desk.parties[desk.n..], Party::is_open)),
    OtherSum(|desk| sum::of_desk(desk) - u128::from(desk.meetings)),
];

fn count(parties: &[Party], counts: fn(&Party) -> bool) -> u128 {
    parties.iter().filter(|record| counts(record)).count() as u128
}

fn waits_no_more(record: &Party) -> bool {
    matches!(record.place, Place::Showing | Place::Waiting) && record.wake_count != 0
}

impl Library for OtherSum {
    fn create(&self, n: u8, nap: u8) -> Result<Table, u8> {
        Modelled.create(n, nap)
    }

    fn call(&self, table: &Table, call: &Call) -> Reply {
        let desk = decode(table);
        let next = u128::from(desk.next_ticket.0);
        let (above, other) = (sum::of_desk(&desk) > next, (self.0)(&desk) > next);
        match (above, other) {
            (true, false) => without_sum(desk, call),
            (false, true) => Reply {
                answer: Err(7),
                table: normal(table),
            },
            _ => Modelled.call(table, call),
        }
    }
}

/// The call as it would be made if no sum were looked at.
fn without_sum(desk: Desk, call: &Call) -> Reply {
    let roomy = Desk {
        next_ticket: Ticket(u32::MAX - 1),
        meetings: 0,
        withdrawn: 0,
        ..desk.clone()
    };
    let Reply { answer, table } = Modelled.call(&encode(&roomy), call);
    let mut after = decode(&table);
    after.next_ticket = desk.next_ticket;
    after.meetings = after.meetings.wrapping_add(desk.meetings);
    after.withdrawn = after.withdrawn.wrapping_add(desk.withdrawn);
    let table = normal(&encode(&after));
    Reply { answer, table }
}
