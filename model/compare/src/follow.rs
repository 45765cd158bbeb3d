//! One run from a fresh table: the library, the model and the plain book side
//! by side, with every clause of demand 3 checked after every call.

use crate::draw::BYTES;
use crate::fit::{fit, kept, none_match};
use crate::library::{both, line, Library, Reply, Start};
use crate::reduce::{smallest, with_zeros};
use crate::rendezvous;
use crate::sum;
use crate::wire::{encode, Table};
use model::{Answer, Book, Call, Desk, Entry, Given, Guard, Meeting, OpenOffer, Ticket};
use model::{Moment, Told, Withdrawal};
use std::collections::BTreeSet;

/// The naps that a failing run is tried with, the shortest first.
const SHORT_NAPS: [u8; 6] = [1, 2, 3, 4, 8, 32];

#[derive(Clone)]
pub struct Follow {
    pub table: Table,
    pub desk: Desk,
    pub book: Book,
    /// The tickets that stand in a moment of the run so far: those of a
    /// rendezvous, or the one of a withdrawal.
    pub ended: BTreeSet<Ticket>,
    /// The rendezvous and the withdrawals of the run so far.
    met: u64,
    withdrew: u64,
}

impl Follow {
    pub fn new(library: &dyn Library, start: Start) -> Result<Follow, String> {
        let desk = start.desk();
        let table = start.table(library)?;
        match table.first_difference(&encode(&desk)) {
            Some(place) => Err(format!("the fresh tables differ at {place}")),
            None => Ok(Follow {
                table,
                desk,
                book: Book::default(),
                ended: BTreeSet::new(),
                met: 0,
                withdrew: 0,
            }),
        }
    }

    /// Makes one call on all three sides and compares them. The error is a
    /// difference; a refusal, the same on both sides, is an answer.
    pub fn call(
        &mut self,
        library: &dyn Library,
        call: &Call,
    ) -> Result<Result<Given, u8>, String> {
        let reply = both(library, &self.table, &mut self.desk, call)?;
        self.enter(call, &reply)?;
        self.table = reply.table;
        Ok(reply.answer)
    }

    /// Feeds the book with the library's answer and checks the clauses.
    fn enter(&mut self, call: &Call, reply: &Reply) -> Result<(), String> {
        let before = self.book.open_offers();
        let entry = self
            .book
            .feed(call, to_book(&reply.answer))
            .map_err(|stuck| format!("the book is stuck: {stuck}"))?;
        match reply.answer {
            Err(7) => Err("a reached table is refused by 7".to_string()),
            Err(_) => expect(entry == Entry::Unchanged, "a refused call enters something"),
            Ok(given) => self.accepted(call, given, entry, &before),
        }?;
        self.open_offers_agree()?;
        self.offers_end_once()?;
        self.totals_add_up(&reply.table)
    }

    fn accepted(
        &mut self,
        call: &Call,
        given: Given,
        entry: Entry,
        before: &[OpenOffer],
    ) -> Result<(), String> {
        match given {
            Given::Ticket(ticket) => expect(
                entry == Entry::Opened(ticket),
                "the ticket is not the book's",
            ),
            Given::Outcome(outcome) => expect(
                entry == Entry::Given(outcome),
                "the collection is not what is due",
            ),
            Given::Place(place) => self.stepped(place, entry, before),
            Given::Withdrawal(withdrawal) => {
                let own = |offer: &&OpenOffer| *call == Call::Withdraw { party: offer.party };
                self.withdrew(withdrawal, entry, before.iter().find(own))
            }
            Given::Set(set) => expect(
                set != 0 || none_match(&self.book.open_offers()),
                "at rest two open offers match",
            ),
        }
    }

    /// A commit enters one rendezvous, any other step nothing.
    fn stepped(
        &mut self,
        place: Option<Answer>,
        entry: Entry,
        before: &[OpenOffer],
    ) -> Result<(), String> {
        let commits = place.is_some_and(|place| place.letter == 'C');
        match entry {
            Entry::Met(meeting) if commits => self.joined(&meeting, before),
            entry => expect(
                !commits && entry == Entry::Unchanged,
                "a step enters what it should not",
            ),
        }
    }

    /// A rendezvous joins two offers open until now, on matching guards, of which the
    /// partner's goes before all others that match; and neither ticket stands in an
    /// earlier moment.
    fn joined(&mut self, meeting: &Meeting, before: &[OpenOffer]) -> Result<(), String> {
        let list = |party, ticket| {
            let mut offers = before.iter();
            let offer = offers.find(|offer| offer.party == party && offer.ticket == ticket);
            offer.map_or(&[][..], |offer| &offer.guards)
        };
        let theirs = list(meeting.q, meeting.q_ticket);
        let own = list(meeting.p, meeting.p_ticket).get(meeting.i);
        let (Some(own), Some(other)) = (own, theirs.get(meeting.j)) else {
            return Err(format!("{meeting:?} joins offers that are not open"));
        };
        expect(
            fit(meeting.p, own, meeting.q, other),
            "a rendezvous joins guards that do not match",
        )?;
        expect(
            kept(meeting.p, own, theirs) == Some(meeting.j),
            "a rendezvous passes over a guard of greater rank, or the first among equals",
        )?;
        let sender = if own.sends() { own } else { other };
        expect(
            sender.message() == meeting.message,
            "a rendezvous has another message",
        )?;
        self.met += 1;
        self.ends(meeting.p_ticket)?;
        self.ends(meeting.q_ticket)
    }

    /// An offer that was open until now is withdrawn, and only such a one.
    fn withdrew(
        &mut self,
        withdrawal: Withdrawal,
        entry: Entry,
        open: Option<&OpenOffer>,
    ) -> Result<(), String> {
        match (withdrawal, open) {
            (Withdrawal::Withdrawn, Some(offer)) => {
                expect(
                    entry == Entry::Withdrew(offer.ticket),
                    "the book withdraws another offer",
                )?;
                self.withdrew += 1;
                self.ends(offer.ticket)
            }
            (Withdrawal::Withdrawn, None) => Err("what is withdrawn was not open".to_string()),
            (Withdrawal::TooLate, Some(_)) => Err("too late, but the offer was open".to_string()),
            (Withdrawal::TooLate, None) => expect(
                entry == Entry::Unchanged,
                "a withdrawal that is too late enters something",
            ),
        }
    }

    fn ends(&mut self, ticket: Ticket) -> Result<(), String> {
        expect(
            self.ended.insert(ticket),
            "a ticket stands in two moments of the run",
        )
    }

    /// Each ticket given so far stands in a moment of the run or is open, and
    /// not both. Only tickets that were open come into the run, so that their
    /// number tells whether one is missing.
    fn offers_end_once(&self) -> Result<(), String> {
        let open = self.book.open_offers();
        let apart = open.iter().all(|offer| !self.ended.contains(&offer.ticket));
        expect(
            apart && self.ended.len() + open.len() == self.desk.next_ticket.0 as usize,
            "a ticket is not in exactly one of rendezvous, withdrawn and open",
        )
    }

    /// The two totals are those of the run, and with the open offers they make up the next
    /// ticket: in the model and in the bytes.
    fn totals_add_up(&self, table: &Table) -> Result<(), String> {
        let (desk, bytes) = (&self.desk, table.bytes());
        let run = (self.met, self.withdrew);
        expect(
            (desk.meetings, desk.withdrawn) == run,
            "the model's totals are not those of the run",
        )?;
        expect(
            (rendezvous::meetings(bytes), rendezvous::withdrawn(bytes)) == run,
            "the library's totals are not those of the run",
        )?;
        expect(
            sum::of_desk(desk) == u128::from(desk.next_ticket.0),
            "the model's totals do not make up its next ticket",
        )?;
        expect(
            sum::of_table(table) == u128::from(rendezvous::offers(bytes)),
            "the library's totals do not make up its next ticket",
        )
    }

    /// The book's run has every ticket that ended, and none in two moments.
    pub fn run_is_whole(&self) -> Result<(), String> {
        let moments = self.book.moments().iter();
        let mut tickets: Vec<Ticket> = moments.flat_map(Moment::tickets).collect();
        tickets.sort();
        expect(
            tickets.iter().eq(&self.ended),
            "the run has another ticket, or one twice",
        )
    }

    /// The table's open offers are the book's, in process, ticket and list.
    fn open_offers_agree(&self) -> Result<(), String> {
        expect(
            self.desk.open_offers() == self.book.open_offers(),
            "the open offers are not the book's",
        )
    }
}

/// All that the book is told of an answer.
fn to_book(answer: &Result<Given, u8>) -> Told {
    match *answer {
        Err(_) => Told::Refused,
        Ok(Given::Place(Some(place))) => Told::Place(place),
        Ok(Given::Withdrawal(Withdrawal::Withdrawn)) => Told::Withdrawn,
        Ok(_) => Told::Accepted,
    }
}

/// The complaint, with the shortest list of calls that still brings a complaint.
pub fn told(library: &dyn Library, start: Start, calls: &[Call], text: &str) -> String {
    if replay(library, start, calls).is_ok() {
        return format!("{text}\n(the same calls once more bring no difference)");
    }
    let fails = |start, some: &[Call]| replay(library, start, some).is_err();
    let short = smallest(calls, |some| fails(start, some));
    // Fewer calls bring the same about where a nap is shorter.
    let start = with_short_nap(start, |start| fails(start, &short));
    let short = smallest(&short, |some| fails(start, some));
    let short = with_zeros(
        short,
        &BYTES,
        |calls| guards(calls),
        |some| fails(start, some),
    );
    let again = replay(library, start, &short).err();
    let mut script = start.line() + "\n";
    for call in &short {
        script.push_str(&line(call));
        script.push('\n');
    }
    let count = calls.len();
    let again = again.unwrap_or_default();
    format!(
        "{text}\nafter {count} calls; these {} give: {again}\n{script}",
        short.len()
    )
}

fn guards(calls: &mut [Call]) -> Vec<&mut Guard> {
    let guards = calls.iter_mut().flat_map(|call| match call {
        Call::Offer { guards, .. } => guards.iter_mut(),
        _ => [].iter_mut(),
    });
    guards.collect()
}

/// The same with the shortest of some naps with which it still fails.
fn with_short_nap(start: Start, fails: impl Fn(Start) -> bool) -> Start {
    let mut shorter = SHORT_NAPS
        .into_iter()
        .filter(|&nap| nap < start.nap)
        .map(|nap| Start { nap, ..start });
    shorter.find(|&start| fails(start)).unwrap_or(start)
}

fn replay(library: &dyn Library, start: Start, calls: &[Call]) -> Result<(), String> {
    let mut follow = Follow::new(library, start)?;
    for call in calls {
        let _refused_or_not = follow.call(library, call)?;
    }
    Ok(())
}

fn expect(holds: bool, complaint: &str) -> Result<(), String> {
    match holds {
        true => Ok(()),
        false => Err(complaint.to_string()),
    }
}
