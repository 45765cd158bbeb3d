//! The desk by value and its calls: each takes the desk and hands it back.

use super::form::in_form;
use super::record::{Guard, GuardList, IndexedMessage, Party, Place, MOST_GUARDS};
use super::rules;
use crate::desk::{Ticket, Withdrawal};
use crate::message::Message;
use crate::refusal::Refusal;

pub const MOST_PARTIES: usize = 32;

/// The parties are those below `n`; the records past them are no party's.
#[derive(Clone, Copy, Debug, PartialEq, Eq)]
pub struct Desk {
    pub n: u8,
    /// The nap length: a sleeper leaves S at its own step of this number there.
    pub nap: u8,
    pub next_ticket: Ticket,
    /// The commits so far.
    pub meetings: u64,
    /// The offers withdrawn so far.
    pub withdrawn: u64,
    pub parties: [Party; MOST_PARTIES],
}

/// What a collection gives.
#[derive(Clone, Copy, Debug, PartialEq, Eq)]
pub struct Outcome {
    pub index: u8,
    pub partner: u8,
    pub message: Message,
}

impl Desk {
    /// A fresh desk of `n` parties with nap length `nap`.
    pub fn new(n: u8, nap: u8) -> Result<Desk, Refusal> {
        if !(2..=32).contains(&n) {
            return Err(Refusal::PartyCount);
        }
        if nap == 0 {
            return Err(Refusal::Nap);
        }
        Ok(Desk {
            n,
            nap,
            next_ticket: Ticket(0),
            meetings: 0,
            withdrawn: 0,
            parties: [Party::FRESH; MOST_PARTIES],
        })
    }

    /// Offers a copy of the guards; the answer is the offer's ticket.
    pub fn offer(mut self, party: u8, guards: &[Guard]) -> (Result<Ticket, Refusal>, Desk) {
        if let Err(refusal) = self.check_offer(party, guards) {
            return (Err(refusal), self);
        }
        let ticket = self.next_ticket;
        self.next_ticket = Ticket(ticket.0 + 1);
        let record = self.party_mut(party);
        record.guards = GuardList::copied(guards);
        record.ticket = ticket;
        record.place = Place::Entering;
        (Ok(ticket), self)
    }

    /// Moves the party by one rule; the answer is its new place, or none if
    /// nothing changed.
    pub fn step(mut self, party: u8) -> (Result<Option<Place>, Refusal>, Desk) {
        if let Err(refusal) = self.check_party(party) {
            return (Err(refusal), self);
        }
        let place = rules::apply(&mut self, party);
        (Ok(place), self)
    }

    /// Takes the outcome of a party at M, which becomes idle.
    pub fn collect(mut self, party: u8) -> (Result<Outcome, Refusal>, Desk) {
        if let Err(refusal) = self.check_party(party) {
            return (Err(refusal), self);
        }
        let record = self.party_mut(party);
        let Place::Met(IndexedMessage { index, message }) = record.place else {
            return (Err(Refusal::NotMet), self);
        };
        record.place = Place::Idle;
        let partner = record.guards.slots[usize::from(index)].partner;
        let outcome = Outcome {
            index,
            partner,
            message,
        };
        (Ok(outcome), self)
    }

    /// Takes the party's offer back, unless a commit came first.
    pub fn withdraw(mut self, party: u8) -> (Result<Withdrawal, Refusal>, Desk) {
        if let Err(refusal) = self.check_party(party) {
            return (Err(refusal), self);
        }
        let record = self.party_mut(party);
        let answer = match record.place {
            Place::Idle | Place::Met(_) => Err(Refusal::NothingOffered),
            Place::Committed { .. } => Ok(Withdrawal::TooLate),
            Place::Showing | Place::Waiting if record.wake_count != 0 => Ok(Withdrawal::TooLate),
            _ => {
                record.wake_count = 1;
                record.place = Place::Idle;
                // In form this is at most the next ticket, so one more fits.
                self.withdrawn += 1;
                Ok(Withdrawal::Withdrawn)
            }
        };
        (answer, self)
    }

    /// Bit p is 1 exactly if p is a party and a step of p would change the desk.
    pub fn movers(self) -> (Result<u32, Refusal>, Desk) {
        if !in_form(&self) {
            return (Err(Refusal::OutOfForm), self);
        }
        let movers = (0..self.n).filter(|&party| rules::would_change(&self, party));
        let set = movers.fold(0, |set, party| set | 1 << party);
        (Ok(set), self)
    }

    pub(super) fn party(&self, party: u8) -> &Party {
        &self.parties[usize::from(party)]
    }

    pub(super) fn party_mut(&mut self, party: u8) -> &mut Party {
        &mut self.parties[usize::from(party)]
    }

    /// Refusals 7 and 2.
    fn check_party(&self, party: u8) -> Result<(), Refusal> {
        if !in_form(self) {
            return Err(Refusal::OutOfForm);
        }
        if party >= self.n {
            return Err(Refusal::NoSuchParty);
        }
        Ok(())
    }

    /// Every refusal of an offer, in order.
    fn check_offer(&self, party: u8, guards: &[Guard]) -> Result<(), Refusal> {
        self.check_party(party)?;
        check_guards(party, self.n, guards)?;
        if self.party(party).place != Place::Idle {
            return Err(Refusal::NotIdle);
        }
        if self.next_ticket == Ticket(u32::MAX) {
            return Err(Refusal::TicketsUsedUp);
        }
        Ok(())
    }
}

/// Refusals 3 to 6; 4 and 5 go guard by guard.
fn check_guards(party: u8, n: u8, guards: &[Guard]) -> Result<(), Refusal> {
    if guards.is_empty() || guards.len() > MOST_GUARDS {
        return Err(Refusal::GuardCount);
    }
    for guard in guards {
        if guard.partner == party || guard.partner >= n {
            return Err(Refusal::WrongPartner);
        }
        if guard.message().holds_nan() {
            return Err(Refusal::NotANumber);
        }
    }
    if !guards.iter().any(|guard| guard.enabled) {
        return Err(Refusal::NoneEnabled);
    }
    Ok(())
}
