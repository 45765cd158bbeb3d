//! The desk and its calls. All fields are open, so that a test can hold any
//! damaged desk; every call tests the form first and then may index freely.

use crate::form::in_form;
use crate::guard::{lists_match, Guard};
use crate::message::Message;
use crate::place::{Answer, IndexedMessage, Place};
use crate::refusal::Refusal;
use crate::rules;

/// The number of one offer: the smaller one is older.
#[derive(Clone, Copy, Debug, Default, PartialEq, Eq, PartialOrd, Ord)]
pub struct Ticket(pub u32);

/// The record of one party.
#[derive(Clone, Debug, PartialEq, Eq)]
pub struct Party {
    pub guards: Vec<Guard>,
    pub ticket: Ticket,
    pub posted: Vec<Guard>,
    pub wake_count: u8,
    pub signal: Option<IndexedMessage>,
    pub place: Place,
}

/// The parties are those below `n`; a record at or beyond `n` is no party's.
#[derive(Clone, Debug, PartialEq, Eq)]
pub struct Desk {
    pub n: usize,
    /// The nap length: a sleeper leaves S at its own step of this number there.
    pub nap: u8,
    pub next_ticket: Ticket,
    /// The commits so far.
    pub meetings: u64,
    /// The offers withdrawn so far.
    pub withdrawn: u64,
    pub parties: Vec<Party>,
}

/// What a collection gives.
#[derive(Clone, Copy, Debug, PartialEq, Eq)]
pub struct Outcome {
    pub index: usize,
    pub partner: usize,
    pub message: Message,
}

/// What a withdrawal says.
#[derive(Clone, Copy, Debug, PartialEq, Eq)]
pub enum Withdrawal {
    Withdrawn,
    /// A commit came first.
    TooLate,
}

#[derive(Clone, Debug, PartialEq, Eq)]
pub struct OpenOffer {
    pub party: usize,
    pub ticket: Ticket,
    pub guards: Vec<Guard>,
}

impl OpenOffer {
    pub fn matches(&self, other: &OpenOffer) -> bool {
        lists_match(self.party, &self.guards, other.party, &other.guards)
    }
}

impl Party {
    pub fn fresh() -> Party {
        Party {
            guards: Vec::new(),
            ticket: Ticket(0),
            posted: Vec::new(),
            wake_count: 1,
            signal: None,
            place: Place::Idle,
        }
    }

    /// Has this party an open offer?
    pub fn is_open(&self) -> bool {
        match self.place {
            Place::Entering | Place::Scanning(_) | Place::Trying(_) => true,
            Place::Posting | Place::Opening | Place::Asleep(_) => true,
            Place::Showing | Place::Waiting => self.wake_count == 0,
            Place::Idle | Place::Committed { .. } | Place::Met(_) => false,
        }
    }
}

impl Desk {
    /// A fresh desk of `n` parties with nap length `nap`.
    pub fn new(n: usize, nap: u8) -> Result<Desk, Refusal> {
        if !(2..=32).contains(&n) {
            return Err(Refusal::PartyCount);
        }
        if nap == 0 {
            return Err(Refusal::Nap);
        }
        Ok(Desk {
            n,
            nap,
            next_ticket: Ticket(0),
            meetings: 0,
            withdrawn: 0,
            parties: vec![Party::fresh(); n],
        })
    }

    /// Offers a copy of the guards, and gives the offer's ticket.
    pub fn offer(&mut self, party: usize, guards: &[Guard]) -> Result<Ticket, Refusal> {
        self.check_form_and_party(party)?;
        check_guards(party, self.n, guards)?;
        if self.parties[party].place != Place::Idle {
            return Err(Refusal::NotIdle);
        }
        if self.next_ticket == Ticket(u32::MAX) {
            return Err(Refusal::TicketsUsedUp);
        }
        let ticket = self.next_ticket;
        self.next_ticket = Ticket(ticket.0 + 1);
        self.parties[party].guards = guards.to_vec();
        self.parties[party].ticket = ticket;
        self.parties[party].place = Place::Entering;
        Ok(ticket)
    }

    /// Moves the party by one rule. No answer means that nothing changed.
    pub fn step(&mut self, party: usize) -> Result<Option<Answer>, Refusal> {
        self.check_form_and_party(party)?;
        Ok(rules::apply(self, party).map(Place::answer))
    }

    /// Gives the outcome of a party at M, which becomes idle.
    pub fn collect(&mut self, party: usize) -> Result<Outcome, Refusal> {
        self.check_form_and_party(party)?;
        let record = &mut self.parties[party];
        let Place::Met(IndexedMessage { index, message }) = record.place else {
            return Err(Refusal::NotMet);
        };
        record.place = Place::Idle;
        Ok(Outcome {
            index,
            partner: record.guards[index].partner,
            message,
        })
    }

    /// Takes the party's offer back, unless a commit came first.
    pub fn withdraw(&mut self, party: usize) -> Result<Withdrawal, Refusal> {
        self.check_form_and_party(party)?;
        let record = &mut self.parties[party];
        match record.place {
            Place::Idle | Place::Met(_) => Err(Refusal::NothingOffered),
            Place::Committed { .. } => Ok(Withdrawal::TooLate),
            Place::Showing | Place::Waiting if record.wake_count != 0 => Ok(Withdrawal::TooLate),
            _ => {
                // With wake count 1 nobody commits on the posted list left here.
                record.wake_count = 1;
                record.place = Place::Idle;
                // In form `withdrawn` is at most the next ticket, which has 32
                // bits, so one more fits into 64.
                self.withdrawn += 1;
                Ok(Withdrawal::Withdrawn)
            }
        }
    }

    /// Bit p is 1 exactly if p is a party and a step of p would change the desk.
    pub fn movers(&self) -> Result<u32, Refusal> {
        if !in_form(self) {
            return Err(Refusal::OutOfForm);
        }
        let mut set = 0;
        for party in 0..self.n {
            // The definition word for word: try the step on a copy and compare.
            let mut copy = self.clone();
            rules::apply(&mut copy, party);
            if copy != *self {
                set |= 1 << party;
            }
        }
        Ok(set)
    }

    /// The same set without a copy of the desk, for the benchmark.
    pub fn movers_by_rule(&self) -> Result<u32, Refusal> {
        if !in_form(self) {
            return Err(Refusal::OutOfForm);
        }
        let movers = (0..self.n).filter(|&party| rules::would_change(self, party));
        Ok(movers.fold(0, |set, party| set | 1 << party))
    }

    /// True when the set of movers is given and empty.
    pub fn at_rest(&self) -> bool {
        self.movers() == Ok(0)
    }

    /// The open offers by party, on any desk.
    pub fn open_offers(&self) -> Vec<OpenOffer> {
        let parties = self.parties.iter().take(self.n).enumerate();
        parties
            .filter(|(_, record)| record.is_open())
            .map(|(party, record)| OpenOffer {
                party,
                ticket: record.ticket,
                guards: record.guards.clone(),
            })
            .collect()
    }

    /// The number of open offers, on any desk.
    pub fn open_count(&self) -> usize {
        let parties = self.parties.iter().take(self.n);
        parties.filter(|record| record.is_open()).count()
    }

    /// Refusals 7 and 2, which come first in every call that names a party.
    fn check_form_and_party(&self, party: usize) -> Result<(), Refusal> {
        if !in_form(self) {
            return Err(Refusal::OutOfForm);
        }
        if party >= self.n {
            return Err(Refusal::NoSuchParty);
        }
        Ok(())
    }
}

/// Refusals 3 to 6 of an offer by `party` on a desk of `n` parties.
fn check_guards(party: usize, n: usize, guards: &[Guard]) -> Result<(), Refusal> {
    if guards.is_empty() || guards.len() > 8 {
        return Err(Refusal::GuardCount);
    }
    // Guard by guard: a 5 in an earlier guard comes before a 4 in a later one.
    for guard in guards {
        if guard.partner == party || guard.partner >= n {
            return Err(Refusal::WrongPartner);
        }
        if guard.message().holds_nan() {
            return Err(Refusal::NotANumber);
        }
    }
    if !guards.iter().any(|guard| guard.enabled) {
        return Err(Refusal::NoneEnabled);
    }
    Ok(())
}
