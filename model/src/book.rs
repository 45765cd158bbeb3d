//! The plain book: a run of whole meetings and withdrawals, told from the calls
//! alone.

use crate::call::{Call, Given};
use crate::desk::{OpenOffer, Outcome, Ticket, Withdrawal};
use crate::guard::{best_match, Guard};
use crate::message::Message;
use crate::place::Answer;
use crate::refusal::Refusal;
use std::collections::BTreeMap;
use std::fmt;

/// All that the book is told of a call's answer.
#[derive(Clone, Copy, Debug, PartialEq, Eq)]
pub enum Told {
    Refused,
    /// The place that a step said.
    Place(Answer),
    /// A withdrawal came in time.
    Withdrawn,
    /// Any other answer of an accepted call.
    Accepted,
}

/// What the book made of one call.
#[derive(Clone, Copy, Debug, PartialEq, Eq)]
pub enum Entry {
    Unchanged,
    Opened(Ticket),
    Met(Meeting),
    Given(Outcome),
    Withdrew(Ticket),
}

/// One moment of the run: two offers close by a meeting, or one is withdrawn.
#[derive(Clone, Copy, Debug, PartialEq, Eq)]
pub enum Moment {
    Met(Meeting),
    Withdrew { party: usize, ticket: Ticket },
}

/// Guard `i` of party `p`, who committed, met guard `j` of party `q`.
#[derive(Clone, Copy, Debug, PartialEq, Eq)]
pub struct Meeting {
    pub p_ticket: Ticket,
    pub q_ticket: Ticket,
    pub p: usize,
    pub i: usize,
    pub q: usize,
    pub j: usize,
    pub message: Message,
}

/// Why an entry lacks what it needs.
#[derive(Clone, Copy, Debug, PartialEq, Eq)]
pub enum Stuck {
    OfferWhileOpen { party: usize },
    OfferWhileDue { party: usize },
    NoTicketLeft,
    CommitWithoutIndex { party: usize },
    NotOpen { party: usize },
    NoGuard { party: usize, index: usize },
    NoMatch { party: usize, index: usize },
    NothingDue { party: usize },
    NothingToWithdraw { party: usize },
}

#[derive(Clone, Debug, Default)]
pub struct Book {
    open: BTreeMap<usize, OpenOffer>,
    due: BTreeMap<usize, Outcome>,
    next_ticket: Ticket,
    moments: Vec<Moment>,
}

impl Told {
    /// Of a desk's answer, what the book may see.
    pub fn of(answer: &Result<Given, Refusal>) -> Told {
        match *answer {
            Err(_) => Told::Refused,
            Ok(Given::Place(Some(place))) => Told::Place(place),
            Ok(Given::Withdrawal(Withdrawal::Withdrawn)) => Told::Withdrawn,
            Ok(_) => Told::Accepted,
        }
    }
}

impl Moment {
    /// The tickets of the offers that close.
    pub fn tickets(&self) -> Vec<Ticket> {
        match self {
            Moment::Met(meeting) => vec![meeting.p_ticket, meeting.q_ticket],
            Moment::Withdrew { ticket, .. } => vec![*ticket],
        }
    }
}

impl Book {
    /// Enters one call. A stuck book stays as it was.
    pub fn feed(&mut self, call: &Call, told: Told) -> Result<Entry, Stuck> {
        match (call, told) {
            (_, Told::Refused) => Ok(Entry::Unchanged),
            (Call::Offer { party, guards }, _) => self.offer(*party, guards),
            (Call::Step { party }, Told::Place(Answer { letter: 'C', index })) => {
                let index = index.ok_or(Stuck::CommitWithoutIndex { party: *party })?;
                self.commit(*party, index)
            }
            (Call::Collect { party }, _) => self.collect(*party),
            (Call::Withdraw { party }, Told::Withdrawn) => self.withdraw(*party),
            (Call::Step { .. } | Call::Withdraw { .. } | Call::Movers, _) => Ok(Entry::Unchanged),
        }
    }

    /// The run of whole meetings, with the withdrawals among them.
    pub fn moments(&self) -> &[Moment] {
        &self.moments
    }

    /// The meetings of the run alone.
    pub fn meetings(&self) -> impl Iterator<Item = &Meeting> {
        self.moments.iter().filter_map(|moment| match moment {
            Moment::Met(meeting) => Some(meeting),
            Moment::Withdrew { .. } => None,
        })
    }

    /// The open offers by party.
    pub fn open_offers(&self) -> Vec<OpenOffer> {
        self.open.values().cloned().collect()
    }

    /// The due outcome of a party, if there is one.
    pub fn due(&self, party: usize) -> Option<Outcome> {
        self.due.get(&party).copied()
    }

    fn offer(&mut self, party: usize, guards: &[Guard]) -> Result<Entry, Stuck> {
        if self.open.contains_key(&party) {
            return Err(Stuck::OfferWhileOpen { party });
        }
        if self.due.contains_key(&party) {
            return Err(Stuck::OfferWhileDue { party });
        }
        let ticket = self.next_ticket;
        let next = ticket.0.checked_add(1).ok_or(Stuck::NoTicketLeft)?;
        self.next_ticket = Ticket(next);
        let guards = guards.to_vec();
        let offer = OpenOffer {
            party,
            ticket,
            guards,
        };
        self.open.insert(party, offer);
        Ok(Entry::Opened(ticket))
    }

    fn commit(&mut self, p: usize, i: usize) -> Result<Entry, Stuck> {
        let own = self.open_offer(p)?;
        let own_guard = *own
            .guards
            .get(i)
            .ok_or(Stuck::NoGuard { party: p, index: i })?;
        let q = own_guard.partner;
        let other = self.open_offer(q)?;
        let j = best_match(p, &own_guard, &other.guards)
            .ok_or(Stuck::NoMatch { party: p, index: i })?;
        let other_guard = other.guards[j];
        let sender = if own_guard.sends() {
            own_guard
        } else {
            other_guard
        };
        let meeting = Meeting {
            p_ticket: own.ticket,
            q_ticket: other.ticket,
            p,
            i,
            q,
            j,
            message: sender.message(),
        };
        self.enter(meeting, own_guard.sends());
        Ok(Entry::Met(meeting))
    }

    fn open_offer(&self, party: usize) -> Result<&OpenOffer, Stuck> {
        self.open.get(&party).ok_or(Stuck::NotOpen { party })
    }

    /// Closes both offers and notes what is due to each side: the message for
    /// the one that receives, nothing for the one that sends.
    fn enter(&mut self, meeting: Meeting, p_sends: bool) {
        let Meeting { p, i, q, j, .. } = meeting;
        let (to_p, to_q) = if p_sends {
            (Message::Nothing, meeting.message)
        } else {
            (meeting.message, Message::Nothing)
        };
        self.open.remove(&p);
        self.open.remove(&q);
        self.due.insert(p, outcome(i, q, to_p));
        self.due.insert(q, outcome(j, p, to_q));
        self.moments.push(Moment::Met(meeting));
    }

    fn collect(&mut self, party: usize) -> Result<Entry, Stuck> {
        let given = self.due.remove(&party);
        given.map(Entry::Given).ok_or(Stuck::NothingDue { party })
    }

    /// Closes the open offer of one party; nothing is due for it.
    fn withdraw(&mut self, party: usize) -> Result<Entry, Stuck> {
        let offer = self.open.remove(&party);
        let ticket = offer.ok_or(Stuck::NothingToWithdraw { party })?.ticket;
        self.moments.push(Moment::Withdrew { party, ticket });
        Ok(Entry::Withdrew(ticket))
    }
}

fn outcome(index: usize, partner: usize, message: Message) -> Outcome {
    Outcome {
        index,
        partner,
        message,
    }
}

impl fmt::Display for Stuck {
    fn fmt(&self, out: &mut fmt::Formatter) -> fmt::Result {
        match self {
            Stuck::OfferWhileOpen { party } => {
                write!(out, "party {party} offers but has an open offer")
            }
            Stuck::OfferWhileDue { party } => {
                write!(out, "party {party} offers but has a due outcome")
            }
            Stuck::NoTicketLeft => write!(out, "there is no next ticket"),
            Stuck::CommitWithoutIndex { party } => {
                write!(out, "party {party} commits without a guard index")
            }
            Stuck::NotOpen { party } => {
                write!(out, "a commit needs an open offer of party {party}")
            }
            Stuck::NoGuard { party, index } => {
                write!(out, "the offer of party {party} has no guard {index}")
            }
            Stuck::NoMatch { party, index } => {
                write!(out, "nothing matches guard {index} of party {party}")
            }
            Stuck::NothingDue { party } => {
                write!(out, "party {party} collects but nothing is due")
            }
            Stuck::NothingToWithdraw { party } => {
                write!(out, "party {party} withdraws but has no open offer")
            }
        }
    }
}

impl std::error::Error for Stuck {}
