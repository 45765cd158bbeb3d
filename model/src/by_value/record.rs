//! Guards in a list of fixed size, places, and the record of one party.

use crate::desk::Ticket;
use crate::guard::Action;
use crate::message::Message;
use crate::place::Word;

pub const MOST_GUARDS: usize = 8;

#[derive(Clone, Copy, Debug, PartialEq, Eq)]
pub struct Guard {
    pub enabled: bool,
    pub partner: u8,
    pub kind: u8,
    pub rank: u8,
    pub action: Action,
}

/// The first `count` slots are the list. A damaged count may be anything.
#[derive(Clone, Copy, Debug, PartialEq, Eq)]
pub struct GuardList {
    pub count: u8,
    pub slots: [Guard; MOST_GUARDS],
}

/// A guard index with a message: the content of a signal and of an outcome.
#[derive(Clone, Copy, Debug, PartialEq, Eq)]
pub struct IndexedMessage {
    pub index: u8,
    pub message: Message,
}

/// Where a party stands, with the indexes at A, T and C, the own steps made at S
/// and the outcome at M.
#[derive(Clone, Copy, Debug, PartialEq, Eq)]
pub enum Place {
    Idle,
    Entering,
    Scanning(u8),
    Trying(u8),
    Committed { own: u8, kept: u8 },
    Posting,
    Opening,
    Showing,
    Asleep(u8),
    Waiting,
    Met(IndexedMessage),
}

#[derive(Clone, Copy, Debug, PartialEq, Eq)]
pub struct Party {
    pub guards: GuardList,
    pub ticket: Ticket,
    pub posted: GuardList,
    pub wake_count: u8,
    pub signal: Option<IndexedMessage>,
    pub place: Place,
}

impl Guard {
    /// What stands in a slot past the end of a list.
    pub const BLANK: Guard = Guard {
        enabled: false,
        partner: 0,
        kind: 0,
        rank: 0,
        action: Action::Receive,
    };

    pub fn sends(&self) -> bool {
        matches!(self.action, Action::Send(_))
    }

    /// The message that this guard sends; a receiving guard sends nothing.
    pub fn message(&self) -> Message {
        match self.action {
            Action::Send(message) => message,
            Action::Receive => Message::Nothing,
        }
    }

    /// Does this guard of party `p` match guard `other` of party `q`?
    pub fn matches(&self, p: u8, other: &Guard, q: u8) -> bool {
        self.enabled
            && other.enabled
            && self.partner == q
            && other.partner == p
            && self.sends() != other.sends()
            && self.kind == other.kind
    }
}

impl GuardList {
    pub const EMPTY: GuardList = GuardList {
        count: 0,
        slots: [Guard::BLANK; MOST_GUARDS],
    };

    /// A copy of at most eight guards.
    pub fn copied(guards: &[Guard]) -> GuardList {
        let mut list = GuardList::EMPTY;
        list.count = guards.len() as u8;
        list.slots[..guards.len()].copy_from_slice(guards);
        list
    }

    pub fn as_slice(&self) -> &[Guard] {
        &self.slots[..usize::from(self.count).min(MOST_GUARDS)]
    }

    pub fn get(&self, index: u8) -> Option<&Guard> {
        self.as_slice().get(usize::from(index))
    }
}

impl Place {
    /// The word that others read.
    pub fn word(self) -> Word {
        match self {
            Place::Idle | Place::Entering | Place::Met(_) => Word::Running,
            Place::Scanning(_) | Place::Trying(_) | Place::Committed { .. } => Word::Alt,
            Place::Posting | Place::Opening | Place::Showing => Word::Alt,
            Place::Asleep(_) => Word::Sleeping,
            Place::Waiting => Word::Waiting,
        }
    }
}

impl Party {
    pub const FRESH: Party = Party {
        guards: GuardList::EMPTY,
        ticket: Ticket(0),
        posted: GuardList::EMPTY,
        wake_count: 1,
        signal: None,
        place: Place::Idle,
    };

    /// Has this party an open offer?
    pub fn is_open(&self) -> bool {
        match self.place {
            Place::Entering | Place::Scanning(_) | Place::Trying(_) => true,
            Place::Posting | Place::Opening | Place::Asleep(_) => true,
            Place::Showing | Place::Waiting => self.wake_count == 0,
            Place::Idle | Place::Committed { .. } | Place::Met(_) => false,
        }
    }
}
