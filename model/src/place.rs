//! The places of a party, the words that others read, and what a step answers.

use crate::message::Message;
use std::fmt;

/// A guard index with a message: the content of a signal and of an outcome.
#[derive(Clone, Copy, Debug, PartialEq, Eq)]
pub struct IndexedMessage {
    pub index: usize,
    pub message: Message,
}

/// Where a party stands. Only a party at M has an outcome, so M holds it;
/// only a party at C has a kept index, so C holds that; only a party at S
/// counts its steps, so S holds the own steps made there.
#[derive(Clone, Copy, Debug, PartialEq, Eq)]
pub enum Place {
    Idle,
    Entering,
    Scanning(usize),
    Trying(usize),
    Committed { own: usize, kept: usize },
    Posting,
    Opening,
    Showing,
    Asleep(u8),
    Waiting,
    Met(IndexedMessage),
}

/// The word that others read.
#[derive(Clone, Copy, Debug, PartialEq, Eq)]
pub enum Word {
    Running,
    Alt,
    Sleeping,
    Waiting,
}

/// The new place as a step says it: the letter, with the index at A, T and C.
#[derive(Clone, Copy, Debug, PartialEq, Eq)]
pub struct Answer {
    pub letter: char,
    pub index: Option<usize>,
}

impl Place {
    pub fn word(self) -> Word {
        match self {
            Place::Idle | Place::Entering | Place::Met(_) => Word::Running,
            Place::Scanning(_) | Place::Trying(_) | Place::Committed { .. } => Word::Alt,
            Place::Posting | Place::Opening | Place::Showing => Word::Alt,
            Place::Asleep(_) => Word::Sleeping,
            Place::Waiting => Word::Waiting,
        }
    }

    pub fn answer(self) -> Answer {
        let (letter, index) = match self {
            Place::Idle => ('I', None),
            Place::Entering => ('E', None),
            Place::Scanning(own) => ('A', Some(own)),
            Place::Trying(own) => ('T', Some(own)),
            Place::Committed { own, .. } => ('C', Some(own)),
            Place::Posting => ('P', None),
            Place::Opening => ('O', None),
            Place::Showing => ('H', None),
            Place::Asleep(_) => ('S', None),
            Place::Waiting => ('W', None),
            Place::Met(_) => ('M', None),
        };
        Answer { letter, index }
    }
}

impl fmt::Display for Answer {
    fn fmt(&self, out: &mut fmt::Formatter) -> fmt::Result {
        match self.index {
            Some(index) => write!(out, "{}{index}", self.letter),
            None => write!(out, "{}", self.letter),
        }
    }
}
