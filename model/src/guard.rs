//! Guards, what it means that two of them match, and which match is kept.

use crate::message::Message;
use std::cmp::Reverse;

#[derive(Clone, Copy, Debug, PartialEq, Eq)]
pub enum Action {
    Receive,
    Send(Message),
}

#[derive(Clone, Copy, Debug, PartialEq, Eq)]
pub struct Guard {
    pub enabled: bool,
    pub partner: usize,
    pub kind: u8,
    /// Which of several matching guards is kept; matching does not look at it.
    pub rank: u8,
    pub action: Action,
}

impl Guard {
    pub fn sends(&self) -> bool {
        matches!(self.action, Action::Send(_))
    }

    /// The message that this guard sends; a receiving guard sends nothing.
    pub fn message(&self) -> Message {
        match self.action {
            Action::Send(message) => message,
            Action::Receive => Message::Nothing,
        }
    }
}

/// Does guard `a` of party `p` match guard `b` of party `q`?
pub fn guards_match(p: usize, a: &Guard, q: usize, b: &Guard) -> bool {
    a.enabled
        && b.enabled
        && a.partner == q
        && b.partner == p
        && a.sends() != b.sends()
        && a.kind == b.kind
}

/// Does a guard of party `p`'s list match a guard of party `q`'s list?
pub fn lists_match(p: usize, a: &[Guard], q: usize, b: &[Guard]) -> bool {
    a.iter()
        .any(|own| b.iter().any(|other| guards_match(p, own, q, other)))
}

/// Rule 7's search: of all guards of the partner's list that match `own`, the
/// one of greatest rank, the first among equals.
pub fn best_match(p: usize, own: &Guard, partner_list: &[Guard]) -> Option<usize> {
    let matching = (0..partner_list.len())
        .filter(|&index| guards_match(p, own, own.partner, &partner_list[index]));
    // Among equals `min_by_key` gives the first one, `max_by_key` the last.
    matching.min_by_key(|&index| Reverse(partner_list[index].rank))
}
