//! The fifteen step rules on a desk by value, in form, for a party below n.

use super::desk::Desk;
use super::record::{Guard, GuardList, IndexedMessage, Place};
use crate::message::Message;
use crate::place::Word;

/// Moves `p` by the one rule that fits; no place means that nothing changed.
pub fn apply(desk: &mut Desk, p: u8) -> Option<Place> {
    let record = desk.party_mut(p);
    let place = match record.place {
        // Rule 1.
        Place::Entering => enabled_from(&record.guards, 0),
        Place::Asleep(steps) => sleep(desk, p, steps),
        Place::Scanning(own) => scan(desk, p, own)?,
        Place::Trying(own) => try_partner(desk, p, own),
        Place::Committed { own, kept } => deliver(desk, p, own, kept),
        // Rule 10.
        Place::Posting => {
            record.posted = record.guards;
            Place::Opening
        }
        // Rule 11.
        Place::Opening => {
            record.wake_count = 0;
            Place::Showing
        }
        // Rule 12.
        Place::Showing => Place::Waiting,
        // Rules 13 and 14.
        Place::Waiting => Place::Met(record.signal.take()?),
        // Rule 15.
        Place::Idle | Place::Met(_) => return None,
    };
    desk.party_mut(p).place = place;
    Some(place)
}

/// Would a step of `p` change the desk? All rules but 6, 14 and 15 do.
pub fn would_change(desk: &Desk, p: u8) -> bool {
    let record = desk.party(p);
    match record.place {
        Place::Idle | Place::Met(_) => false,
        Place::Scanning(own) => scan(desk, p, own).is_some(),
        Place::Waiting => record.signal.is_some(),
        _ => true,
    }
}

/// Rule 2 at the last step of a nap; each earlier step is counted. In form fewer
/// than `nap` steps are made, so one more fits.
fn sleep(desk: &Desk, p: u8, steps: u8) -> Place {
    match steps + 1 {
        made if made < desk.nap => Place::Asleep(made),
        _ => enabled_from(&desk.party(p).guards, 0),
    }
}

/// A at the first enabled guard at or after `from`, or P if there is none.
fn enabled_from(guards: &GuardList, from: u8) -> Place {
    match (from..guards.count).find(|&index| guard_at(guards, index).enabled) {
        Some(index) => Place::Scanning(index),
        None => Place::Posting,
    }
}

/// Rules 3 to 6.
fn scan(desk: &Desk, p: u8, own: u8) -> Option<Place> {
    let record = desk.party(p);
    let partner = desk.party(guard_at(&record.guards, own).partner);
    match partner.place.word() {
        Word::Running | Word::Sleeping => Some(enabled_from(&record.guards, own + 1)),
        Word::Waiting => Some(Place::Trying(own)),
        Word::Alt if partner.ticket < record.ticket => Some(Place::Asleep(0)),
        Word::Alt => None,
    }
}

/// Rules 7 and 8.
fn try_partner(desk: &mut Desk, p: u8, own: u8) -> Place {
    let guard = *guard_at(&desk.party(p).guards, own);
    let partner = desk.party_mut(guard.partner);
    if partner.wake_count == 0 {
        if let Some(kept) = best_match(p, &guard, &partner.posted) {
            partner.wake_count = 1;
            // In form this is at most half the next ticket, so one more fits.
            desk.meetings += 1;
            return Place::Committed { own, kept };
        }
    }
    enabled_from(&desk.party(p).guards, own + 1)
}

/// Of the posted guards that match the own one, the one of greatest rank. Only
/// a greater rank takes the place of an earlier guard, so the first among equals
/// stays.
fn best_match(p: u8, own: &Guard, posted: &GuardList) -> Option<u8> {
    let mut best: Option<(u8, u8)> = None;
    for index in 0..posted.count {
        let other = guard_at(posted, index);
        let is_better = best.is_none_or(|(_, rank)| other.rank > rank);
        if is_better && own.matches(p, other, own.partner) {
            best = Some((index, other.rank));
        }
    }
    best.map(|(index, _)| index)
}

/// Rule 9.
fn deliver(desk: &mut Desk, p: u8, own: u8, kept: u8) -> Place {
    let guard = *guard_at(&desk.party(p).guards, own);
    let partner = desk.party_mut(guard.partner);
    let (to_partner, to_own) = if guard.sends() {
        (guard.message(), Message::Nothing)
    } else {
        (Message::Nothing, guard_at(&partner.posted, kept).message())
    };
    partner.signal = Some(IndexedMessage {
        index: kept,
        message: to_partner,
    });
    Place::Met(IndexedMessage {
        index: own,
        message: to_own,
    })
}

/// The guard at an index that is in form.
fn guard_at(guards: &GuardList, index: u8) -> &Guard {
    &guards.slots[usize::from(index)]
}
