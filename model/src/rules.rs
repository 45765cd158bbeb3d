//! The fifteen step rules. The desk must be in form and the party below n.

use crate::desk::Desk;
use crate::guard::{best_match, Guard};
use crate::message::Message;
use crate::place::{IndexedMessage, Place, Word};

/// Moves `p` by the one rule that fits; no place means that nothing changed.
pub fn apply(desk: &mut Desk, p: usize) -> Option<Place> {
    let new_place = match desk.parties[p].place {
        // Rule 1.
        Place::Entering => Some(enabled_from(&desk.parties[p].guards, 0)),
        Place::Asleep(steps) => Some(sleep(desk, p, steps)),
        Place::Scanning(own) => scan(desk, p, own),
        Place::Trying(own) => Some(try_partner(desk, p, own)),
        Place::Committed { own, kept } => Some(deliver(desk, p, own, kept)),
        Place::Posting => Some(post(desk, p)),
        Place::Opening => Some(open(desk, p)),
        // Rule 12.
        Place::Showing => Some(Place::Waiting),
        Place::Waiting => absorb(desk, p),
        // Rule 15.
        Place::Idle | Place::Met(_) => None,
    };
    if let Some(place) = new_place {
        desk.parties[p].place = place;
    }
    new_place
}

/// Would a step of `p` change the desk? All rules but 6, 14 and 15 do.
pub fn would_change(desk: &Desk, p: usize) -> bool {
    match desk.parties[p].place {
        Place::Scanning(own) => scan(desk, p, own).is_some(),
        Place::Waiting => desk.parties[p].signal.is_some(),
        Place::Idle | Place::Met(_) => false,
        _ => true,
    }
}

/// Rule 2. The last step of a nap starts over with the same ticket; each earlier
/// one is counted, and that alone changes the desk.
fn sleep(desk: &Desk, p: usize, steps: u8) -> Place {
    // In form fewer than `nap` steps are made, so one more fits.
    let steps = steps + 1;
    if steps < desk.nap {
        Place::Asleep(steps)
    } else {
        enabled_from(&desk.parties[p].guards, 0)
    }
}

/// A at the first enabled guard at or after `from`, or P if there is none.
fn enabled_from(guards: &[Guard], from: usize) -> Place {
    match (from..guards.len()).find(|&index| guards[index].enabled) {
        Some(index) => Place::Scanning(index),
        None => Place::Posting,
    }
}

/// Rules 3 to 6. Only the place, the word and the tickets count here, not
/// whether the own guard is enabled.
fn scan(desk: &Desk, p: usize, own: usize) -> Option<Place> {
    let record = &desk.parties[p];
    let partner = &desk.parties[record.guards[own].partner];
    match partner.place.word() {
        Word::Running | Word::Sleeping => Some(enabled_from(&record.guards, own + 1)),
        Word::Waiting => Some(Place::Trying(own)),
        Word::Alt if partner.ticket < record.ticket => Some(Place::Asleep(0)),
        Word::Alt => None,
    }
}

/// Rules 7 and 8. The wake count and the posted list are read in one step.
fn try_partner(desk: &mut Desk, p: usize, own: usize) -> Place {
    let guard = desk.parties[p].guards[own];
    let partner = &mut desk.parties[guard.partner];
    if partner.wake_count == 0 {
        if let Some(kept) = best_match(p, &guard, &partner.posted) {
            partner.wake_count = 1;
            // In form twice `meetings` is at most the next ticket, which has 32
            // bits, so one more fits into 64.
            desk.meetings += 1;
            return Place::Committed { own, kept };
        }
    }
    enabled_from(&desk.parties[p].guards, own + 1)
}

/// Rule 9. If both guards receive, the kept one's message is nothing; if both
/// send, the own guard's sending decides and the kept one's message is lost.
fn deliver(desk: &mut Desk, p: usize, own: usize, kept: usize) -> Place {
    let guard = desk.parties[p].guards[own];
    let partner = &mut desk.parties[guard.partner];
    let (to_partner, to_own) = if guard.sends() {
        (guard.message(), Message::Nothing)
    } else {
        (Message::Nothing, partner.posted[kept].message())
    };
    partner.signal = Some(IndexedMessage {
        index: kept,
        message: to_partner,
    });
    Place::Met(IndexedMessage {
        index: own,
        message: to_own,
    })
}

/// Rule 10. The own list stays as it is.
fn post(desk: &mut Desk, p: usize) -> Place {
    desk.parties[p].posted = desk.parties[p].guards.clone();
    Place::Opening
}

/// Rule 11.
fn open(desk: &mut Desk, p: usize) -> Place {
    desk.parties[p].wake_count = 0;
    Place::Showing
}

/// Rules 13 and 14.
fn absorb(desk: &mut Desk, p: usize) -> Option<Place> {
    desk.parties[p].signal.take().map(Place::Met)
}
