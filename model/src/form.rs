//! The form of a desk: what refusal 7 looks at, and nothing more.

use crate::desk::{Desk, Party};
use crate::guard::Guard;
use crate::place::Place;

pub fn in_form(desk: &Desk) -> bool {
    // Document 01 knows no desk with fewer records than parties; here such a
    // desk can be written down, so it counts as out of form.
    (2..=32).contains(&desk.n)
        && desk.nap > 0
        && desk.parties.len() >= desk.n
        && (0..desk.n).all(|party| party_in_form(desk, party))
        && totals_in_form(desk)
}

/// A ticket is given for each offer, and an offer is met (two at a time),
/// withdrawn or open: more than the next ticket tells there cannot be. Damaged
/// counters may hold anything, and twice 2^63 is no number of 64 bits.
fn totals_in_form(desk: &Desk) -> bool {
    let (meetings, withdrawn) = (u128::from(desk.meetings), u128::from(desk.withdrawn));
    let open = desk.open_count() as u128;
    2 * meetings + withdrawn + open <= u128::from(desk.next_ticket.0)
}

fn party_in_form(desk: &Desk, party: usize) -> bool {
    let record = &desk.parties[party];
    list_in_form(&record.guards, party, desk.n)
        && list_in_form(&record.posted, party, desk.n)
        && indexes_in_form(record)
        && kept_in_form(desk, record)
        && sleeper_in_form(record, desk.nap)
}

fn list_in_form(list: &[Guard], party: usize, n: usize) -> bool {
    list.len() <= 8 && list.iter().all(|g| g.partner != party && g.partner < n)
}

/// The indexes in A, T, C, the outcome and the signal, against the own list.
fn indexes_in_form(record: &Party) -> bool {
    let in_place = match record.place {
        Place::Scanning(own) | Place::Trying(own) | Place::Committed { own, .. } => Some(own),
        Place::Met(outcome) => Some(outcome.index),
        _ => None,
    };
    let in_signal = record.signal.map(|signal| signal.index);
    let has_guard = |index: usize| index < record.guards.len();
    in_place.is_none_or(has_guard) && in_signal.is_none_or(has_guard)
}

/// The kept index at C, against the partner's posted list.
fn kept_in_form(desk: &Desk, record: &Party) -> bool {
    let Place::Committed { own, kept } = record.place else {
        return true;
    };
    let partner = record.guards.get(own).map(|guard| guard.partner);
    let partner = partner.and_then(|number| desk.parties.get(number));
    partner.is_some_and(|other| kept < other.posted.len())
}

/// A sleeper leaves S at its step number `nap`, so it has made fewer there.
fn sleeper_in_form(record: &Party, nap: u8) -> bool {
    match record.place {
        Place::Asleep(steps) => steps < nap,
        _ => true,
    }
}
