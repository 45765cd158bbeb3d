//! Refusal 7 on a desk by value.

use super::desk::Desk;
use super::record::{GuardList, Party, Place, MOST_GUARDS};

pub fn in_form(desk: &Desk) -> bool {
    (2..=32).contains(&desk.n)
        && desk.nap > 0
        && (0..desk.n).all(|party| party_in_form(desk, party))
        && totals_in_form(desk)
}

/// The offers met, withdrawn and open are no more than the tickets given. The
/// sum of damaged counters may need more than 64 bits.
fn totals_in_form(desk: &Desk) -> bool {
    let (meetings, withdrawn) = (u128::from(desk.meetings), u128::from(desk.withdrawn));
    let open = (0..desk.n).filter(|&party| desk.party(party).is_open());
    2 * meetings + withdrawn + open.count() as u128 <= u128::from(desk.next_ticket.0)
}

fn party_in_form(desk: &Desk, party: u8) -> bool {
    let record = desk.party(party);
    list_in_form(&record.guards, party, desk.n)
        && list_in_form(&record.posted, party, desk.n)
        && indexes_in_form(record)
        && kept_in_form(desk, record)
        && sleeper_in_form(record, desk.nap)
}

fn list_in_form(list: &GuardList, party: u8, n: u8) -> bool {
    usize::from(list.count) <= MOST_GUARDS
        && list
            .as_slice()
            .iter()
            .all(|guard| guard.partner != party && guard.partner < n)
}

/// The indexes in A, T, C, the outcome and the signal, against the own list.
fn indexes_in_form(record: &Party) -> bool {
    let in_place = match record.place {
        Place::Scanning(own) | Place::Trying(own) | Place::Committed { own, .. } => Some(own),
        Place::Met(outcome) => Some(outcome.index),
        _ => None,
    };
    let in_signal = record.signal.map(|signal| signal.index);
    let has_guard = |index: u8| index < record.guards.count;
    in_place.is_none_or(has_guard) && in_signal.is_none_or(has_guard)
}

/// The kept index at C, against the posted list of the partner that the own
/// guard names; the own list and index are in form here, and so is the partner.
fn kept_in_form(desk: &Desk, record: &Party) -> bool {
    match record.place {
        Place::Committed { own, kept } => record
            .guards
            .get(own)
            .is_some_and(|guard| kept < desk.party(guard.partner).posted.count),
        _ => true,
    }
}

/// A sleeper leaves S at its step number `nap`, so it has made fewer there.
fn sleeper_in_form(record: &Party, nap: u8) -> bool {
    match record.place {
        Place::Asleep(steps) => steps < nap,
        _ => true,
    }
}
