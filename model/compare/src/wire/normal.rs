//! Any bytes as the library writes them.

use super::reading::{guard, place, signal, Reader};
use super::table::Table;
use super::writing::{put_guard, put_place, put_signal};
use crate::rendezvous::{GUARDS, HEAD_BYTES, PROCESSES, TABLE_BYTES, WORD_BYTES};
use model::{Action, Guard, IndexedMessage, Message, Place};

/// The same table as the library writes it: known tags, zeros where nothing is
/// said, and one NaN. Slots past a list's end are kept.
pub fn normal(table: &Table) -> Table {
    let mut input = Reader(table.bytes());
    let mut out = Vec::with_capacity(TABLE_BYTES);
    out.extend((0..HEAD_BYTES).map(|_| input.byte()));
    for _ in 0..PROCESSES {
        put_place(&mut out, one_nan_at(place(&mut input)));
        put_signal(&mut out, signal(&mut input).map(one_nan_in));
        out.extend((0..WORD_BYTES).map(|_| input.byte()));
        out.push(u8::from(input.flag()));
        out.extend([input.byte(), input.byte()]);
        for _ in 0..2 * GUARDS {
            put_guard(&mut out, &one_nan_of(guard(&mut input)));
        }
    }
    Table::of(out)
}

/// The message with its NaNs written in the one way that the library has.
pub fn one_nan(message: Message) -> Message {
    let one = |value: f32| match value.is_nan() {
        true => f32::from_bits(0x7fc0_0000),
        false => value,
    };
    match message {
        Message::Nothing | Message::Whole(_) => message,
        Message::Reading(value) => Message::Reading(one(value)),
        Message::Limit { low, high } => Message::Limit {
            low: one(low),
            high: one(high),
        },
    }
}

fn one_nan_in(indexed: IndexedMessage) -> IndexedMessage {
    IndexedMessage {
        index: indexed.index,
        message: one_nan(indexed.message),
    }
}

fn one_nan_at(place: Place) -> Place {
    match place {
        Place::Met(outcome) => Place::Met(one_nan_in(outcome)),
        other => other,
    }
}

fn one_nan_of(guard: Guard) -> Guard {
    let action = match guard.action {
        Action::Receive => Action::Receive,
        Action::Send(message) => Action::Send(one_nan(message)),
    };
    Guard { action, ..guard }
}

#[cfg(test)]
mod tests {
    use super::super::{decode, encode};
    use super::*;
    use crate::rendezvous::{GUARD_ENABLED, GUARD_KIND, GUARD_RANK, HEAD_MEETINGS, HEAD_NAP};
    use crate::rendezvous::{HEAD_WITHDRAWN, RECORD_INDEX, RECORD_KEPT, RECORD_OUTCOME};
    use crate::rendezvous::{RECORD_OWN, RECORD_PLACE};
    use model::Desk;

    #[test]
    fn what_is_written_is_normal_but_for_its_nans() {
        let mut desk = Desk::new(2, 1).expect("both are good numbers");
        desk.parties[0].place = Place::Met(IndexedMessage {
            index: 0,
            message: Message::Reading(f32::from_bits(0xff80_0001)),
        });
        let normal_table = normal(&encode(&desk));
        desk.parties[0].place = Place::Met(IndexedMessage {
            index: 0,
            message: Message::Reading(f32::from_bits(0x7fc0_0000)),
        });
        assert_eq!(normal_table, encode(&desk));
        assert_eq!(normal(&normal_table), normal_table);
    }

    #[test]
    fn an_unknown_tag_counts_as_the_last() {
        let mut table = Table::zero();
        table.bytes_mut()[HEAD_BYTES + RECORD_PLACE] = 11;
        table.bytes_mut()[HEAD_BYTES + RECORD_OUTCOME] = 200;
        let record = &decode(&table).parties[0];
        let nothing_but_zeros = Message::Limit {
            low: 0.0,
            high: 0.0,
        };
        let outcome = IndexedMessage {
            index: 0,
            message: nothing_but_zeros,
        };
        assert_eq!(record.place, Place::Met(outcome));
        assert_eq!(normal(&table).bytes()[HEAD_BYTES..][..4], [10, 0, 0, 3]);
    }

    #[test]
    fn naps_and_steps_of_sleepers_are_kept_whatever_they_are() {
        for (nap, steps) in [(0, 0), (0, 255), (1, 1), (255, 254), (255, 255)] {
            let mut table = Table::zero();
            table.bytes_mut()[HEAD_NAP] = nap;
            let record = &mut table.bytes_mut()[HEAD_BYTES..];
            record[RECORD_PLACE] = 8;
            record[RECORD_INDEX] = steps;
            assert_eq!(decode(&table).nap, nap);
            assert_eq!(decode(&table).parties[0].place, Place::Asleep(steps));
            assert_eq!(normal(&table), table);
            // Only C has a kept index.
            table.bytes_mut()[HEAD_BYTES + RECORD_KEPT] = 1;
            assert_eq!(normal(&table).bytes()[HEAD_BYTES + RECORD_KEPT], 0);
        }
    }

    #[test]
    fn totals_are_kept_whatever_they_are() {
        for total in [0, 1, 1 << 32, 1 << 63, u64::MAX] {
            let mut table = Table::zero();
            table.bytes_mut()[HEAD_MEETINGS..HEAD_WITHDRAWN].copy_from_slice(&total.to_le_bytes());
            table.bytes_mut()[HEAD_WITHDRAWN..HEAD_BYTES].copy_from_slice(&(!total).to_le_bytes());
            let desk = decode(&table);
            assert_eq!((desk.meetings, desk.withdrawn), (total, !total));
            assert_eq!(normal(&table), table);
        }
    }

    #[test]
    fn slots_past_a_lists_end_are_kept_but_not_read() {
        let mut table = Table::zero();
        table.bytes_mut()[HEAD_BYTES + RECORD_OWN + GUARD_ENABLED] = 1;
        table.bytes_mut()[HEAD_BYTES + RECORD_OWN + GUARD_KIND] = 255;
        table.bytes_mut()[HEAD_BYTES + RECORD_OWN + GUARD_RANK] = 255;
        assert!(decode(&table).parties[0].guards.is_empty());
        assert_eq!(normal(&table), table);
    }
}
