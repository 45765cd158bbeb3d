//! A desk as bytes.

use super::table::{Table, BLANK};
use crate::rendezvous::{GUARDS, PROCESSES, TABLE_BYTES};
use model::{Desk, Guard, IndexedMessage, Message, Party, Place};

/// Writes a desk; a record that it does not have is a fresh one.
pub fn encode(desk: &Desk) -> Table {
    let mut out = Vec::with_capacity(TABLE_BYTES);
    out.push(desk.n as u8);
    out.push(desk.nap);
    out.extend(desk.next_ticket.0.to_le_bytes());
    out.extend(desk.meetings.to_le_bytes());
    out.extend(desk.withdrawn.to_le_bytes());
    let fresh = Party::fresh();
    for number in 0..PROCESSES {
        put_record(&mut out, desk.parties.get(number).unwrap_or(&fresh));
    }
    Table::of(out)
}

fn put_record(out: &mut Vec<u8>, record: &Party) {
    put_place(out, record.place);
    put_signal(out, record.signal);
    out.extend(record.ticket.0.to_le_bytes());
    out.push(u8::from(record.wake_count == 0));
    out.push(record.guards.len() as u8);
    out.push(record.posted.len() as u8);
    put_slots(out, &record.guards);
    put_slots(out, &record.posted);
}

pub fn put_place(out: &mut Vec<u8>, place: Place) {
    let (tag, index, kept, message) = match place {
        Place::Idle => (0, 0, 0, Message::Nothing),
        Place::Entering => (1, 0, 0, Message::Nothing),
        Place::Scanning(own) => (2, own, 0, Message::Nothing),
        Place::Trying(own) => (3, own, 0, Message::Nothing),
        Place::Committed { own, kept } => (4, own, kept, Message::Nothing),
        Place::Posting => (5, 0, 0, Message::Nothing),
        Place::Opening => (6, 0, 0, Message::Nothing),
        Place::Showing => (7, 0, 0, Message::Nothing),
        Place::Asleep(steps) => (8, usize::from(steps), 0, Message::Nothing),
        Place::Waiting => (9, 0, 0, Message::Nothing),
        Place::Met(outcome) => (10, outcome.index, 0, outcome.message),
    };
    out.extend([tag, index as u8, kept as u8]);
    put_message(out, message);
}

pub fn put_signal(out: &mut Vec<u8>, signal: Option<IndexedMessage>) {
    let (tag, index, message) = match signal {
        None => (0, 0, Message::Nothing),
        Some(IndexedMessage { index, message }) => (1, index, message),
    };
    out.extend([tag, index as u8]);
    put_message(out, message);
}

fn put_slots(out: &mut Vec<u8>, list: &[Guard]) {
    for slot in 0..GUARDS {
        put_guard(out, list.get(slot).unwrap_or(&BLANK));
    }
}

pub fn put_guard(out: &mut Vec<u8>, guard: &Guard) {
    let (enabled, sends) = (u8::from(guard.enabled), u8::from(guard.sends()));
    out.extend([enabled, guard.partner as u8, guard.kind, guard.rank, sends]);
    put_message(out, guard.message());
}

pub fn put_message(out: &mut Vec<u8>, message: Message) {
    let (tag, first, second) = match message {
        Message::Nothing => (0, 0, 0),
        Message::Whole(number) => (1, number as u32, 0),
        Message::Reading(value) => (2, value.to_bits(), 0),
        Message::Limit { low, high } => (3, low.to_bits(), high.to_bits()),
    };
    out.push(tag);
    out.extend(first.to_le_bytes());
    out.extend(second.to_le_bytes());
}

#[cfg(test)]
mod tests {
    use super::*;
    use crate::rendezvous::{meetings, of_kind, of_rank, offers, receives, sends, withdrawn};
    use crate::rendezvous::{GUARD_BYTES, GUARD_MESSAGE, HEAD_BYTES, HEAD_COUNT, HEAD_MEETINGS};
    use crate::rendezvous::{HEAD_NAP, HEAD_NEXT, HEAD_WITHDRAWN};
    use crate::rendezvous::{LIMIT, NOTHING, READING, WHOLE};
    use crate::rendezvous::{MESSAGE_BYTES, MESSAGE_VARIANT, RECORD_ACCEPTING};
    use crate::rendezvous::{RECORD_BYTES, RECORD_COUNTS, RECORD_INDEX, RECORD_KEPT};
    use crate::rendezvous::{RECORD_OUTCOME, RECORD_OWN, RECORD_PLACE, RECORD_POSTED};
    use crate::rendezvous::{RECORD_SIGNAL, RECORD_SIGNAL_MESSAGE, RECORD_TICKET};
    use model::{Action, Ticket};

    #[test]
    fn a_fresh_table_is_n_the_nap_and_zeros() {
        let table = encode(&Desk::new(7, 255).expect("both are good numbers"));
        assert_eq!(table.bytes()[HEAD_COUNT], 7);
        assert_eq!(table.bytes()[HEAD_NAP], 255);
        assert!(table.bytes()[HEAD_NEXT..].iter().all(|&byte| byte == 0));
    }

    #[test]
    fn the_fields_stand_where_they_should() {
        let mut desk = Desk::new(2, 9).expect("both are good numbers");
        desk.next_ticket = Ticket(0x0403_0201);
        desk.meetings = 0x0c0b_0a09_0807_0605;
        desk.withdrawn = u64::MAX - 0x0f;
        let limit = Message::Limit {
            low: 1.0,
            high: -2.0,
        };
        let record = &mut desk.parties[1];
        record.place = Place::Committed { own: 3, kept: 7 };
        record.signal = Some(IndexedMessage {
            index: 5,
            message: limit,
        });
        record.ticket = Ticket(6);
        record.wake_count = 0;
        let table = encode(&desk);
        let (head, records) = table.bytes().split_at(HEAD_BYTES);
        let bytes = &records[RECORD_BYTES..];
        assert_eq!(head[..HEAD_MEETINGS], [2, 9, 1, 2, 3, 4]);
        assert_eq!(
            head[HEAD_MEETINGS..HEAD_WITHDRAWN],
            [5, 6, 7, 8, 9, 10, 11, 12]
        );
        let most = [0xf0, 255, 255, 255, 255, 255, 255, 255];
        assert_eq!(head[HEAD_WITHDRAWN..], most);
        assert_eq!(offers(table.bytes()), desk.next_ticket.0);
        assert_eq!(meetings(table.bytes()), desk.meetings);
        assert_eq!(withdrawn(table.bytes()), desk.withdrawn);
        assert_eq!(bytes[RECORD_PLACE], 4);
        assert_eq!(bytes[RECORD_INDEX], 3);
        assert_eq!(bytes[RECORD_KEPT], 7);
        assert_eq!(bytes[RECORD_OUTCOME..RECORD_SIGNAL], [0; MESSAGE_BYTES]);
        assert_eq!(bytes[RECORD_SIGNAL..RECORD_SIGNAL_MESSAGE], [1, 5]);
        let signalled = [3, 0, 0, 128, 63, 0, 0, 0, 192];
        assert_eq!(bytes[RECORD_SIGNAL_MESSAGE..RECORD_TICKET], signalled);
        assert_eq!(bytes[RECORD_TICKET..RECORD_ACCEPTING], [6, 0, 0, 0]);
        assert_eq!(bytes[RECORD_ACCEPTING], 1);
    }

    #[test]
    fn a_sleepers_steps_have_the_byte_of_an_index() {
        let mut desk = Desk::new(2, 255).expect("both are good numbers");
        desk.parties[0].place = Place::Asleep(254);
        let table = encode(&desk);
        let record = &table.bytes()[HEAD_BYTES..][..RECORD_BYTES];
        let used = (0..RECORD_BYTES).filter(|&at| record[at] != 0);
        assert_eq!(used.collect::<Vec<_>>(), [RECORD_PLACE, RECORD_INDEX]);
        assert_eq!(record[RECORD_PLACE..=RECORD_INDEX], [8, 254]);
    }

    #[test]
    fn the_guards_stand_where_they_should() {
        let sending = Guard {
            enabled: false,
            partner: 9,
            kind: 255,
            rank: 128,
            action: Action::Send(Message::Whole(-2)),
        };
        let receiving = Guard {
            enabled: true,
            partner: 8,
            kind: 0,
            rank: 0,
            action: Action::Receive,
        };
        let mut desk = Desk::new(2, 1).expect("both are good numbers");
        desk.parties[0].guards = vec![receiving];
        desk.parties[0].posted = vec![sending, receiving];
        let table = encode(&desk);
        let bytes = &table.bytes()[HEAD_BYTES..];
        assert_eq!(bytes[RECORD_COUNTS..RECORD_OWN], [1, 2]);
        assert_eq!(bytes[RECORD_OWN..][..GUARD_BYTES], receives(true, 8));
        let (first, rest) = bytes[RECORD_POSTED..].split_at(GUARD_BYTES);
        assert_eq!(first[..GUARD_MESSAGE], [0, 9, 255, 128, 1]);
        assert_eq!(first[GUARD_MESSAGE..], [1, 254, 255, 255, 255, 0, 0, 0, 0]);
        let plain = sends(false, 9, WHOLE, 0xffff_fffe, 0);
        assert_eq!(first, of_rank(of_kind(plain, 255), 128));
        assert_eq!(rest[..GUARD_BYTES], receives(true, 8));
    }

    #[test]
    fn messages_have_their_variants() {
        let (low, high) = (1.0, -2.0);
        for (message, variant) in [
            (Message::Nothing, NOTHING),
            (Message::Whole(7), WHOLE),
            (Message::Reading(low), READING),
            (Message::Limit { low, high }, LIMIT),
        ] {
            let mut bytes = Vec::new();
            put_message(&mut bytes, message);
            assert_eq!(bytes[MESSAGE_VARIANT], variant);
        }
    }
}
