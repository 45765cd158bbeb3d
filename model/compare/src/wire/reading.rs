//! A desk out of bytes.

use super::table::{Table, BLANK};
use crate::rendezvous::{GUARDS, PROCESSES};
use model::{Action, Desk, Guard, IndexedMessage, Message, Party, Place, Ticket};

/// Reads a table: any bytes are one. A tag past the last one counts as the
/// last. A list longer than its eight slots is filled up with blank guards, so
/// that its length is kept; slots past a list's end are not looked at.
pub fn decode(table: &Table) -> Desk {
    let mut input = Reader(table.bytes());
    Desk {
        n: input.index(),
        nap: input.byte(),
        next_ticket: Ticket(input.word()),
        meetings: input.long(),
        withdrawn: input.long(),
        parties: (0..PROCESSES).map(|_| record(&mut input)).collect(),
    }
}

/// The bytes that are still to be read, one value after another.
pub struct Reader<'a>(pub &'a [u8]);

impl Reader<'_> {
    pub fn byte(&mut self) -> u8 {
        let (&first, rest) = self.0.split_first().expect("a byte is left");
        self.0 = rest;
        first
    }

    fn word(&mut self) -> u32 {
        u32::from_le_bytes([self.byte(), self.byte(), self.byte(), self.byte()])
    }

    fn long(&mut self) -> u64 {
        let (low, high) = (self.word(), self.word());
        u64::from(high) << 32 | u64::from(low)
    }

    fn index(&mut self) -> usize {
        usize::from(self.byte())
    }

    pub fn flag(&mut self) -> bool {
        self.byte() != 0
    }
}

fn record(input: &mut Reader) -> Party {
    let place = place(input);
    let signal = signal(input);
    let ticket = Ticket(input.word());
    let wake_count = u8::from(!input.flag());
    let (count, posted_count) = (input.index(), input.index());
    Party {
        guards: list(input, count),
        ticket,
        posted: list(input, posted_count),
        wake_count,
        signal,
        place,
    }
}

pub fn place(input: &mut Reader) -> Place {
    let (tag, second, kept) = (input.byte(), input.byte(), input.index());
    let own = usize::from(second);
    let message = message(input);
    match tag {
        0 => Place::Idle,
        1 => Place::Entering,
        2 => Place::Scanning(own),
        3 => Place::Trying(own),
        4 => Place::Committed { own, kept },
        5 => Place::Posting,
        6 => Place::Opening,
        7 => Place::Showing,
        8 => Place::Asleep(second),
        9 => Place::Waiting,
        _ => Place::Met(IndexedMessage {
            index: own,
            message,
        }),
    }
}

pub fn signal(input: &mut Reader) -> Option<IndexedMessage> {
    let present = input.flag();
    let index = input.index();
    let message = message(input);
    present.then_some(IndexedMessage { index, message })
}

fn list(input: &mut Reader, count: usize) -> Vec<Guard> {
    let mut list: Vec<Guard> = (0..GUARDS).map(|_| guard(input)).collect();
    list.resize(count, BLANK);
    list
}

pub fn guard(input: &mut Reader) -> Guard {
    let enabled = input.flag();
    let partner = input.index();
    let kind = input.byte();
    let rank = input.byte();
    let sends = input.flag();
    let message = message(input);
    Guard {
        enabled,
        partner,
        kind,
        rank,
        action: match sends {
            true => Action::Send(message),
            false => Action::Receive,
        },
    }
}

fn message(input: &mut Reader) -> Message {
    let (tag, first, second) = (input.byte(), input.word(), input.word());
    match tag {
        0 => Message::Nothing,
        1 => Message::Whole(first as i32),
        2 => Message::Reading(f32::from_bits(first)),
        _ => Message::Limit {
            low: f32::from_bits(first),
            high: f32::from_bits(second),
        },
    }
}

/// Reads a message alone, from its bytes.
pub fn message_of(bytes: &[u8]) -> Message {
    message(&mut Reader(bytes))
}

#[cfg(test)]
mod tests {
    use super::super::{encode, put_guard};
    use super::*;
    use crate::damage;
    use crate::random::Random;
    use crate::rendezvous::{GUARD_BYTES, GUARD_ENABLED, GUARD_KIND, GUARD_PARTNER};
    use crate::rendezvous::{GUARD_RANK, GUARD_SENDS};

    #[test]
    fn any_desk_is_read_back_as_it_was_written() {
        let mut random = Random::new(1);
        for _ in 0..2000 {
            let desk = damage::any_desk(&mut random);
            assert_eq!(decode(&encode(&desk)), desk);
        }
    }

    #[test]
    fn each_part_of_a_guard_has_its_byte() {
        let (enabled, partner, kind, rank) = (true, 255, 255, 255);
        let action = Action::Send(Message::Nothing);
        for (part, place) in [
            (Guard { enabled, ..BLANK }, GUARD_ENABLED),
            (Guard { partner, ..BLANK }, GUARD_PARTNER),
            (Guard { kind, ..BLANK }, GUARD_KIND),
            (Guard { rank, ..BLANK }, GUARD_RANK),
            (Guard { action, ..BLANK }, GUARD_SENDS),
        ] {
            let mut bytes = Vec::new();
            put_guard(&mut bytes, &part);
            let used = (0..GUARD_BYTES).filter(|&at| bytes[at] != 0);
            assert_eq!(used.collect::<Vec<_>>(), [place]);
            assert_eq!(guard(&mut Reader(&bytes)), part);
        }
    }
}
