//! The proved library, through the bytes of its tables and answers.

use crate::library::{Library, Reply};
use crate::rendezvous::{self, word, ANSWER_BYTES, ANSWER_FIRST, ANSWER_VARIANT};
use crate::rendezvous::{ANSWER_MESSAGE, ANSWER_SECOND, ANSWER_WORD};
use crate::rendezvous::{COLLECTED, MADE, MOVED, OFFERED, REFUSED, RUNNABLE};
use crate::rendezvous::{TOO_LATE, UNCHANGED, WITHDRAWN};
use crate::wire::{message_of, put_guard, Table};
use model::{Answer, Call, Given, Guard, Outcome, Ticket, Withdrawal};
use std::ops::Range;

pub struct Proved;

impl Library for Proved {
    fn create(&self, n: u8, nap: u8) -> Result<Table, u8> {
        let (table, said) = into_buffers(|out, answer| rendezvous::create(n, nap, out, answer));
        match read(&said) {
            Said::Made => Ok(table),
            Said::Refused(number) => Err(number),
            other => panic!("a new table answers {other:?}"),
        }
    }

    fn call(&self, table: &Table, call: &Call) -> Reply {
        let before = table.bytes();
        let (table, said) = into_buffers(|out, answer| match call {
            Call::Offer { party, guards } => {
                rendezvous::offer(before, *party as u8, &list(guards), out, answer)
            }
            Call::Step { party } => rendezvous::step(before, *party as u8, out, answer),
            Call::Collect { party } => rendezvous::collect(before, *party as u8, out, answer),
            Call::Withdraw { party } => rendezvous::withdraw(before, *party as u8, out, answer),
            Call::Movers => rendezvous::runnable(before, out, answer),
        });
        let answer = match read(&said) {
            Said::Given(given) => Ok(given),
            Said::Refused(number) => Err(number),
            Said::Made => panic!("a call on a table answers that it made one"),
        };
        Reply { answer, table }
    }
}

/// Lends the two buffers of a reply to a call, which must find them long enough.
fn into_buffers(call: impl FnOnce(&mut [u8], &mut [u8]) -> bool) -> (Table, [u8; ANSWER_BYTES]) {
    // Filled with something that no reply leaves standing.
    let mut out = Table::zero();
    out.bytes_mut().fill(0xee);
    let mut answer = [0xee; ANSWER_BYTES];
    let written = call(out.bytes_mut(), &mut answer);
    assert!(written, "the library finds a buffer too short");
    (out, answer)
}

/// The bytes of an offer's guards.
fn list(guards: &[Guard]) -> Vec<u8> {
    let mut bytes = Vec::new();
    for guard in guards {
        put_guard(&mut bytes, guard);
    }
    bytes
}

#[derive(Debug, PartialEq)]
enum Said {
    Made,
    Given(Given),
    Refused(u8),
}

/// Reads an answer. The library always writes a known variant, and 0 where such an
/// answer says nothing.
fn read(answer: &[u8; ANSWER_BYTES]) -> Said {
    assert!(!has_stray(answer), "the library answers {answer:?}");
    let (first, second) = (answer[ANSWER_FIRST], answer[ANSWER_SECOND]);
    let message = message_of(&answer[ANSWER_MESSAGE..ANSWER_WORD]);
    let word = word(&answer[ANSWER_WORD..]);
    Said::Given(match answer[ANSWER_VARIANT] {
        MADE => return Said::Made,
        OFFERED => Given::Ticket(Ticket(word)),
        MOVED => Given::Place(Some(place(char::from(first), usize::from(second)))),
        UNCHANGED => Given::Place(None),
        COLLECTED => Given::Outcome(Outcome {
            index: usize::from(first),
            partner: usize::from(second),
            message,
        }),
        RUNNABLE => Given::Set(word),
        WITHDRAWN => Given::Withdrawal(Withdrawal::Withdrawn),
        TOO_LATE => Given::Withdrawal(Withdrawal::TooLate),
        REFUSED => return Said::Refused(first),
        _ => panic!("the library answers {answer:?}"),
    })
}

/// True if a byte is not 0 where an answer of its variant says nothing.
fn has_stray(answer: &[u8; ANSWER_BYTES]) -> bool {
    let used = used(answer[ANSWER_VARIANT], char::from(answer[ANSWER_FIRST]));
    let mut unused = (ANSWER_FIRST..ANSWER_BYTES).filter(|at| !used.contains(at));
    unused.any(|at| answer[at] != 0)
}

/// Where an answer of this variant, and of this letter if it is one of a place,
/// says something past the variant.
fn used(variant: u8, letter: char) -> Range<usize> {
    match variant {
        OFFERED | RUNNABLE => ANSWER_WORD..ANSWER_BYTES,
        MOVED if has_index(letter) => ANSWER_FIRST..ANSWER_MESSAGE,
        MOVED => ANSWER_FIRST..ANSWER_SECOND,
        COLLECTED => ANSWER_FIRST..ANSWER_WORD,
        REFUSED => ANSWER_FIRST..ANSWER_SECOND,
        _ => 0..0,
    }
}

/// A place as a step says it.
fn place(letter: char, index: usize) -> Answer {
    let index = has_index(letter).then_some(index);
    Answer { letter, index }
}

/// Only A, T and C go with an index; the steps made at S are not told.
fn has_index(letter: char) -> bool {
    matches!(letter, 'A' | 'T' | 'C')
}

#[cfg(test)]
mod tests {
    use super::*;
    use crate::library::Start;
    use crate::plans::guard;
    use crate::rendezvous::{receives, GUARD_KIND, GUARD_RANK, HEAD_BYTES, HEAD_NEXT, LIMIT};
    use crate::rendezvous::{RECORD_INDEX, RECORD_OWN, RECORD_PLACE, RECORD_POSTED};
    use crate::rendezvous::{TABLE_BYTES, WORD_BYTES};
    use crate::wire::encode;
    use model::{Message, Place};

    /// The bytes of an answer; `start` is its variant, first and second.
    fn answer(start: [u8; 3], message: &[u8], word: [u8; WORD_BYTES]) -> [u8; ANSWER_BYTES] {
        let mut bytes = [0; ANSWER_BYTES];
        let [variant, first, second] = start;
        bytes[ANSWER_VARIANT] = variant;
        bytes[ANSWER_FIRST] = first;
        bytes[ANSWER_SECOND] = second;
        bytes[ANSWER_MESSAGE..][..message.len()].copy_from_slice(message);
        bytes[ANSWER_WORD..].copy_from_slice(&word);
        bytes
    }

    fn given(start: [u8; 3], message: &[u8], word: [u8; WORD_BYTES]) -> Given {
        match read(&answer(start, message, word)) {
            Said::Given(given) => given,
            other => panic!("{other:?}"),
        }
    }

    #[test]
    fn answers_are_read() {
        let zeros = [0; WORD_BYTES];
        assert_eq!(read(&answer([MADE, 0, 0], &[], zeros)), Said::Made);
        assert_eq!(
            read(&answer([REFUSED, 11, 0], &[], zeros)),
            Said::Refused(11)
        );
        assert_eq!(
            given([OFFERED, 0, 0], &[], [1, 2, 0, 0]),
            Given::Ticket(Ticket(513))
        );
        assert_eq!(given([UNCHANGED, 0, 0], &[], zeros), Given::Place(None));
        assert_eq!(
            given([RUNNABLE, 0, 0], &[], [0, 0, 0, 128]),
            Given::Set(1 << 31)
        );
        assert_eq!(
            given([WITHDRAWN, 0, 0], &[], zeros),
            Given::Withdrawal(Withdrawal::Withdrawn)
        );
        assert_eq!(
            given([TOO_LATE, 0, 0], &[], zeros),
            Given::Withdrawal(Withdrawal::TooLate)
        );
    }

    #[test]
    fn a_stray_byte_in_an_answer_is_found() {
        for variant in [
            MADE, OFFERED, MOVED, UNCHANGED, REFUSED, WITHDRAWN, TOO_LATE,
        ] {
            let with_message = answer([variant, 0, 0], &[1], [0; WORD_BYTES]);
            assert!(has_stray(&with_message));
        }
        for letter in *b"AECHIMOPSTW" {
            let with_index = answer([MOVED, letter, 1], &[], [0; WORD_BYTES]);
            assert_eq!(has_stray(&with_index), !b"ATC".contains(&letter));
        }
    }

    #[test]
    fn places_have_an_index_where_the_document_says_so() {
        let zeros = [0; WORD_BYTES];
        let scanning = place('A', 7);
        assert_eq!(
            given([MOVED, b'A', 7], &[], zeros),
            Given::Place(Some(scanning))
        );
        assert_eq!(scanning.index, Some(7));
        assert_eq!(
            given([MOVED, b'M', 0], &[], zeros),
            Given::Place(Some(place('M', 0)))
        );
        assert_eq!(place('M', 0).index, None);
    }

    #[test]
    fn collections_have_index_partner_and_message() {
        let limit = [LIMIT, 0, 0, 128, 63, 0, 0, 0, 192];
        let outcome = Outcome {
            index: 2,
            partner: 9,
            message: Message::Limit {
                low: 1.0,
                high: -2.0,
            },
        };
        assert_eq!(
            given([COLLECTED, 2, 9], &limit, [0; WORD_BYTES]),
            Given::Outcome(outcome)
        );
    }

    #[test]
    fn the_library_answers() {
        let table = Proved.create(2, 255).expect("both are good numbers");
        assert_eq!(table.bytes()[..HEAD_NEXT], [2, 255]);
        assert_eq!(table.bytes()[HEAD_NEXT..HEAD_BYTES], [0; 20]);
        assert_eq!(table.bytes()[HEAD_BYTES + RECORD_PLACE], 0);
        for (n, nap, number) in [(1, 1, 1), (1, 0, 1), (2, 0, 15)] {
            assert_eq!(Proved.create(n, nap), Err(number));
        }
        let reply = Proved.call(&table, &Call::Step { party: 2 });
        assert_eq!(reply.answer, Err(2));
        assert_eq!(reply.table, table);
        let reply = Proved.call(&table, &Call::Withdraw { party: 1 });
        assert_eq!(reply.answer, Err(14));
        assert_eq!(reply.table, table);
    }

    #[test]
    fn the_library_sleeps_through_every_nap() {
        for nap in 1..=255 {
            let mut desk = Start { n: 2, nap }.desk();
            desk.parties[0].guards = vec![guard(1, false, true)];
            desk.parties[0].place = Place::Asleep(0);
            desk.next_ticket = Ticket(1);
            let mut table = encode(&desk);
            for step in 1..=nap {
                let reply = Proved.call(&table, &Call::Step { party: 0 });
                let letter = if step < nap { 'S' } else { 'A' };
                assert_eq!(reply.answer, Ok(Given::Place(Some(place(letter, 0)))));
                let count = if step < nap { step } else { 0 };
                assert_eq!(reply.table.bytes()[HEAD_BYTES + RECORD_INDEX], count);
                table = reply.table;
            }
        }
    }

    #[test]
    fn the_library_keeps_any_kind_and_rank() {
        let table = Proved.create(2, 1).expect("both are good numbers");
        for kind in 0..=255 {
            let guards = vec![Guard {
                kind,
                rank: !kind,
                ..guard(1, false, true)
            }];
            let mut reply = Proved.call(&table, &Call::Offer { party: 0, guards });
            // To A, P and O: the list is posted.
            for _ in 0..3 {
                reply = Proved.call(&reply.table, &Call::Step { party: 0 });
            }
            let record = &reply.table.bytes()[HEAD_BYTES..];
            for list in [RECORD_OWN, RECORD_POSTED] {
                assert_eq!(record[list + GUARD_KIND..=list + GUARD_RANK], [kind, !kind]);
            }
        }
    }

    fn untouched(bytes: &[u8]) -> bool {
        bytes.iter().all(|&byte| byte == 0xee)
    }

    /// Makes every call on the first bytes of a table and into buffers, all of
    /// these lengths: it writes both buffers, or nothing if one is too short.
    fn all_or_nothing(before: &[u8], lengths: [usize; 3]) {
        let [table, out, answer] = lengths;
        let guard = receives(true, 1);
        let given = &before[..table];
        type Fills<'a> = &'a dyn Fn(&mut [u8], &mut [u8]) -> bool;
        let calls: [Fills; 5] = [
            &|out, answer| rendezvous::offer(given, 0, &guard, out, answer),
            &|out, answer| rendezvous::step(given, 0, out, answer),
            &|out, answer| rendezvous::collect(given, 0, out, answer),
            &|out, answer| rendezvous::withdraw(given, 0, out, answer),
            &|out, answer| rendezvous::runnable(given, out, answer),
        ];
        for call in calls {
            let (mut bytes, mut said) = (vec![0xee; out], vec![0xee; answer]);
            let whole = table >= TABLE_BYTES && out >= TABLE_BYTES && answer >= ANSWER_BYTES;
            assert_eq!(call(&mut bytes, &mut said), whole, "{lengths:?}");
            assert_eq!(untouched(&bytes), !whole, "{lengths:?}");
            assert_eq!(untouched(&said), !whole, "{lengths:?}");
        }
    }

    #[test]
    fn a_call_writes_all_or_nothing() {
        let table = Proved.create(2, 1).expect("both are good numbers");
        for short in [0, 1, TABLE_BYTES - 1] {
            all_or_nothing(table.bytes(), [short, TABLE_BYTES, ANSWER_BYTES]);
            all_or_nothing(table.bytes(), [TABLE_BYTES, short, ANSWER_BYTES]);
            all_or_nothing(
                table.bytes(),
                [TABLE_BYTES, TABLE_BYTES, short.min(ANSWER_BYTES - 1)],
            );
        }
        all_or_nothing(table.bytes(), [0, 0, 0]);
        all_or_nothing(table.bytes(), [TABLE_BYTES, TABLE_BYTES, ANSWER_BYTES]);
    }

    #[test]
    fn a_new_table_is_written_with_its_answer_or_not_at_all() {
        for (table, answer) in [
            (TABLE_BYTES - 1, ANSWER_BYTES),
            (TABLE_BYTES, ANSWER_BYTES - 1),
            (0, 0),
        ] {
            let (mut out, mut said) = (vec![0xee; table], vec![0xee; answer]);
            assert!(!rendezvous::create(2, 1, &mut out, &mut said));
            assert!(untouched(&out) && untouched(&said));
        }
    }
}
