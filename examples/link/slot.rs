//! A radio task takes readings in slots, and gives up when a slot closes before it has met. `meet`
//! is the loop of a task with a time limit, to be copied.
//! rustc --edition 2021 -C panic=abort -L crates/exports/out -l static=exports examples/link/slot.rs -o target/slot-rust
//!
//! The loop. As in tasks.rs a task takes the lock, offers, and makes rounds, in which EVERY process
//! steps once, in number order. After each round it looks whether its process is at M, and whether
//! its slot has closed: here a slot is so many rounds, a radio would look at its clock. After a
//! round that changes nothing it gives the lock up for a moment. When the slot closes, it withdraws:
//! - Withdrawn: nobody has met this offer, and nobody will.
//! - Too late, or refused by 14, since the process is at M by then: a commit came first, and the
//!   message is on its way. The task must go on until it collects. It waits for no other task in
//!   that, since rounds move the partner too.
//!
//! So each offer ends in one of two ways: met or withdrawn.

#[path = "../../crates/exports/rendezvous.rs"]
mod rendezvous;

use rendezvous::{collect, create, offer, receives, sends, step, withdraw, word};
use rendezvous::{ANSWER_BYTES, ANSWER_MESSAGE, ANSWER_VARIANT, HEAD_NEXT, TABLE_BYTES};
use rendezvous::{COLLECTED, MESSAGE_FIRST, MOVED, OFFERED, READING, TOO_LATE, WITHDRAWN};
use std::sync::{Condvar, Mutex};
use std::thread;
use std::time::Duration;

const STORE: u8 = 0;
const RADIO: u8 = 1;
const PROCESSES: u8 = 2;
/// As in tasks.rs.
const NAP: u8 = 1;

/// The table, what the last call answered, and how many withdrawals were too late.
struct Table {
    bytes: [u8; TABLE_BYTES],
    answer: [u8; ANSWER_BYTES],
    late: u32,
}

impl Table {
    fn fresh() -> Table {
        let (mut bytes, mut answer) = ([0; TABLE_BYTES], [0; ANSWER_BYTES]);
        assert!(create(PROCESSES, NAP, &mut bytes, &mut answer));
        Table {
            bytes,
            answer,
            late: 0,
        }
    }

    /// The table that a call hands back is the one for the next call. Gives the variant of the answer.
    fn call(&mut self, called: impl FnOnce(&[u8], &mut [u8], &mut [u8]) -> bool) -> u8 {
        let mut after = [0; TABLE_BYTES];
        assert!(called(&self.bytes, &mut after, &mut self.answer));
        self.bytes = after;
        self.answer[ANSWER_VARIANT]
    }

    fn offer(&mut self, p: u8, guard: &[u8]) {
        let variant = self.call(|table, after, answer| offer(table, p, guard, after, answer));
        assert_eq!(variant, OFFERED, "an offer is refused");
    }

    /// Every process steps once, in number order. Gives whether that changed anything.
    fn round_changes(&mut self) -> bool {
        let mut changes = false;
        for p in 0..PROCESSES {
            changes |= self.call(|table, after, answer| step(table, p, after, answer)) == MOVED;
        }
        changes
    }

    /// The bits of what process p collects, if it is at M.
    fn collected(&mut self, p: u8) -> Option<u32> {
        let variant = self.call(|table, after, answer| collect(table, p, after, answer));
        (variant == COLLECTED).then_some(word(&self.answer[ANSWER_MESSAGE + MESSAGE_FIRST..]))
    }

    /// Whether the offer of process p is withdrawn. If not, a commit came first.
    fn withdrawn(&mut self, p: u8) -> bool {
        let variant = self.call(|table, after, answer| withdraw(table, p, after, answer));
        self.late += u32::from(variant == TOO_LATE);
        variant == WITHDRAWN
    }
}

struct Shared {
    table: Mutex<Table>,
    changed: Condvar,
}

/// The loop of a task with a time limit: process p offers the guard, and meets, or gives up when
/// its slot of so many rounds closes.
fn meet(shared: &Shared, p: u8, guard: &[u8], slot: u32) -> Option<u32> {
    let mut table = shared.table.lock().unwrap();
    let mut met = None;
    table.offer(p, guard);
    for _ in 0..slot {
        if !table.round_changes() {
            let moment = Duration::from_millis(1);
            table = shared.changed.wait_timeout(table, moment).unwrap().0;
        }
        met = table.collected(p);
        if met.is_some() {
            break;
        }
    }
    if met.is_none() && !table.withdrawn(p) {
        while met.is_none() {
            table.round_changes();
            met = table.collected(p);
        }
    }
    shared.changed.notify_all();
    met
}

const READINGS: u32 = 1000;

/// Reading k has the bits of 4.72 and k more, so that no two are alike.
fn reading(k: u32) -> u32 {
    4.72_f32.to_bits() + k
}

/// Offers each reading until it is met, in slots that are long. Gives how many were withdrawn.
fn store(shared: &Shared) -> u32 {
    let mut withdrawn = 0;
    for k in 0..READINGS {
        let guard = sends(true, RADIO, READING, reading(k), 0);
        while meet(shared, STORE, &guard, 100).is_none() {
            withdrawn += 1;
        }
    }
    withdrawn
}

/// Takes every reading, in slots of 0 to 7 rounds: where the store waits, a commit comes in the
/// third. Between two slots the store comes back. Gives how many offers were withdrawn.
fn radio(shared: &Shared) -> u32 {
    let (mut taken, mut withdrawn) = (0, 0);
    for slot in (0..8).cycle() {
        match meet(shared, RADIO, &receives(true, STORE), slot) {
            Some(bits) => {
                assert_eq!(bits, reading(taken), "the reading that is due");
                taken += 1;
            }
            None => withdrawn += 1,
        }
        if taken == READINGS {
            break;
        }
        thread::sleep(Duration::from_micros(100));
    }
    withdrawn
}

fn main() {
    let shared = Shared {
        table: Mutex::new(Table::fresh()),
        changed: Condvar::new(),
    };
    let (stored, listened) = thread::scope(|scope| {
        let storing = scope.spawn(|| store(&shared));
        let listening = scope.spawn(|| radio(&shared));
        (storing.join().unwrap(), listening.join().unwrap())
    });
    let table = shared.table.into_inner().unwrap();
    // Each offer took a ticket; each rendezvous ended two of them, each withdrawal one.
    let tickets = word(&table.bytes[HEAD_NEXT..]);
    assert_eq!(tickets, 2 * READINGS + stored + listened);
    assert!(listened > 0, "a slot closed before the commit");
    assert!(table.late > 0, "and one after it");
    println!("{READINGS} readings, none lost, doubled or altered; every other offer was withdrawn");
}
