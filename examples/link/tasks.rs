//! Two tasks on two threads pass readings and limits by rendezvous. `meet` is the loop of a task,
//! to be copied.
//! rustc --edition 2021 -C panic=abort -L crates/exports/out -l static=exports examples/link/tasks.rs -o target/tasks-rust
//! target/tasks-rust [N] passes N batches of 100 readings; N is 1,000 if it is not given.
//!
//! The loop. A task takes the lock and offers. Under the same lock it makes rounds, in which EVERY
//! process steps once, in number order, until a round changes nothing: then nothing is runnable
//! (`runnable` gives 0), and so it is whenever the lock is free. If its process is then at M, so
//! that a collection is not refused by 13, the task collects, wakes the others and goes on. If
//! not, it waits to be woken, and looks again.
//!
//! Who is woken when: every task whose process may now be at M. Rounds step the processes of
//! others too. If they have brought the own process to M, they have brought its partner there:
//! notify all. If they have not, they have brought nobody there: before the offer nothing was
//! runnable, so that no two of the older offers match.
//!
//! What "unchanged" and S mean for a caller, and which loops look right and need not end, is said
//! at the head of tasks.c.

#[path = "../../crates/exports/rendezvous.rs"]
mod rendezvous;

use rendezvous::{collect, create, offer, receives, sends, step, word};
use rendezvous::{ANSWER_BYTES, ANSWER_FIRST, ANSWER_MESSAGE, ANSWER_VARIANT, TABLE_BYTES};
use rendezvous::{COLLECTED, LIMIT, MESSAGE_FIRST, MESSAGE_SECOND, MOVED, OFFERED, READING};
use std::sync::{Condvar, Mutex};
use std::thread;

const SAMPLER: u8 = 0;
const FINDER: u8 = 1;
const PROCESSES: u8 = 2;
/// Rounds let every process step between two steps of a sleeper.
const NAP: u8 = 1;

/// What a task collects: which of its guards has met, and the message's one or two f32, as bits.
struct Outcome {
    guard: u8,
    low: u32,
    high: u32,
}

/// The table, and what the last call answered.
struct Table {
    bytes: [u8; TABLE_BYTES],
    answer: [u8; ANSWER_BYTES],
}

impl Table {
    fn fresh() -> Table {
        let (mut bytes, mut answer) = ([0; TABLE_BYTES], [0; ANSWER_BYTES]);
        assert!(create(PROCESSES, NAP, &mut bytes, &mut answer));
        Table { bytes, answer }
    }

    /// The table that a call hands back is the one for the next call.
    fn call(&mut self, called: impl FnOnce(&[u8], &mut [u8], &mut [u8]) -> bool) {
        let mut after = [0; TABLE_BYTES];
        assert!(called(&self.bytes, &mut after, &mut self.answer));
        self.bytes = after;
    }

    fn offer(&mut self, p: u8, guards: &[u8]) {
        self.call(|table, after, answer| offer(table, p, guards, after, answer));
        assert_eq!(self.answer[ANSWER_VARIANT], OFFERED, "an offer is refused");
    }

    /// Every process steps once, in number order. Gives whether that changed anything.
    fn round_changes(&mut self) -> bool {
        let mut changes = false;
        for p in 0..PROCESSES {
            self.call(|table, after, answer| step(table, p, after, answer));
            changes |= self.answer[ANSWER_VARIANT] == MOVED;
        }
        changes
    }

    /// The outcome of process p, if it is at M.
    fn collected(&mut self, p: u8) -> Option<Outcome> {
        self.call(|table, after, answer| collect(table, p, after, answer));
        let message = &self.answer[ANSWER_MESSAGE..];
        (self.answer[ANSWER_VARIANT] == COLLECTED).then_some(Outcome {
            guard: self.answer[ANSWER_FIRST],
            low: word(&message[MESSAGE_FIRST..]),
            high: word(&message[MESSAGE_SECOND..]),
        })
    }
}

struct Shared {
    table: Mutex<Table>,
    met: Condvar,
}

/// The loop of a task: process p offers the guards, and meets.
fn meet(shared: &Shared, p: u8, guards: &[u8]) -> Outcome {
    let mut table = shared.table.lock().unwrap();
    table.offer(p, guards);
    while table.round_changes() {}
    if let Some(outcome) = table.collected(p) {
        shared.met.notify_all();
        return outcome;
    }
    loop {
        table = shared.met.wait(table).unwrap();
        if let Some(outcome) = table.collected(p) {
            return outcome;
        }
    }
}

/// A batch of readings is acknowledged by a limit: its first and its last.
const BATCH: u32 = 100;

/// Reading k has the bits of 4.72 and k more, so that no two are alike.
fn reading(k: u32) -> u32 {
    4.72_f32.to_bits() + k
}

/// What one end has sent and taken.
#[derive(Default, PartialEq, Debug)]
struct Count {
    readings: u32,
    limits: u32,
}

/// Offers the next reading, while there is one, and to take a limit: whichever comes.
fn sample(shared: &Shared, batches: u32) -> Count {
    let mut count = Count::default();
    while count.limits < batches {
        let more = count.readings < BATCH * batches;
        let next = sends(more, FINDER, READING, reading(count.readings), 0);
        let outcome = meet(shared, SAMPLER, &[next, receives(true, FINDER)].concat());
        if outcome.guard == 0 {
            count.readings += 1;
            continue;
        }
        let (first, last) = (BATCH * count.limits, BATCH * count.limits + BATCH - 1);
        assert!(last < count.readings, "its readings are sent");
        assert_eq!((outcome.low, outcome.high), (reading(first), reading(last)));
        count.limits += 1;
    }
    count
}

/// Takes a batch of readings and acknowledges it, again and again.
fn find(shared: &Shared, batches: u32) -> Count {
    let mut count = Count::default();
    while count.limits < batches {
        let (first, last) = (count.readings, count.readings + BATCH - 1);
        while count.readings <= last {
            let outcome = meet(shared, FINDER, &receives(true, SAMPLER));
            assert_eq!(outcome.low, reading(count.readings));
            count.readings += 1;
        }
        let limit = sends(true, SAMPLER, LIMIT, reading(first), reading(last));
        meet(shared, FINDER, &limit);
        count.limits += 1;
    }
    count
}

fn main() {
    let batches = match std::env::args().nth(1) {
        Some(word) => word.parse().expect("a number of batches"),
        None => 1000,
    };
    let shared = Shared {
        table: Mutex::new(Table::fresh()),
        met: Condvar::new(),
    };
    let (sampler, finder) = thread::scope(|scope| {
        let sampler = scope.spawn(|| sample(&shared, batches));
        let finder = scope.spawn(|| find(&shared, batches));
        (sampler.join().unwrap(), finder.join().unwrap())
    });
    assert_eq!(sampler, finder, "the two ends have counted alike");
    let Count { readings, limits } = finder;
    println!("{readings} readings and {limits} limits, none lost, doubled or altered");
}
