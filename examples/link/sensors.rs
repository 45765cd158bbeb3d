//! A pier's sampler offers a strain and a temperature, both whole numbers, and the store has a guard
//! for each: by the kinds each value comes to the guard where it belongs, whatever the order of
//! either list.
//! rustc --edition 2021 -L crates/exports/out -l static=exports examples/link/sensors.rs -o target/sensors-rust

#[path = "../../crates/exports/rendezvous.rs"]
mod rendezvous;

use rendezvous::{collect, create, of_kind, offer, receives, sends, step, word};
use rendezvous::{ANSWER_BYTES, ANSWER_FIRST, ANSWER_MESSAGE, ANSWER_VARIANT, TABLE_BYTES};
use rendezvous::{COLLECTED, GUARD_ENABLED, MESSAGE_FIRST, MOVED, OFFERED, WHOLE};

const SAMPLER: u8 = 0;
const STORE: u8 = 1;
const PROCESSES: u8 = 2;
/// Rounds let every process step between two steps of a sleeper.
const NAP: u8 = 1;

// Kinds.
const TEMPERATURE: u8 = 1;
const STRAIN: u8 = 2;

/// The table, and what the last call answered.
struct Table {
    bytes: [u8; TABLE_BYTES],
    answer: [u8; ANSWER_BYTES],
}

impl Table {
    fn fresh() -> Table {
        let (mut bytes, mut answer) = ([0; TABLE_BYTES], [0; ANSWER_BYTES]);
        assert!(create(PROCESSES, NAP, &mut bytes, &mut answer));
        Table { bytes, answer }
    }

    /// The table that a call hands back is the one for the next call. Gives the variant of the answer.
    fn call(&mut self, called: impl FnOnce(&[u8], &mut [u8], &mut [u8]) -> bool) -> u8 {
        let mut after = [0; TABLE_BYTES];
        assert!(called(&self.bytes, &mut after, &mut self.answer));
        self.bytes = after;
        self.answer[ANSWER_VARIANT]
    }

    fn offer(&mut self, p: u8, guards: &[u8]) {
        let variant = self.call(|table, after, answer| offer(table, p, guards, after, answer));
        assert_eq!(variant, OFFERED, "an offer is refused");
    }

    /// Every process steps once, in number order. Gives whether that changed anything.
    fn round_changes(&mut self) -> bool {
        let mut changes = false;
        for p in 0..PROCESSES {
            changes |= self.call(|table, after, answer| step(table, p, after, answer)) == MOVED;
        }
        changes
    }

    /// The index of the guard of process p that has met, and the number that it took.
    fn collect(&mut self, p: u8) -> (usize, i32) {
        let variant = self.call(|table, after, answer| collect(table, p, after, answer));
        assert_eq!(variant, COLLECTED, "a process has not met");
        let number = word(&self.answer[ANSWER_MESSAGE + MESSAGE_FIRST..]) as i32;
        (self.answer[ANSWER_FIRST] as usize, number)
    }
}

fn main() {
    let (strain, temperature): (i32, i32) = (-412, 184);
    let value = |number, kind| of_kind(sends(true, STORE, WHOLE, number as u32, 0), kind);
    let place = |kind| of_kind(receives(true, SAMPLER), kind);
    let mut values = [value(strain, STRAIN), value(temperature, TEMPERATURE)];
    let places = [place(TEMPERATURE), place(STRAIN)];
    let mut table = Table::fresh();
    let mut taken = [0; 2];
    for _ in 0..2 {
        table.offer(SAMPLER, &values.concat());
        table.offer(STORE, &places.concat());
        while table.round_changes() {}
        let (index, number) = table.collect(STORE);
        taken[index] = number;
        // What was sent is not offered again.
        let (sent, _) = table.collect(SAMPLER);
        values[sent][GUARD_ENABLED] = 0;
    }
    let [first, second] = taken;
    println!("the temperature's guard took {first}, the strain's took {second}");
    assert_eq!(taken, [temperature, strain]);
}
