//! The day sheet that an installer signs, out of the table's bytes: offers, meetings, withdrawn and
//! open. A sampler hands two readings to the store; the radio link gives three offers up, and waits
//! with a fourth.
//! rustc --edition 2021 -L crates/exports/out -l static=exports examples/link/sheet.rs -o target/sheet-rust

#[path = "../../crates/exports/rendezvous.rs"]
mod rendezvous;

use rendezvous::{collect, create, offer, receives, sends, step, withdraw};
use rendezvous::{meetings, offers, withdrawn};
use rendezvous::{ANSWER_BYTES, ANSWER_VARIANT, HEAD_BYTES, RECORD_BYTES, TABLE_BYTES};
use rendezvous::{COLLECTED, MOVED, OFFERED, READING, WITHDRAWN};
use rendezvous::{RECORD_ACCEPTING, RECORD_PLACE};

const SAMPLER: u8 = 0;
const STORE: u8 = 1;
const RADIO: u8 = 2;
const PROCESSES: u8 = 3;
/// Rounds let every process step between two steps of a sleeper.
const NAP: u8 = 1;

/// The table, and what the last call answered.
struct Table {
    bytes: [u8; TABLE_BYTES],
    answer: [u8; ANSWER_BYTES],
}

impl Table {
    fn fresh() -> Table {
        let (mut bytes, mut answer) = ([0; TABLE_BYTES], [0; ANSWER_BYTES]);
        assert!(create(PROCESSES, NAP, &mut bytes, &mut answer));
        Table { bytes, answer }
    }

    /// The table that a call hands back is the one for the next call. Gives the variant of the answer.
    fn call(&mut self, called: impl FnOnce(&[u8], &mut [u8], &mut [u8]) -> bool) -> u8 {
        let mut after = [0; TABLE_BYTES];
        assert!(called(&self.bytes, &mut after, &mut self.answer));
        self.bytes = after;
        self.answer[ANSWER_VARIANT]
    }

    /// Process p offers a guard, and then every process steps until the table is at rest: whoever
    /// finds no partner waits.
    fn offer(&mut self, p: u8, guard: &[u8]) {
        let variant = self.call(|table, after, answer| offer(table, p, guard, after, answer));
        assert_eq!(variant, OFFERED, "an offer is refused");
        while self.round_changes() {}
    }

    /// Every process steps once, in number order. Gives whether that changed anything.
    fn round_changes(&mut self) -> bool {
        let mut changes = false;
        for p in 0..PROCESSES {
            changes |= self.call(|table, after, answer| step(table, p, after, answer)) == MOVED;
        }
        changes
    }

    fn collect(&mut self, p: u8) {
        let variant = self.call(|table, after, answer| collect(table, p, after, answer));
        assert_eq!(variant, COLLECTED, "a process has not met");
    }

    fn withdraw(&mut self, p: u8) {
        let variant = self.call(|table, after, answer| withdraw(table, p, after, answer));
        assert_eq!(variant, WITHDRAWN, "an offer is not withdrawn");
    }

    /// Whether process p has an open offer: at E, A, T, P, O or S, or at H or W with wake count 0.
    /// The places' numbers go from I, 0, to M, 10.
    fn has_open_offer(&self, p: u8) -> bool {
        let record = &self.bytes[HEAD_BYTES + RECORD_BYTES * usize::from(p)..];
        match b"IEATCPOHSWM"[usize::from(record[RECORD_PLACE])] {
            b'E' | b'A' | b'T' | b'P' | b'O' | b'S' => true,
            b'H' | b'W' => record[RECORD_ACCEPTING] != 0,
            _ => false,
        }
    }
}

fn main() {
    let reading = sends(true, STORE, READING, 4.72f32.to_bits(), 0);
    let taking = receives(true, SAMPLER);
    let listening = receives(true, STORE);
    let mut table = Table::fresh();
    for _ in 0..2 {
        table.offer(SAMPLER, &reading);
        table.offer(STORE, &taking);
        table.collect(STORE);
        table.collect(SAMPLER);
    }
    for _ in 0..3 {
        table.offer(RADIO, &listening);
        table.withdraw(RADIO);
    }
    table.offer(RADIO, &listening);

    let offers = u64::from(offers(&table.bytes));
    let meetings = meetings(&table.bytes);
    let withdrawn = withdrawn(&table.bytes);
    let open = (0..PROCESSES).filter(|&p| table.has_open_offer(p)).count() as u64;
    println!("{offers} {meetings} {withdrawn} {open}");
    assert_eq!(offers, 2 * meetings + withdrawn + open);
}
