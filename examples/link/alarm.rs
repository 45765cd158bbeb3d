//! An event finder waits with two values for the radio link, a trend line and an alarm, the trend
//! line first in its list. One guard of the radio matches both: by the ranks it takes the alarm
//! first.
//! rustc --edition 2021 -L crates/exports/out -l static=exports examples/link/alarm.rs -o target/alarm-rust

#[path = "../../crates/exports/rendezvous.rs"]
mod rendezvous;

use rendezvous::{collect, create, of_rank, offer, receives, sends, step, word};
use rendezvous::{ANSWER_BYTES, ANSWER_FIRST, ANSWER_MESSAGE, ANSWER_VARIANT, TABLE_BYTES};
use rendezvous::{COLLECTED, GUARD_ENABLED, MESSAGE_FIRST, MOVED, OFFERED, WHOLE};

const RADIO: u8 = 0;
const FINDER: u8 = 1;
const PROCESSES: u8 = 2;
/// Rounds let every process step between two steps of a sleeper.
const NAP: u8 = 1;

// Ranks.
const TREND: u8 = 0;
const ALARM: u8 = 9;

/// The table, and what the last call answered.
struct Table {
    bytes: [u8; TABLE_BYTES],
    answer: [u8; ANSWER_BYTES],
}

impl Table {
    fn fresh() -> Table {
        let (mut bytes, mut answer) = ([0; TABLE_BYTES], [0; ANSWER_BYTES]);
        assert!(create(PROCESSES, NAP, &mut bytes, &mut answer));
        Table { bytes, answer }
    }

    /// The table that a call hands back is the one for the next call. Gives the variant of the answer.
    fn call(&mut self, called: impl FnOnce(&[u8], &mut [u8], &mut [u8]) -> bool) -> u8 {
        let mut after = [0; TABLE_BYTES];
        assert!(called(&self.bytes, &mut after, &mut self.answer));
        self.bytes = after;
        self.answer[ANSWER_VARIANT]
    }

    /// Process p offers, and then every process steps until the table is at rest: whoever finds no
    /// partner waits.
    fn offer(&mut self, p: u8, guards: &[u8]) {
        let variant = self.call(|table, after, answer| offer(table, p, guards, after, answer));
        assert_eq!(variant, OFFERED, "an offer is refused");
        while self.round_changes() {}
    }

    /// Every process steps once, in number order. Gives whether that changed anything.
    fn round_changes(&mut self) -> bool {
        let mut changes = false;
        for p in 0..PROCESSES {
            changes |= self.call(|table, after, answer| step(table, p, after, answer)) == MOVED;
        }
        changes
    }

    /// The index of the guard of process p that has met, and the number that it took.
    fn collect(&mut self, p: u8) -> (usize, i32) {
        let variant = self.call(|table, after, answer| collect(table, p, after, answer));
        assert_eq!(variant, COLLECTED, "a process has not met");
        let number = word(&self.answer[ANSWER_MESSAGE + MESSAGE_FIRST..]) as i32;
        (self.answer[ANSWER_FIRST] as usize, number)
    }
}

fn main() {
    let (trend, alarm): (i32, i32) = (184, 17);
    let value = |number, rank| of_rank(sends(true, RADIO, WHOLE, number as u32, 0), rank);
    let mut values = [value(trend, TREND), value(alarm, ALARM)];
    let mut table = Table::fresh();
    let mut taken = [0; 2];
    for took in &mut taken {
        table.offer(FINDER, &values.concat());
        table.offer(RADIO, &receives(true, FINDER));
        (_, *took) = table.collect(RADIO);
        // What was sent is not offered again.
        let (sent, _) = table.collect(FINDER);
        values[sent][GUARD_ENABLED] = 0;
    }
    let [first, second] = taken;
    println!("alarm {alarm}, trend line {trend}: the radio took {first} first, then {second}");
    assert_eq!(taken, [alarm, trend]);
}
