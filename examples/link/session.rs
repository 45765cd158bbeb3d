//! Process 0 offers the reading 4.72 to process 1, which takes it: the proved library from Rust.
//! rustc --edition 2021 -L crates/exports/out -l static=exports examples/link/session.rs -o target/session-rust

#[path = "../../crates/exports/rendezvous.rs"]
mod rendezvous;

use rendezvous::{collect, create, offer, receives, sends, step, word};
use rendezvous::{ANSWER_BYTES, ANSWER_MESSAGE, ANSWER_SECOND, ANSWER_VARIANT, TABLE_BYTES};
use rendezvous::{COLLECTED, MESSAGE_FIRST, READING};

fn main() {
    let sent: f32 = 4.72;
    let (mut table, mut after) = ([0; TABLE_BYTES], [0; TABLE_BYTES]);
    let mut answer = [0; ANSWER_BYTES];
    // Two processes, and naps of one step.
    assert!(create(2, 1, &mut table, &mut answer));
    let reading = sends(true, 1, READING, sent.to_bits(), 0);
    let taking = receives(true, 0);
    assert!(offer(&table, 0, &reading, &mut after, &mut answer));
    // The table that a call hands back is the one for the next call.
    table = after;
    assert!(offer(&table, 1, &taking, &mut after, &mut answer));
    table = after;
    // 0 finds nobody, posts its list and waits; 1 finds it waiting, commits and takes the reading;
    // 0 absorbs the signal.
    for p in [0, 0, 0, 0, 0, 1, 1, 1, 1, 0] {
        assert!(step(&table, p, &mut after, &mut answer));
        table = after;
    }
    assert!(collect(&table, 1, &mut after, &mut answer));
    let received = f32::from_bits(word(&answer[ANSWER_MESSAGE + MESSAGE_FIRST..]));
    let partner = answer[ANSWER_SECOND];
    println!("process 1 collects {received:.2} from process {partner}");
    assert_eq!(answer[ANSWER_VARIANT], COLLECTED);
    assert_eq!(received.to_bits(), sent.to_bits());
}
