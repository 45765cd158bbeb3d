//! The proved library for Rust, as rendezvous.h is for C: the calls on a process table and the
//! script program, on lent bytes. A program takes this file as `mod rendezvous;` and links
//! libexports.a; nothing here needs more than `core`. Each function passes its arguments on to the
//! library's, which is proved for all of them; what it gives is defined in crates/wire/specs and
//! crates/exports/specs. `word`, `long`, `offers`, `meetings`, `withdrawn`, `receives`, `sends`,
//! `of_kind` and `of_rank`, which only read bytes and lay them out, are Rust.
//!
//! docs/BYTES.md has the bytes of a table, a guard, an answer and a session.
//!
//! `out` takes the table that a call hands back and `answer` the answer, each at its front. If one
//! of `table`, `out` and `answer` is too short, the call does nothing: no buffer changes, and it
//! returns false.
//!
//! A call is one step of the whole table. Where two cores share a table, hold one lock from
//! reading the table to storing the one that the call hands back. No order in which
//! the cores get the lock makes a wrong rendezvous: that is demand 3
//! (crates/history/specs/Demand3.antt). But an order can keep one from happening: step EVERY process
//! once a round, in number order, as examples/link/tasks.rs does (README.md, "The loop of a task" and
//! "Order and progress").

// A program calls only what it needs.
#![allow(dead_code)]

// Lengths and offsets, in bytes (docs/BYTES.md), as rendezvous.h has them. A name without BYTES
// tells where a part stands in what the name begins with.

/// The records of a table.
pub const PROCESSES: usize = 32;
/// The slots of a list of guards.
pub const GUARDS: usize = 8;
pub const WORD_BYTES: usize = 4;
/// A number of 64 bits.
pub const LONG_BYTES: usize = 2 * WORD_BYTES;

pub const MESSAGE_VARIANT: usize = 0;
pub const MESSAGE_FIRST: usize = 1;
pub const MESSAGE_SECOND: usize = MESSAGE_FIRST + WORD_BYTES;
pub const MESSAGE_BYTES: usize = MESSAGE_SECOND + WORD_BYTES;

pub const GUARD_ENABLED: usize = 0;
pub const GUARD_PARTNER: usize = 1;
pub const GUARD_KIND: usize = 2;
pub const GUARD_RANK: usize = 3;
pub const GUARD_SENDS: usize = 4;
pub const GUARD_MESSAGE: usize = 5;
pub const GUARD_BYTES: usize = GUARD_MESSAGE + MESSAGE_BYTES;
pub const LIST_BYTES: usize = GUARDS * GUARD_BYTES;

pub const RECORD_PLACE: usize = 0;
pub const RECORD_INDEX: usize = 1;
/// At S, in the index's place: the own steps made there.
pub const RECORD_STEPS: usize = 1;
pub const RECORD_KEPT: usize = 2;
pub const RECORD_OUTCOME: usize = 3;
pub const RECORD_SIGNAL: usize = RECORD_OUTCOME + MESSAGE_BYTES;
pub const RECORD_SIGNAL_MESSAGE: usize = RECORD_SIGNAL + 2;
pub const RECORD_TICKET: usize = RECORD_SIGNAL_MESSAGE + MESSAGE_BYTES;
pub const RECORD_ACCEPTING: usize = RECORD_TICKET + WORD_BYTES;
pub const RECORD_COUNTS: usize = RECORD_ACCEPTING + 1;
pub const RECORD_OWN: usize = RECORD_COUNTS + 2;
pub const RECORD_POSTED: usize = RECORD_OWN + LIST_BYTES;
pub const RECORD_BYTES: usize = RECORD_POSTED + LIST_BYTES;

pub const HEAD_COUNT: usize = 0;
pub const HEAD_NAP: usize = 1;
pub const HEAD_NEXT: usize = 2;
pub const HEAD_MEETINGS: usize = HEAD_NEXT + WORD_BYTES;
pub const HEAD_WITHDRAWN: usize = HEAD_MEETINGS + LONG_BYTES;
pub const HEAD_BYTES: usize = HEAD_WITHDRAWN + LONG_BYTES;
pub const TABLE_BYTES: usize = HEAD_BYTES + PROCESSES * RECORD_BYTES;

// Variants of messages.
pub const NOTHING: u8 = 0;
pub const WHOLE: u8 = 1;
pub const READING: u8 = 2;
pub const LIMIT: u8 = 3;

pub const ANSWER_VARIANT: usize = 0;
pub const ANSWER_FIRST: usize = 1;
pub const ANSWER_SECOND: usize = 2;
pub const ANSWER_MESSAGE: usize = 3;
pub const ANSWER_WORD: usize = ANSWER_MESSAGE + MESSAGE_BYTES;
pub const ANSWER_BYTES: usize = ANSWER_WORD + WORD_BYTES;

// Variants of answers.
pub const MADE: u8 = 0;
pub const OFFERED: u8 = 1;
pub const MOVED: u8 = 2;
pub const UNCHANGED: u8 = 3;
pub const COLLECTED: u8 = 4;
pub const RUNNABLE: u8 = 5;
pub const REFUSED: u8 = 6;
pub const WITHDRAWN: u8 = 7;
pub const TOO_LATE: u8 = 8;

/// For a begun line: one more than a line may have.
pub const BEGUN_BYTES: usize = 201;
pub const SESSION_BEGUN: usize = 2;
pub const SESSION_TABLE: usize = SESSION_BEGUN + BEGUN_BYTES;
pub const SESSION_BYTES: usize = SESSION_TABLE + TABLE_BYTES;
/// No line of a script prints more.
pub const LINE_BYTES: usize = 64;

// SAFETY, for every call below: the library reads and writes nothing but the slices that it is
// lent, whatever their bytes and lengths, and a slice lent as `&mut` overlaps no other.

/// A fresh table of `n` processes, 2 to 32 (else refused by 1), with naps of `nap` own steps, 1 to
/// 255 (0 is refused by 15, after 1). A process that goes to S leaves it at its `nap`-th own step
/// there; each step before that is answered moved, to S, and is a whole call. With rounds, as in
/// examples/link/tasks.rs, take 1. Where tasks step for themselves, take at least as many as one
/// task makes between two steps of another: while a sleeper naps, an older process that steps
/// passes it. A sleeper makes all of these steps, even where nobody is in its way any more
/// (README.md, "Order and progress").
#[must_use]
pub fn create(n: u8, nap: u8, out: &mut [u8], answer: &mut [u8]) -> bool {
    unsafe {
        rendezvous_create(
            n,
            nap,
            out.as_mut_ptr(),
            out.len(),
            answer.as_mut_ptr(),
            answer.len(),
        )
    }
}

/// An offer by process `p`; `guards` has `GUARD_BYTES` for each guard, of any number of them. Bytes
/// behind the last whole guard are not read.
#[must_use]
pub fn offer(table: &[u8], p: u8, guards: &[u8], out: &mut [u8], answer: &mut [u8]) -> bool {
    unsafe {
        rendezvous_offer(
            table.as_ptr(),
            table.len(),
            p,
            guards.as_ptr(),
            guards.len(),
            out.as_mut_ptr(),
            out.len(),
            answer.as_mut_ptr(),
            answer.len(),
        )
    }
}

/// A step of process `p`.
#[must_use]
pub fn step(table: &[u8], p: u8, out: &mut [u8], answer: &mut [u8]) -> bool {
    by_process(rendezvous_step, table, p, out, answer)
}

/// A collection from process `p`.
#[must_use]
pub fn collect(table: &[u8], p: u8, out: &mut [u8], answer: &mut [u8]) -> bool {
    by_process(rendezvous_collect, table, p, out, answer)
}

/// A withdrawal of process `p`'s offer: withdrawn, or too late, since a commit came first.
#[must_use]
pub fn withdraw(table: &[u8], p: u8, out: &mut [u8], answer: &mut [u8]) -> bool {
    by_process(rendezvous_withdraw, table, p, out, answer)
}

/// The set of processes that a step would change.
#[must_use]
pub fn runnable(table: &[u8], out: &mut [u8], answer: &mut [u8]) -> bool {
    unsafe {
        rendezvous_runnable(
            table.as_ptr(),
            table.len(),
            out.as_mut_ptr(),
            out.len(),
            answer.as_mut_ptr(),
            answer.len(),
        )
    }
}

/// A session of the script program before its first byte, to the front of `state`.
#[must_use]
pub fn script_start(state: &mut [u8]) -> bool {
    unsafe { rendezvous_script_start(state.as_mut_ptr(), state.len()) }
}

/// Feeds a piece of the input to a session. As many bytes of the piece are taken as `out` has room
/// for if each of them ends a line: the least of `piece.len()` and `out.len() / LINE_BYTES`; feed the
/// rest next. What they print goes to the front of `out`, and `after` takes the session after
/// them. Gives how many bytes were taken and how many printed; none, with no buffer changed, if
/// `state` or `after` is too short.
#[must_use]
pub fn script_feed(
    state: &[u8],
    piece: &[u8],
    after: &mut [u8],
    out: &mut [u8],
) -> Option<(usize, usize)> {
    let (mut taken, mut filled) = (0, 0);
    let kept = unsafe {
        rendezvous_script_feed(
            state.as_ptr(),
            state.len(),
            piece.as_ptr(),
            piece.len(),
            after.as_mut_ptr(),
            after.len(),
            out.as_mut_ptr(),
            out.len(),
            &mut taken,
            &mut filled,
        )
    };
    kept.then_some((taken, filled))
}

/// What the end of the input prints, to the front of `out`, and how many bytes that is. If `out`
/// has less than `LINE_BYTES`, or `state` less than `SESSION_BYTES`, `out` stays as it is and the
/// call returns 0.
#[must_use]
pub fn script_finish(state: &[u8], out: &mut [u8]) -> usize {
    unsafe { rendezvous_script_finish(state.as_ptr(), state.len(), out.as_mut_ptr(), out.len()) }
}

/// The word at the front of bytes of a table, an answer or a message.
pub fn word(bytes: &[u8]) -> u32 {
    u32::from_le_bytes([bytes[0], bytes[1], bytes[2], bytes[3]])
}

/// The number of 64 bits at the front of bytes of a table.
pub fn long(bytes: &[u8]) -> u64 {
    u64::from(word(bytes)) | u64::from(word(&bytes[WORD_BYTES..])) << 32
}

/// How many offers of a table were accepted, which is its next ticket: the first of the day sheet's
/// totals. The sheet's fourth, how many processes have an open offer, stands in no byte: after any
/// calls from a fresh table, offers = 2 * meetings + withdrawn + open. To check a sheet, count them:
/// examples/link/sheet.rs.
pub fn offers(table: &[u8]) -> u32 {
    word(&table[HEAD_NEXT..])
}

/// How many rendezvous of a table were committed: the second of the day sheet's totals.
pub fn meetings(table: &[u8]) -> u64 {
    long(&table[HEAD_MEETINGS..])
}

/// How many offers of a table were withdrawn: the third of the day sheet's totals.
pub fn withdrawn(table: &[u8]) -> u64 {
    long(&table[HEAD_WITHDRAWN..])
}

/// A guard that receives. Its kind and rank are 0.
pub fn receives(enabled: bool, partner: u8) -> [u8; GUARD_BYTES] {
    let mut guard = [0; GUARD_BYTES];
    guard[GUARD_ENABLED] = enabled as u8;
    guard[GUARD_PARTNER] = partner;
    guard
}

/// A guard that sends a message of a variant: a whole number or the bits of a reading in `first`, the
/// bits of a limit's low and high in both. Its kind and rank are 0.
pub fn sends(
    enabled: bool,
    partner: u8,
    variant: u8,
    first: u32,
    second: u32,
) -> [u8; GUARD_BYTES] {
    let mut guard = receives(enabled, partner);
    guard[GUARD_SENDS] = 1;
    let message = &mut guard[GUARD_MESSAGE..];
    message[MESSAGE_VARIANT] = variant;
    message[MESSAGE_FIRST..MESSAGE_SECOND].copy_from_slice(&first.to_le_bytes());
    message[MESSAGE_SECOND..MESSAGE_BYTES].copy_from_slice(&second.to_le_bytes());
    guard
}

/// The guard with a kind: it matches only guards of the same kind.
pub fn of_kind(mut guard: [u8; GUARD_BYTES], kind: u8) -> [u8; GUARD_BYTES] {
    guard[GUARD_KIND] = kind;
    guard
}

/// The guard with a rank: where several guards of a process that waits match, the one of greatest
/// rank meets, the first among equals. Who scans still goes by the order of its list.
pub fn of_rank(mut guard: [u8; GUARD_BYTES], rank: u8) -> [u8; GUARD_BYTES] {
    guard[GUARD_RANK] = rank;
    guard
}

/// For tests of an f32's bits, a NaN's too: it is handed back by way of a message that a table
/// holds in a refused offer, in steps that post it, commit, hand it over, signal and absorb it, and
/// in collections.
pub fn reading_through(x: f32) -> f32 {
    unsafe { rendezvous_reading_through(x) }
}

/// The same by way of a limit: low.
pub fn low_through(low: f32, high: f32) -> f32 {
    unsafe { rendezvous_low_through(low, high) }
}

/// The same by way of a limit: high.
pub fn high_through(low: f32, high: f32) -> f32 {
    unsafe { rendezvous_high_through(low, high) }
}

/// A call that takes a table and the number of a process.
type ByProcess = unsafe extern "C" fn(*const u8, usize, u8, *mut u8, usize, *mut u8, usize) -> bool;

fn by_process(call: ByProcess, table: &[u8], p: u8, out: &mut [u8], answer: &mut [u8]) -> bool {
    unsafe {
        call(
            table.as_ptr(),
            table.len(),
            p,
            out.as_mut_ptr(),
            out.len(),
            answer.as_mut_ptr(),
            answer.len(),
        )
    }
}

unsafe extern "C" {
    fn rendezvous_create(
        n: u8,
        nap: u8,
        out: *mut u8,
        out_length: usize,
        answer: *mut u8,
        answer_length: usize,
    ) -> bool;
    fn rendezvous_offer(
        table: *const u8,
        table_length: usize,
        p: u8,
        guards: *const u8,
        guards_length: usize,
        out: *mut u8,
        out_length: usize,
        answer: *mut u8,
        answer_length: usize,
    ) -> bool;
    fn rendezvous_step(
        table: *const u8,
        table_length: usize,
        p: u8,
        out: *mut u8,
        out_length: usize,
        answer: *mut u8,
        answer_length: usize,
    ) -> bool;
    fn rendezvous_collect(
        table: *const u8,
        table_length: usize,
        p: u8,
        out: *mut u8,
        out_length: usize,
        answer: *mut u8,
        answer_length: usize,
    ) -> bool;
    fn rendezvous_withdraw(
        table: *const u8,
        table_length: usize,
        p: u8,
        out: *mut u8,
        out_length: usize,
        answer: *mut u8,
        answer_length: usize,
    ) -> bool;
    fn rendezvous_runnable(
        table: *const u8,
        table_length: usize,
        out: *mut u8,
        out_length: usize,
        answer: *mut u8,
        answer_length: usize,
    ) -> bool;
    fn rendezvous_script_start(state: *mut u8, state_length: usize) -> bool;
    fn rendezvous_script_feed(
        state: *const u8,
        state_length: usize,
        piece: *const u8,
        piece_length: usize,
        after: *mut u8,
        after_length: usize,
        out: *mut u8,
        out_length: usize,
        taken: *mut usize,
        filled: *mut usize,
    ) -> bool;
    fn rendezvous_script_finish(
        state: *const u8,
        state_length: usize,
        out: *mut u8,
        out_length: usize,
    ) -> usize;
    fn rendezvous_reading_through(x: f32) -> f32;
    fn rendezvous_low_through(low: f32, high: f32) -> f32;
    fn rendezvous_high_through(low: f32, high: f32) -> f32;
}
