//! The script program by way of the library's calls, piece by piece, for the tests.

use crate::library::Library;
use crate::proved::Proved;
use crate::rendezvous::{self, BEGUN_BYTES, LINE_BYTES};
use crate::rendezvous::{SESSION_BEGUN, SESSION_BYTES, SESSION_TABLE};

fn untouched(bytes: &[u8]) -> bool {
    bytes.iter().all(|&byte| byte == 0xee)
}

/// What the script program prints by way of its calls, for an input in
/// pieces. `room` is how many lines the output of one call may have.
fn printed(input: &[u8], piece: usize, room: usize) -> Vec<u8> {
    let (mut session, mut after) = ([0xee; SESSION_BYTES], [0xee; SESSION_BYTES]);
    let mut out = vec![0xee; room * LINE_BYTES];
    let mut output = Vec::new();
    assert!(rendezvous::script_start(&mut session));
    for mut rest in input.chunks(piece) {
        while !rest.is_empty() {
            let fed = rendezvous::script_feed(&session, rest, &mut after, &mut out);
            let (taken, filled) = fed.expect("the session fits");
            assert_eq!(taken, rest.len().min(room));
            output.extend(&out[..filled]);
            rest = &rest[taken..];
            session = after;
        }
    }
    let filled = rendezvous::script_finish(&session, &mut out);
    output.extend(&out[..filled]);
    output
}

#[test]
fn the_script_program_is_there_too() {
    let script = include_bytes!("../../../examples/messages.script");
    let unended = &script[..script.len() - 1];
    for (piece, room) in [(1, 1), (7, 3), (200, 400), (script.len(), 1000)] {
        for input in [script.as_slice(), unended] {
            assert_eq!(printed(input, piece, room), model::script::run(input));
        }
    }
}

#[test]
fn a_session_holds_the_begun_line_and_the_table() {
    let (mut session, mut after) = ([0xee; SESSION_BYTES], [0xee; SESSION_BYTES]);
    let input = [b"n 2 7\n".as_slice(), &[b'm'; BEGUN_BYTES + 1]].concat();
    let mut out = vec![0xee; input.len() * LINE_BYTES];
    assert!(rendezvous::script_start(&mut session));
    let fed = rendezvous::script_feed(&session, &input, &mut after, &mut out);
    assert_eq!(fed, Some((input.len(), 4)));
    assert_eq!(after.len(), 8353);
    assert_eq!(after[SESSION_BEGUN..SESSION_TABLE], [b'm'; BEGUN_BYTES]);
    let table = Proved.create(2, 7).expect("both are good numbers");
    assert_eq!(&after[SESSION_TABLE..], table.bytes());
}

#[test]
fn a_session_that_is_too_short_is_neither_read_nor_written() {
    let mut session = [0; SESSION_BYTES];
    assert!(rendezvous::script_start(&mut session));
    let mut short = [0xee; SESSION_BYTES - 1];
    assert!(!rendezvous::script_start(&mut short));
    assert!(untouched(&short));
    for (state, after) in [
        (SESSION_BYTES - 1, SESSION_BYTES),
        (SESSION_BYTES, SESSION_BYTES - 1),
        (0, 0),
    ] {
        let (mut next, mut out) = (vec![0xee; after], [0xee; 2 * LINE_BYTES]);
        let fed = rendezvous::script_feed(&session[..state], b"m\n", &mut next, &mut out);
        assert_eq!(fed, None);
        assert!(untouched(&next) && untouched(&out));
    }
}

#[test]
fn a_session_ends_only_where_both_are_long_enough() {
    let (mut session, mut begun) = ([0; SESSION_BYTES], [0; SESSION_BYTES]);
    assert!(rendezvous::script_start(&mut session));
    let fed = rendezvous::script_feed(&session, b"m", &mut begun, &mut [0; LINE_BYTES]);
    assert_eq!(fed, Some((1, 0)));
    for (state, room, prints) in [
        (SESSION_BYTES, LINE_BYTES, 4),
        (SESSION_BYTES - 1, LINE_BYTES, 0),
        (SESSION_BYTES, LINE_BYTES - 1, 0),
    ] {
        let mut out = vec![0xee; room];
        assert_eq!(rendezvous::script_finish(&begun[..state], &mut out), prints);
        assert!(untouched(&out[prints..]));
        assert!(prints == 0 || out.starts_with(b"x 8\n"));
    }
}
