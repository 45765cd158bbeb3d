//! Ranks as a script writes them, and what its output shows of them.

use crate::tools::{check_marked_session, check_scanning, check_script};

/// Party 1 waits with two guards, both enabled; party 0's one guard meets the
/// one at this index and gets its message.
fn check_taken(waits: [&str; 2], tries: &str, kept: usize, message: &str) {
    check_script(&[
        ("n 2", "n 2"),
        (&format!("o 1 {} {}", waits[0], waits[1]), "o 1 t0"),
        ("s 1", "s 1 A0"),
        ("s 1", "s 1 A1"),
        ("s 1", "s 1 P"),
        ("s 1", "s 1 O"),
        ("s 1", "s 1 H"),
        ("s 1", "s 1 W"),
        (&format!("o 0 {tries}"), "o 0 t1"),
        ("s 0", "s 0 A0"),
        ("s 0", "s 0 T0"),
        ("s 0", "s 0 C0"),
        ("s 0", "s 0 M"),
        ("s 1", "s 1 M"),
        // A collection shows the message as before, without a rank.
        ("c 0", &format!("c 0 0 1 {message}")),
        ("c 1", &format!("c 1 {kept} 0 0")),
        ("m", "m 00000000"),
    ]);
}

#[test]
fn a_script_gives_the_alarm() {
    check_taken(["0!w18", "0!w-1^1"], "1?", 1, "w-1");
    check_taken(["0!w-1^1", "0!w18"], "1?", 0, "w-1");
    check_taken(["0!w18^254", "0!w-1^255"], "1?^9", 1, "w-1");
    check_taken(["0!w18^9", "0!w-1^10"], "1?^255", 1, "w-1");
    check_taken(["0!w18^2", "0!w-1^2"], "1?", 0, "w18");
}

#[test]
fn a_rank_left_out_is_0() {
    for first in ["0!w18", "0!w18^0", "0!w18:0", "0!w18:0^0"] {
        for second in ["0!w-1", "0!w-1^0", "0!w-1:0", "0!w-1:0^0"] {
            check_taken([first, second], "1?", 0, "w18");
        }
        check_taken([first, "0!w-1^1"], "1?", 1, "w-1");
        check_taken([first, "0!w-1:0^1"], "1?", 1, "w-1");
    }
    for sender in ["1!r40970a3d", "1!r40970a3d^0", "1!r40970a3d:0^0"] {
        for receiver in ["0?", "0?^0", "0?:0^0", "0?^255"] {
            check_marked_session(sender, receiver);
        }
    }
}

#[test]
fn a_rank_follows_the_kind() {
    // Neither number is taken for the other.
    for (kind, kept, message) in [(5, 0, "w18"), (9, 1, "w-1")] {
        let tries = format!("1?:{kind}");
        check_taken(["0!w18:5^9", "0!w-1:9^5"], &tries, kept, message);
    }
    check_taken(["0!w18:7^1", "0!w-1:7^2"], "1?:7", 1, "w-1");
    check_taken(["0!w18:7^2", "0!w-1:8^3"], "1?:7^3", 0, "w18");
}

#[test]
fn every_rank_is_read_as_written() {
    for rank in 0..=255u8 {
        for other in [rank ^ 1, rank ^ 128, !rank] {
            let (kept, message) = match other > rank {
                true => (1, "w-1"),
                false => (0, "w18"),
            };
            let plain = [format!("0!w18^{rank}"), format!("0!w-1^{other}")];
            check_taken([&plain[0], &plain[1]], "1?", kept, message);
            let with_kinds = [format!("0!w18:3^{rank}"), format!("0!w-1:3^{other}")];
            check_taken([&with_kinds[0], &with_kinds[1]], "1?:3", kept, message);
        }
    }
}

#[test]
fn the_alarm_waits_its_turn_where_its_own_task_scans() {
    check_script(&[
        ("n 2", "n 2"),
        ("o 0 1?", "o 0 t0"),
        ("s 0", "s 0 A0"),
        ("s 0", "s 0 P"),
        ("s 0", "s 0 O"),
        ("s 0", "s 0 H"),
        ("s 0", "s 0 W"),
        ("o 1 0!w18 0!w-1^255", "o 1 t1"),
        ("s 1", "s 1 A0"),
        ("s 1", "s 1 T0"),
        ("s 1", "s 1 C0"),
        ("s 1", "s 1 M"),
        ("s 0", "s 0 M"),
        ("c 0", "c 0 0 1 w18"),
        ("c 1", "c 1 0 0 0"),
    ]);
}

#[test]
fn scanning_does_not_look_at_ranks() {
    // The younger one goes to sleep, however high its rank.
    check_scanning("1?", "0!0^255");
    check_scanning("1?^255", "0!0");
}

#[test]
fn no_refusal_goes_by_ranks() {
    check_script(&[
        ("n 2", "n 2"),
        ("o 2 1?^1", "x 2"),
        ("o 0 1?^1 1?^2 1?^3 1?^4 1?^5 1?^6 1?^7 1?^8 1?^9", "x 3"),
        ("o 0 0?^1", "x 4"),
        ("o 0 1?^1 -2?^255", "x 4"),
        ("o 0 1!r7fc00000^1", "x 5"),
        ("o 0 1? -1!r7fc00000:1^255", "x 5"),
        ("o 0 -1?^1 -1!0:1^255", "x 6"),
        ("o 0 1?^1 1?^1 1?^2 1?^3 1?^4 1?^5 1?^6 1?^255", "o 0 t0"),
        ("o 0 1?^1", "x 11"),
    ]);
}
