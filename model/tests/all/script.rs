//! The script program: its forms, its limits and its order of tests.

use crate::tools::{check_scanning, check_script};
use model::script::run;

/// A line that is malformed on a desk of two parties.
fn check_malformed(line: &[u8]) {
    let input = [b"n 2\n", line, b"\nm\n"].concat();
    let shown = String::from_utf8_lossy(line);
    let output = String::from_utf8_lossy(&run(&input)).into_owned();
    assert_eq!(output, "n 2\nx 8\nm 00000000\n", "for {shown:?}");
}

#[test]
fn input_without_lines() {
    assert_eq!(run(b""), b"");
    assert_eq!(run(b"\n"), b"x 8\n");
    assert_eq!(run(b"\n\n"), b"x 8\nx 8\n");
}

#[test]
fn an_unended_last_line() {
    assert_eq!(run(b"n 2"), b"x 8\n");
    assert_eq!(run(b"n 2\nm"), b"n 2\nx 8\n");
    assert_eq!(run(b"n 2\n "), b"n 2\nx 8\n");
    // Overlong as well: still one line and one answer.
    let long = [b"n 2\n".as_slice(), &[b'm'; 500]].concat();
    assert_eq!(run(&long), b"n 2\nx 8\n");
}

#[test]
fn line_length() {
    // 3 bytes, 63 guards of 3 bytes and 2 of 4 with their spaces make 200.
    // That is well formed, and 65 guards are too many.
    let long = format!("o 0{}{}", " 1?".repeat(63), " -1?".repeat(2));
    assert_eq!(long.len(), 200);
    // 66 guards of 3 bytes make 201; so does the line above with a byte more.
    let overlong = format!("o 0{}", " 1?".repeat(66));
    assert_eq!(overlong.len(), 201);
    let pairs = [
        ("n 2", "n 2"),
        (long.as_str(), "x 3"),
        (overlong.as_str(), "x 8"),
        (&format!("{long} "), "x 8"),
        (&" ".repeat(200), "x 8"),
        // Skipped to its end: what follows the 200th byte is no command.
        (&format!("{}n 3", " ".repeat(200)), "x 8"),
        (&"m".repeat(100_000), "x 8"),
        ("m", "m 00000000"),
    ];
    check_script(&pairs);
}

/// Parted by bars; the first one is the empty line.
const MALFORMED_COMMANDS: &str = "\
    | |n|n |n 2 | n 2|n  2|n\t2|n 2\r|N 2|n2|n 02|n 00|n 256|n 1000|n -1|n -0|\
    n +2|n 2.|n a|n 18446744073709551618|n 4294967298|n 0x2|nn 2|q 0|x 8|=|o|o |o 0 | o 0 1?|\
    o  0 1?|o 0  1?|o 0 1? |o 00 1?|o 256 1?|o -0 1?|o 1?|O 0 1?|s|s |s 0 |s 0 0|s 00|\
    s 01|s 256|s -1|S 0|s0|c|c 0 0|c 00|c 999|C 0|m |m 0| m|M|mm|n 2n|s ?|w|w |w 0 |w 0 1|\
    w  0| w 0|w 00|w 01|w 256|w 999|w -1|w -0|w +0|W 0|w0|w7|w-1|ww 0|w ?|w 1!w7|w ok|\
    n 2:0|n 2 1 |n 2  1|n 2 1 1|n 2 0 1|n 2 1 0|n 2 00|n 2 01|n 2 256|n 2 1000|n 2 -1|n 2 +1|\
    n 2 1.|n 2 a|n 2 1:0|n 2,1|n 2\t1|n 2 4294967297|\
    o:0 0 1?|o 0:0 1?|o 0 :0|o 0 1? :0|o 0 1?: 0|s 0:0|s:0 0|c 0:0|w 0:0|m:0|:0|:|\
    n 2^0|n 2 1^0|n^0 2|o^0 0 1?|o 0^0 1?|o 0 ^0|o 0 1? ^0|o 0 1?^ 0|o 0 1?:0 ^0|o 0 1? :0^0|\
    s 0^0|s^0 0|c 0^0|w 0^0|m^0|^0|^";

/// Parted by bars.
const MALFORMED_GUARDS: &str = "\
    ?|!|!0|1|-|-1|--1?|1-?|+1?|1??|1?0|1?!|1!?|1!|01?|00?|-01?|256?|1000?|1 ?|a?|1!x|\
    1!00|1!1|1!-0|1!0 0|1!!0|1!w|1!w-|1!w-0|1!w00|1!w01|1!w-01|1!w+1|1!w--1|\
    1!w2147483648|1!w-2147483649|1!w4294967296|1!w99999999999999999999|1!w1.0|1!w1e3|\
    1!W1|1!w0x1|1!w1w1|1!r|1!r4097|1!r40970a3|1!r40970a3d0|1!r40970A3D|1!r40970a3g|\
    1!R40970a3d|1!r-0970a3d|1!r4.72|1!r0x40970a|1!r 40970a3|1!l|1!l40970a3d|\
    1!l40970a3d40970a3|1!l40970a3d40970a3d0|1!l40970a3d40970a3D|1!l40970A3d40970a3d|\
    1!L40970a3d40970a3d|1!l40970a3d 40970a3d|1!l40970a3d,40970a3d";

/// Parted by bars: kinds out of form, and kinds at another place than the end.
const MALFORMED_KINDS: &str = "\
    1?:|1?:00|1?:01|1?:007|1?:256|1?:257|1?:999|1?:1000|1?:4294967296|\
    1?:18446744073709551616|1?:-1|1?:-0|1?:+1|1?:a|1?:0x1|1?:1.|1?:w1|1?:1?|1?:!0|\
    1?:1:2|1?:0:0|1?::1|1?:1:|1?3|1?;3|1?,3|1?.3|1:3?|1:3|1:?|1:|:|:3|:3?|:3:1?|:1?|?:3|\
    1!:3w5|1!:3|1!:0|1!:|1:3!w5|1!w:3|1!w5:|1!w5:00|1!w5:01|1!w5:256|1!w5:-1|1!w5:1:2|\
    1!w5:w3|1!w5:3w5|1!w:35|1!w5:3?|1!0:|1!0:00|1!0:256|1!0:3!0|1!00:3|1!w-:3|1!w05:3|\
    1!r40970a3d:|1!r40970a3d:00|1!r40970a3d:256|1!r40970a3:1|1!r40970a3:d|1!r:340970a3d|\
    1!l40970a3d40970a3d:|1!l40970a3d40970a3d:256|1!l40970a3d:40970a3d|\
    1!l40970a3d:140970a3d:1|-1?:|-1?:00|-1?:256|-1?:1:2|-1:3?|-:3|:3-1?|-1!w5:|-1!w5:00|\
    -1!w5:256|-1!:3w5|-1!w5:-3";

/// Parted by bars.
const WELL_FORMED_KINDS: &str = "\
    1?:0|1?:1|1?:9|1?:10|1?:99|1?:100|1?:199|1?:249|1?:255|1!0:0|1!0:255|1!w5:0|1!w-5:10|\
    1!w2147483647:255|1!w-2147483648:255|1!r40970a3d:7|1!l40970a3d40970a3d:200|-1?:0|-1?:3|\
    -1?:255|-1!0:0|-1!w5:255|-1!r40970a3d:1|-1!l40970a3d40970a3d:1";

/// Parted by bars: ranks out of form, and ranks at another place than the end.
const MALFORMED_RANKS: &str = "\
    1?^|1?^00|1?^01|1?^007|1?^256|1?^257|1?^999|1?^1000|1?^4294967296|\
    1?^18446744073709551616|1?^-1|1?^-0|1?^+1|1?^a|1?^0x1|1?^1.|1?^w1|1?^1?|1?^!0|\
    1?^1^2|1?^0^0|1?^^1|1?^1^|1?~3|1?*3|1?'3|1^3?|1^3|1^?|1^|^|^3|^3?|^3^1?|^1?|?^3|\
    1!^3w5|1!^3|1!^0|1!^|1^3!w5|1!w^3|1!w5^|1!w5^00|1!w5^01|1!w5^256|1!w5^-1|1!w5^1^2|\
    1!w5^w3|1!w5^3w5|1!w^35|1!w5^3?|1!0^|1!0^00|1!0^256|1!0^3!0|1!00^3|1!w-^3|1!w05^3|\
    1!r40970a3d^|1!r40970a3d^00|1!r40970a3d^256|1!r40970a3^1|1!r40970a3^d|1!r^340970a3d|\
    1!l40970a3d40970a3d^|1!l40970a3d40970a3d^256|1!l40970a3d^40970a3d|\
    1!l40970a3d^140970a3d^1|-1?^|-1?^00|-1?^256|-1?^1^2|-1^3?|-^3|^3-1?|-1!w5^|-1!w5^00|\
    -1!w5^256|-1!^3w5|-1!w5^-3";

/// Parted by bars: kinds and ranks together, in the wrong order or form.
const MALFORMED_KINDS_WITH_RANKS: &str = "\
    1?^1:2|1?^0:0|1?^1:|1?^:1|1?^:|1?:^|1?:^1|1?:1^|1?:1^00|1?:1^01|1?:1^256|1?:1^-1|\
    1?:1^+1|1?:1^a|1?:00^1|1?:01^1|1?:256^1|1?:-1^1|1?:256^256|1?:1^2^3|1?:1^^2|1?:1^2^|\
    1?::1^2|1?:1:2^3|1?:1:^3|1?:1^2:3|1?:1^2:|1?^1:2^3|1?^1^2:3|1:1^2?|1:1?^2|1^2?:1|:1^2|\
    :1^2?|^2:1?|?:1^2|1!w5^1:2|1!w5:^1|1!w5:1^|1!w5:1^256|1!w5:256^1|1!w:1^5|1!:1w5^2|1!:1^2|\
    1!0^1:2|1!0:1^00|1!r40970a3d^1:2|1!r40970a3d:1^256|1!r40970a3:1^2|1!l40970a3d40970a3d^1:2|\
    1!l40970a3d:1^240970a3d|-1?^1:2|-1?:1^|-1?:1^256|-1:1^2?|-:1^2|-1!w5^1:2|-1!w5:1^01";

/// Parted by bars.
const WELL_FORMED_RANKS: &str = "\
    1?^0|1?^1|1?^9|1?^10|1?^99|1?^100|1?^199|1?^249|1?^255|1!0^0|1!0^255|1!w5^0|1!w-5^10|\
    1!w2147483647^255|1!w-2147483648^255|1!r40970a3d^7|1!l40970a3d40970a3d^200|-1?^0|-1?^3|\
    -1?^255|-1!0^0|-1!w5^255|-1!r40970a3d^1|-1!l40970a3d40970a3d^1|1?:0^0|1?:255^0|1?:0^255|\
    1?:255^255|1!0:1^2|1!w-5:10^99|1!r40970a3d:7^8|1!l40970a3d40970a3d:200^100|-1?:3^4|\
    -1!w5:255^255|-1!l40970a3d40970a3d:1^1";

#[test]
fn malformed_commands() {
    for line in MALFORMED_COMMANDS.split('|') {
        check_malformed(line.as_bytes());
    }
    for line in [b"n \xff".as_slice(), b"m\0", b"\0", b"\xc3\xa4", b"m\r"] {
        check_malformed(line);
    }
}

#[test]
fn malformed_guards() {
    let texts = [
        MALFORMED_GUARDS,
        MALFORMED_KINDS,
        MALFORMED_RANKS,
        MALFORMED_KINDS_WITH_RANKS,
    ];
    for guard in texts.join("|").split('|') {
        check_malformed(format!("o 0 {guard}").as_bytes());
        // Late in a line it still comes before every other refusal: guard 0
        // names the party itself, and party 9 is none.
        check_malformed(format!("o 0 0? {guard}").as_bytes());
        check_malformed(format!("o 9 1!r7fc00000 1? {guard}").as_bytes());
    }
}

#[test]
fn well_formed_kinds_and_ranks() {
    let texts = [WELL_FORMED_KINDS, WELL_FORMED_RANKS].join("|");
    for guard in texts.split('|') {
        // The last guard is enabled, whatever the others are.
        let line = format!("o 0 {guard} 1? {guard} 1?:5");
        check_script(&[("n 2", "n 2"), (&line, "o 0 t0")]);
    }
}

#[test]
fn line_length_with_kinds() {
    // 3 bytes, 7 guards of 25 with their spaces and one of 20 make 198.
    let guard = "1!l40970a3d40970a3d";
    let line = format!("o 0{} {guard}", format!(" -{guard}:255").repeat(7));
    assert_eq!(line.len(), 198);
    check_script(&[
        ("n 2", "n 2"),
        (&format!("{line}:99"), "x 8"),
        (&format!("{line}:9"), "o 0 t0"),
    ]);
}

#[test]
fn line_length_with_ranks() {
    // 3 bytes, 6 guards of 29 with their spaces and one of 20 make 197.
    let guard = "1!l40970a3d40970a3d";
    let line = format!("o 0{} {guard}", format!(" -{guard}:255^255").repeat(6));
    assert_eq!(line.len(), 197);
    check_script(&[
        ("n 2", "n 2"),
        (&format!("{line}^100"), "x 8"),
        (&format!("{line}^99"), "o 0 t0"),
    ]);
}

#[test]
fn nothing_runs_before_an_accepted_n() {
    check_script(&[
        ("m", "x 8"),
        ("s 0", "x 8"),
        ("c 0", "x 8"),
        ("w 0", "x 8"),
        ("o 0 1?", "x 8"),
        ("o 0", "x 8"),
        ("n 1", "x 1"),
        ("s 255", "x 8"),
        ("n 02", "x 8"),
        ("n 33", "x 1"),
        ("m", "x 8"),
        ("n 32", "n 32"),
        ("m", "m 00000000"),
    ]);
}

#[test]
fn a_refused_n_keeps_the_desk_and_an_accepted_one_replaces_it() {
    check_script(&[
        ("n 2", "n 2"),
        ("o 0 1?", "o 0 t0"),
        ("n 33", "x 1"),
        ("n 0", "x 1"),
        ("n 255", "x 1"),
        ("n 256", "x 8"),
        ("s 0", "s 0 A0"),
        ("o 1 0?", "o 1 t1"),
        ("m", "m 00000003"),
        ("n 2", "n 2"),
        ("m", "m 00000000"),
        ("s 0", "s 0 ="),
        ("o 1 0?", "o 1 t0"),
    ]);
}

#[test]
fn refused_lines() {
    check_script(&[
        ("n 2", "n 2"),
        ("o 0", "x 3"),
        ("o 0 1? 1? 1? 1? 1? 1? 1? 1? 1?", "x 3"),
        ("o 2", "x 2"),
        ("o 255 1?", "x 2"),
        ("s 2", "x 2"),
        ("c 2", "x 2"),
        ("c 255", "x 2"),
        ("w 2", "x 2"),
        ("w 255", "x 2"),
        ("o 0 0?", "x 4"),
        ("o 0 2?", "x 4"),
        ("o 0 1? -255!0", "x 4"),
        ("o 0 1!r7fc00000", "x 5"),
        ("o 0 1!r7f800001", "x 5"),
        ("o 0 1!rffffffff", "x 5"),
        ("o 0 1!l000000007fc00000", "x 5"),
        ("o 0 1!lffc0000000000000", "x 5"),
        ("o 0 1? -1!r7fc00000", "x 5"),
        // Guard by guard: the first guard at fault decides.
        ("o 0 1!r7fc00000 0?", "x 5"),
        ("o 0 0? 1!r7fc00000", "x 4"),
        ("o 0 0!r7fc00000", "x 4"),
        ("o 0 -1? -1!0", "x 6"),
        ("c 0", "x 13"),
        ("w 0", "x 14"),
        ("o 0 1? 1? 1? 1? 1? 1? 1? 1?", "o 0 t0"),
        ("o 0 1?", "x 11"),
        ("o 0 0?", "x 4"),
        ("c 0", "x 13"),
        ("s 0", "s 0 A0"),
    ]);
}

/// Party 0 sends the message to party 1, which `waiter` awaits while the other
/// commits. The waiter offers first, so it has ticket 0.
fn check_travel(message: &str, waiter: usize) {
    let committer = 1 - waiter;
    let offers = [format!("o 0 1!{message}"), "o 1 0?".to_string()];
    let mut pairs = vec![("n 2".to_string(), "n 2".to_string())];
    pairs.push((offers[waiter].clone(), format!("o {waiter} t0")));
    for place in ["A0", "P", "O", "H", "W"] {
        pairs.push((format!("s {waiter}"), format!("s {waiter} {place}")));
    }
    pairs.push((offers[committer].clone(), format!("o {committer} t1")));
    for place in ["A0", "T0", "C0", "M"] {
        pairs.push((format!("s {committer}"), format!("s {committer} {place}")));
    }
    pairs.push((format!("s {waiter}"), format!("s {waiter} M")));
    pairs.push(("c 1".to_string(), format!("c 1 0 0 {message}")));
    pairs.push(("c 0".to_string(), "c 0 0 1 0".to_string()));
    let pairs: Vec<(&str, &str)> = pairs.iter().map(|(a, b)| (&a[..], &b[..])).collect();
    check_script(&pairs);
}

#[test]
fn messages_travel_as_written() {
    let floats = "r00000000 r80000000 r7f800000 rff800000 r00000001 r40970a3d r7f7fffff";
    let limits = "l40970a3dc0970a3d lc0970a3d40970a3d l8000000000000000 l7f800000ff800000";
    let others = "0 w0 w7 w-1 w2147483647 w-2147483648";
    for message in [floats, limits, others].join(" ").split(' ') {
        check_travel(message, 0);
        check_travel(message, 1);
    }
}

#[test]
fn places_and_indexes_are_shown() {
    // Party 31 is older. It passes 30 and 0, which run, and waits. Then 30
    // tries its guard 2: guard 1 sends to 0, which runs, guard 0 is disabled.
    check_script(&[
        ("n 32", "n 32"),
        ("o 31 30!w-5 -30? 0?", "o 31 t0"),
        ("s 31", "s 31 A0"),
        ("m", "m 80000000"),
        ("s 31", "s 31 A2"),
        ("o 30 -31? 0!0 31?", "o 30 t1"),
        ("m", "m c0000000"),
        ("s 30", "s 30 A1"),
        ("s 30", "s 30 A2"),
        // 31 is at A, so ALT, and older.
        ("s 30", "s 30 S"),
        ("s 31", "s 31 P"),
        ("s 31", "s 31 O"),
        ("s 31", "s 31 H"),
        ("s 30", "s 30 A1"),
        ("s 30", "s 30 A2"),
        ("s 30", "s 30 S"),
        ("s 31", "s 31 W"),
        ("s 31", "s 31 ="),
        ("m", "m 40000000"),
        ("s 30", "s 30 A1"),
        ("s 30", "s 30 A2"),
        ("s 30", "s 30 T2"),
        ("s 30", "s 30 C2"),
        ("s 31", "s 31 ="),
        ("s 30", "s 30 M"),
        ("s 30", "s 30 ="),
        ("m", "m 80000000"),
        ("s 31", "s 31 M"),
        ("c 30", "c 30 2 31 w-5"),
        ("c 30", "x 13"),
        ("c 31", "c 31 0 30 0"),
        ("m", "m 00000000"),
    ]);
}

#[test]
fn two_scanning_parties_stand_still_and_fall_asleep() {
    check_scanning("1?", "0?");
}

#[test]
fn withdrawals_are_shown() {
    check_script(&[
        ("n 32", "n 32"),
        // The command is the first field; a message has the letter too.
        ("o 0 31!w0", "o 0 t0"),
        ("w 0", "w 0 ok"),
        ("w 0", "x 14"),
        ("o 31 0!w-31", "o 31 t1"),
        ("w 0 ", "x 8"),
        ("m", "m 80000000"),
        ("w 31", "w 31 ok"),
        ("m", "m 00000000"),
        // The tickets of withdrawn offers are not given again.
        ("o 0 31?", "o 0 t2"),
    ]);
}

#[test]
fn an_unended_withdrawal_withdraws_nothing() {
    assert_eq!(run(b"n 2\no 0 1?\nw 0"), b"n 2\no 0 t0\nx 8\n");
}
