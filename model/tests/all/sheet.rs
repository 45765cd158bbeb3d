//! The day sheet of a script: what counts, for which desk, and how it is printed.

use crate::runs::random_call;
use crate::tools::Xorshift;
use model::{script, sheet, Action, Call, Desk, Guard};

/// The sheet as the answers of the script program tell it. The open offers are
/// those that the users' equation leaves.
fn by_script(input: &[u8]) -> String {
    let output = String::from_utf8(script::run(input)).expect("the output is text");
    let (mut offers, mut meetings, mut withdrawn) = (0, 0, 0);
    for line in output.lines() {
        let fields: Vec<&str> = line.split(' ').collect();
        match fields[..] {
            ["n", _] => (offers, meetings, withdrawn) = (0, 0, 0),
            ["o", ..] => offers += 1,
            ["s", _, place] if place.starts_with('C') => meetings += 1,
            ["w", _, "ok"] => withdrawn += 1,
            _ => (),
        }
    }
    let open = offers - 2 * meetings - withdrawn;
    format!("{offers} {meetings} {withdrawn} {open}\n")
}

fn check_bytes(input: &[u8], line: &str) {
    let shown = String::from_utf8_lossy(input);
    let printed = String::from_utf8_lossy(&sheet::run(input)).into_owned();
    assert_eq!(printed, format!("{line}\n"), "for {shown:?}");
    assert_eq!(by_script(input), printed, "for {shown:?}");
}

/// Runs a script of ended lines, parted here by bars.
fn check(script: &str, line: &str) {
    check_bytes(ended(script).as_bytes(), line);
}

fn ended(script: &str) -> String {
    script.replace('|', "\n") + "\n"
}

/// Party 1 waits for party 0, which commits: two offers, one meeting.
const MET: &str = "o 1 0?|s 1|s 1|s 1|s 1|s 1|o 0 1!w7|s 0|s 0|s 0";

/// The sheet after `n 3` and these lines.
fn check_on_three(script: &str, line: &str) {
    check(&format!("n 3|{script}"), line);
}

#[test]
fn input_without_a_desk() {
    check_bytes(b"", "0 0 0 0");
    check_bytes(b"\n", "0 0 0 0");
    check_bytes(b"\n\n\n", "0 0 0 0");
    check_bytes(b"\0\xff", "0 0 0 0");
    // Nothing runs before an accepted `n`.
    check("m", "0 0 0 0");
    check("o 0 1?|o 1 0!0|s 0|w 1|c 0|m", "0 0 0 0");
    check(MET, "0 0 0 0");
}

#[test]
fn an_n_that_makes_no_desk() {
    for line in [
        "n 0", "n 1", "n 33", "n 255", "n 2 0", "n 1 0", "n 256", "n 02", "n", "n 2 ", "n 2\r",
        "N 2",
    ] {
        check(line, "0 0 0 0");
        check(&format!("{line}|{MET}"), "0 0 0 0");
    }
    check_bytes(b"n 2", "0 0 0 0");
    check(&format!("n 2{}", " ".repeat(198)), "0 0 0 0");
}

#[test]
fn a_fresh_desk() {
    for line in ["n 2", "n 32", "n 2 1", "n 32 255"] {
        check(line, "0 0 0 0");
        check(&format!("{line}|m|s 0|c 0|w 1|s 32"), "0 0 0 0");
    }
}

#[test]
fn the_marked_session_line_by_line() {
    let lines = [
        ("n 2", "0 0 0 0"),
        ("o 0 1!r40970a3d", "1 0 0 1"),
        ("o 1 0?", "2 0 0 2"),
        ("s 0", "2 0 0 2"), // A
        ("s 0", "2 0 0 2"), // P
        ("s 0", "2 0 0 2"), // O
        ("s 0", "2 0 0 2"), // H
        ("s 0", "2 0 0 2"), // W
        ("s 1", "2 0 0 2"), // A
        ("s 1", "2 0 0 2"), // T
        ("s 1", "2 1 0 0"), // C, which closes both
        ("s 1", "2 1 0 0"), // M
        ("s 0", "2 1 0 0"), // M
        ("c 1", "2 1 0 0"),
        ("c 0", "2 1 0 0"),
        ("m", "2 1 0 0"),
    ];
    let mut input = String::new();
    for (line, printed) in lines {
        // As long as the line has not ended, it counts for nothing.
        let before = by_script(input.as_bytes());
        assert_eq!(
            sheet::run((input.clone() + line).as_bytes()),
            before.as_bytes()
        );
        input += &format!("{line}\n");
        check_bytes(input.as_bytes(), printed);
    }
}

#[test]
fn withdrawals() {
    check_on_three("o 0 1?|w 0", "1 0 1 0");
    check_on_three("o 0 1?|s 0|s 0|s 0|s 0|s 0|w 0", "1 0 1 0");
    check_on_three("o 0 1?|w 0|w 0", "1 0 1 0");
    check_on_three("o 0 1?|w 0|o 0 1?|w 0|o 0 1?", "3 0 2 1");
    check_on_three("o 0 1?|o 1 0!0|o 2 0?|w 1", "3 0 1 2");
    // Just before the commit, and too late.
    check_on_three(&MET.replace("o 0 1!w7", "w 1|o 0 1!w7"), "2 0 1 1");
    check_on_three(&format!("{MET}|w 0|w 1"), "2 1 0 0");
    check_on_three(&format!("{MET}|s 0|w 0|w 1|s 1|w 1"), "2 1 0 0");
    check_on_three(&format!("{MET}|o 2 0?|w 2|o 2 1?"), "4 1 1 1");
}

/// Each is refused on a fresh desk of three, and after MET as well.
const REFUSED: [&str; 14] = [
    "o 0",
    "o 2 0? 0? 0? 0? 0? 0? 0? 0? 0?",
    "o 3 0?",
    "o 2 2?",
    "o 2 3?",
    "o 2 0!r7fc00000",
    "o 2 -0?",
    "s 3",
    "s 255",
    "c 0",
    "c 1",
    "c 3",
    "w 2",
    "w 3",
];

#[test]
fn refused_lines_count_for_nothing() {
    for line in REFUSED {
        check_on_three(line, "0 0 0 0");
        check_on_three(&format!("{line}|{MET}"), "2 1 0 0");
        check_on_three(&format!("{MET}|{line}|{line}"), "2 1 0 0");
    }
    // Busy parties, at C and at W with wake count 1.
    check_on_three(&format!("{MET}|o 0 1?|o 1 0?"), "2 1 0 0");
    // After the collections there is nothing to take, back or out.
    let collected = format!("{MET}|s 0|s 1|c 0|c 1");
    check_on_three(&format!("{collected}|c 0|c 1|w 0|w 1"), "2 1 0 0");
}

#[test]
fn malformed_lines_count_for_nothing() {
    for line in [
        "",
        " ",
        "w 2 ",
        " w 1",
        "W 1",
        "w 01",
        "w 256",
        "o 2 0? ",
        " o 2 0?",
        "o 02 0?",
        "o 2 0?^256",
        "o 2 0?^1:2",
        "q",
        "s 0 0",
        "n 2 1 1",
        "n 2 256",
        "n 2\r",
        "x 8",
    ] {
        check_on_three(line, "0 0 0 0");
        check_on_three(&format!("{line}|{MET}|o 2 1?"), "3 1 0 1");
        check_on_three(&format!("{MET}|o 2 1?|{line}"), "3 1 0 1");
    }
}

#[test]
fn overlong_lines_count_for_nothing() {
    // 3 bytes, 6 guards of 29 with their spaces and one of 20 make 197.
    let guard = "1!l40970a3d40970a3d";
    let line = format!("o 0{} {guard}", format!(" -{guard}:255^255").repeat(6));
    assert_eq!(line.len(), 197);
    check_on_three(&format!("{line}^99"), "1 0 0 1");
    check_on_three(&format!("{line}^100"), "0 0 0 0");
    // Skipped to its end: what follows the 200th byte is no line.
    let spaces = " ".repeat(200);
    check_on_three(&format!("o 0 1?|{spaces}w 0"), "1 0 0 1");
    check_on_three(&format!("o 0 1?|{spaces}n 2|w 0"), "1 0 1 0");
    check_on_three(&format!("o 0 1?|{}|w 0", "w".repeat(100_000)), "1 0 1 0");
}

#[test]
fn an_unended_last_line_counts_for_nothing() {
    check_bytes(b"n 2\no 0 1?", "0 0 0 0");
    check_bytes(b"n 2\no 0 1?\nw 0", "1 0 0 1");
    check_bytes(b"n 2\no 0 1?\nn 2", "1 0 0 1");
    check_bytes(b"n 2\no 0 1?\nn 33", "1 0 0 1");
    let trying = MET.strip_suffix("|s 0").expect("the commit comes last");
    let unended = ended(&format!("n 3|{trying}")) + "s 0";
    check_bytes(unended.as_bytes(), "2 0 0 2");
}

#[test]
fn a_refused_n_keeps_the_sheet_of_the_old_desk() {
    for line in [
        "n 0", "n 1", "n 33", "n 2 0", "n 32 0", "n 256", "n 02", "n 2 ",
    ] {
        check_on_three(&format!("{MET}|o 2 1?|w 2|{line}"), "3 1 1 0");
        // Later calls go on with it.
        let later = "o 2 1?|o 2 1?|w 0";
        check_on_three(&format!("{MET}|{line}|{later}"), "3 1 0 1");
    }
}

#[test]
fn the_sheet_is_that_of_the_last_desk() {
    check_on_three(&format!("{MET}|o 2 1?|w 2|n 2"), "0 0 0 0");
    check_on_three(&format!("{MET}|n 2|o 0 1?"), "1 0 0 1");
    check_on_three(&format!("o 0 1?|o 1 0?|w 0|n 2|{MET}"), "2 1 0 0");
    check_on_three(&format!("{MET}|n 3|{MET}|o 2 1?|w 2"), "3 1 1 0");
    check_on_three("o 0 1?|n 2|n 33|n 2 0|m", "0 0 0 0");
    // The old desk's offer is gone: there is nothing to take back.
    check_on_three("o 0 1?|n 3|w 0|s 0", "0 0 0 0");
}

#[test]
fn numbers_of_several_digits() {
    let often = |lines: &str, times| vec![lines; times].join("|");
    check_on_three(&often("o 0 1?|w 0", 9), "9 0 9 0");
    check_on_three(&often("o 0 1?|w 0", 10), "10 0 10 0");
    check_on_three(&often("o 0 1?|w 0", 70_000), "70000 0 70000 0");
    let meeting = format!("{MET}|s 0|s 1|c 0|c 1");
    check_on_three(&often(&meeting, 500), "1000 500 0 0");
    let offers: Vec<String> = (0..32)
        .map(|party| format!("o {party} {}?", party ^ 1))
        .collect();
    check(&format!("n 32|{}", offers.join("|")), "32 0 0 32");
}

/// A guard as a script writes it.
fn written(guard: &Guard) -> String {
    let sign = if guard.enabled { "" } else { "-" };
    let action = match guard.action {
        Action::Receive => "?".to_string(),
        Action::Send(message) => format!("!{message}"),
    };
    let (partner, kind, rank) = (guard.partner, guard.kind, guard.rank);
    format!("{sign}{partner}{action}:{kind}^{rank}")
}

/// A call as a script writes it.
fn line(call: &Call) -> String {
    match call {
        Call::Offer { party, guards } => {
            let guards = guards.iter().map(|guard| format!(" {}", written(guard)));
            format!("o {party}{}", guards.collect::<String>())
        }
        Call::Step { party } => format!("s {party}"),
        Call::Collect { party } => format!("c {party}"),
        Call::Withdraw { party } => format!("w {party}"),
        Call::Movers => "m".to_string(),
    }
}

/// A script, and the desk on which its calls have been made.
struct Played {
    script: String,
    desk: Desk,
}

impl Played {
    fn new() -> Played {
        let desk = Desk::new(2, 1).expect("two parties are made");
        Played {
            script: "n 2\n".to_string(),
            desk,
        }
    }

    fn write(&mut self, line: &str) {
        self.script += line;
        self.script.push('\n');
    }

    fn call(&mut self, call: &Call) {
        let line = line(call);
        self.write(&line);
        // An overlong line makes no call. A refused call leaves the desk.
        if line.len() <= 200 {
            let _ = call.on(&mut self.desk);
        }
    }

    /// A line that leaves the desk, or a new desk.
    fn disturb(&mut self, random: &mut Xorshift) {
        let lines = ["", "n 33", "n 2 0", "w 01", "o 0 0?", "s 9", "c 255", "q"];
        if !random.one_in(20) {
            return self.write(lines[random.below(lines.len())]);
        }
        let (n, nap) = (2 + random.below(4), 1 + random.below(3) as u8);
        self.write(&format!("n {n} {nap}"));
        self.desk = Desk::new(n, nap).expect("two to five parties are made");
    }

    /// The sheet as the desk's own counters tell it.
    fn by_counters(&self) -> String {
        let desk = &self.desk;
        let (offers, open) = (desk.next_ticket.0, desk.open_offers().len());
        format!("{offers} {} {} {open}", desk.meetings, desk.withdrawn)
    }
}

#[test]
fn random_scripts_agree_with_the_desks_counters() {
    let (mut meetings, mut withdrawn) = (0, 0);
    for seed in 1..=30 {
        let mut random = Xorshift::new(seed << 40 | 0x9e37_79b9);
        let mut played = Played::new();
        for number in 0..2000 {
            match random.one_in(30) {
                true => played.disturb(&mut random),
                false => played.call(&random_call(&mut random, played.desk.n)),
            }
            if number % 97 == 0 {
                check_bytes(played.script.as_bytes(), &played.by_counters());
            }
        }
        check_bytes(played.script.as_bytes(), &played.by_counters());
        meetings += played.desk.meetings;
        withdrawn += played.desk.withdrawn;
    }
    // The last desks alone: the comparison is not empty.
    assert!(meetings > 20 && withdrawn > 100, "{meetings} {withdrawn}");
}
