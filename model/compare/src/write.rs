//! Random scripts: good sessions, odd lines, and long ones.

use crate::crooked::{crooked_new, crooked_offer};
use crate::draw;
use crate::library::{line_with, parts, Start};
use crate::pace::Pace;
use crate::random::Random;
use model::{Call, Desk, Guard, Place};

/// Numbers around every bound of N and P, good and bad.
const NUMBERS: [&str; 18] = [
    "0",
    "1",
    "2",
    "3",
    "4",
    "8",
    "31",
    "32",
    "33",
    "99",
    "254",
    "255",
    "256",
    "257",
    "00",
    "01",
    "1000",
    "4294967298",
];

/// Whole numbers around every bound, good and bad.
const WHOLES: [&str; 16] = [
    "0",
    "1",
    "-1",
    "2147483646",
    "2147483647",
    "2147483648",
    "-2147483647",
    "-2147483648",
    "-2147483649",
    "4294967295",
    "9999999999",
    "10000000000",
    "-0",
    "00",
    "-01",
    "+1",
];

/// Lines that are nearly commands; `w` begins a message as well.
const NO_COMMANDS: [&str; 8] = ["", "w", "w0", "w-1", "w 0 1", "w 0 1?", "W 0", "w w0"];

/// One script, lines with their ends.
pub fn script(random: &mut Random) -> Vec<u8> {
    match random.below(4) {
        0 => odd_lines(random),
        _ => session(random),
    }
}

/// A session as tasks would hold it, with odd lines in between now and then.
fn session(random: &mut Random) -> Vec<u8> {
    let n = match random.below(4) {
        0 => 2 + random.below(31),
        _ => 2 + random.below(4),
    };
    let sociable = !random.one_in(3);
    let with = Bytes::draw(random);
    let mut pace = Pace::default();
    let (mut desk, mut script) = made(random, n);
    for _ in 0..20 + random.below(300) {
        if random.one_in(40) {
            script.extend(odd_line(random));
        }
        let party = pace.party(random, &desk);
        let mut call = next_call(random, &desk, party, sociable);
        with.forget_others(&mut call);
        let mut line = line_with(&call, |guard| with.written(random, guard));
        line.push('\n');
        for _ in 0..times(random, &desk, &call) {
            // Whether it is refused is for the two programs to say.
            let _ = call.on(&mut desk);
            script.extend(line.as_bytes());
        }
    }
    script
}

/// Which bytes the guards of a session have that may be left out.
struct Bytes {
    kinds: bool,
    ranks: bool,
}

impl Bytes {
    fn draw(random: &mut Random) -> Bytes {
        Bytes {
            kinds: !random.one_in(3),
            ranks: !random.one_in(3),
        }
    }

    fn forget_others(&self, call: &mut Call) {
        if !self.kinds {
            forget_kinds(call);
        }
        if !self.ranks {
            draw::forget_ranks(call);
        }
    }

    /// A guard's text. A byte that is 0 is left out or not.
    fn written(&self, random: &mut Random, guard: &Guard) -> String {
        let [partner, action, mut kind, mut rank] = parts(guard);
        if self.kinds && guard.kind == 0 && random.one_in(2) {
            kind = ":0".to_string();
        }
        if self.ranks && guard.rank == 0 && random.one_in(4) {
            rank = "^0".to_string();
        }
        [partner, action, kind, rank].concat()
    }
}

fn forget_kinds(call: &mut Call) {
    if let Call::Offer { guards, .. } = call {
        guards.iter_mut().for_each(|guard| guard.kind = 0);
    }
}

/// A fresh desk and the line that makes it. The nap length is often left out, and
/// then 1; but 1 is written out as well.
fn made(random: &mut Random, n: usize) -> (Desk, Vec<u8>) {
    let (nap, line) = match random.one_in(2) {
        true => (1, format!("n {n}\n")),
        false => {
            let nap = draw::nap(random);
            (nap, format!("n {n} {nap}\n"))
        }
    };
    (Start { n, nap }.desk(), line.into_bytes())
}

/// How many times a call is made in a row: once, but now and then a sleeper is
/// stepped until it leaves S, so that the longest naps end as well.
fn times(random: &mut Random, desk: &Desk, call: &Call) -> usize {
    let Call::Step { party } = *call else {
        return 1;
    };
    match desk.parties.get(party).map(|record| record.place) {
        Some(Place::Asleep(steps)) if random.one_in(8) => usize::from(desk.nap - steps),
        _ => 1,
    }
}

fn next_call(random: &mut Random, desk: &Desk, party: usize, sociable: bool) -> Call {
    if random.one_in(10) {
        return draw::call(random, desk.n);
    }
    match desk.parties[party].place {
        Place::Idle if sociable => {
            let guards = draw::sociable_list(random, party, desk.n);
            Call::Offer { party, guards }
        }
        Place::Idle => draw::offer(random, party, desk.n),
        Place::Met(_) => Call::Collect { party },
        _ if random.one_in(25) => Call::Withdraw { party },
        _ if desk.at_rest() => draw::call(random, desk.n),
        _ => Call::Step { party },
    }
}

fn odd_lines(random: &mut Random) -> Vec<u8> {
    let mut script = Vec::new();
    for _ in 0..1 + random.below(30) {
        script.extend(odd_line(random));
    }
    script
}

/// A line of well-formed parts that need not fit together.
fn odd_line(random: &mut Random) -> Vec<u8> {
    let number = random.pick(&NUMBERS);
    let mut line = match random.below(12) {
        0 => format!("n {number}"),
        1 => format!("n {number} {}", odd_nap(random)),
        2 => crooked_new(random),
        3 => format!("s {number}"),
        4 => format!("c {number}"),
        5 => format!("w {number}"),
        6 => "m".to_string(),
        7 => random.pick(&NO_COMMANDS).to_string(),
        8 => return long_line(random),
        9 => crooked_offer(random),
        _ => {
            let guards: String = (0..random.below(11)).map(|_| odd_guard(random)).collect();
            format!("o {number}{guards}")
        }
    };
    line.push('\n');
    line.into_bytes()
}

/// A nap length at any bound, often 0.
fn odd_nap(random: &mut Random) -> &'static str {
    match random.one_in(3) {
        true => "0",
        false => random.pick(&NUMBERS),
    }
}

fn odd_guard(random: &mut Random) -> String {
    let sign = random.pick(&["", "", "", "-", "--"]);
    let partner = random.pick(&NUMBERS);
    let action = match random.below(8) {
        0..=2 => "?".to_string(),
        3 => "!0".to_string(),
        4 => format!("!w{}", random.pick(&WHOLES)),
        5 => format!("!r{}", digits(random, 8)),
        6 => format!("!l{}", digits(random, 16)),
        _ => random
            .pick(&["!", "?0", "!00", "!r", "!x", "", "!w", "?!0"])
            .to_string(),
    };
    let kind = odd_byte(random, ':');
    let rank = odd_byte(random, '^');
    format!(" {sign}{partner}{action}{kind}{rank}")
}

/// A kind or a rank at any bound, mostly left out.
fn odd_byte(random: &mut Random, sign: char) -> String {
    match random.one_in(4) {
        true => format!("{sign}{}", random.pick(&NUMBERS)),
        false => String::new(),
    }
}

/// Hexadecimal digits, now and then one too few, too many or in upper case.
fn digits(random: &mut Random, count: usize) -> String {
    let count = match random.below(12) {
        0 => count - 1,
        1 => count + 1,
        _ => count,
    };
    let form = random.below(12);
    let text: String = (0..count.div_ceil(8))
        .map(|_| match form {
            0 => format!("{:08x}", random.pick(&draw::NANS)),
            _ => format!("{:08x}", random.bits()),
        })
        .collect();
    let text = text + "0";
    match form {
        1 => text[..count].to_uppercase(),
        _ => text[..count].to_string(),
    }
}

/// A line about as long as a line may be, or much longer.
fn long_line(random: &mut Random) -> Vec<u8> {
    let length = match random.below(6) {
        0 => 1000 + random.below(5000),
        1 => random.pick(&[255, 256, 257, 400, 4095, 4096, 4097, 65_536]),
        _ => 198 + random.below(5),
    };
    let mut line = match random.below(5) {
        0 => b"o 0 1!w-2147483648 1!l000000007f800000".to_vec(),
        1 => b"m".to_vec(),
        2 => b"w 0".to_vec(),
        3 => b"n 2 3".to_vec(),
        _ => b"s 0".to_vec(),
    };
    let filler: &[u8] = random.pick(&[
        b" 1?" as &[u8],
        b" ",
        b"0",
        b"x",
        b"\0",
        b" -1!0",
        b" 1?:255",
        b" 1?:255^255",
    ]);
    while line.len() < length {
        line.extend(filler);
    }
    line.truncate(length);
    line.push(b'\n');
    line
}

#[cfg(test)]
mod tests {
    use super::*;
    use std::collections::BTreeSet;

    #[test]
    fn long_lines_lie_on_both_sides_of_the_bound() {
        let mut random = Random::new(3);
        let lengths: Vec<usize> = (0..200).map(|_| long_line(&mut random).len() - 1).collect();
        for wanted in [199, 200, 201] {
            assert!(lengths.contains(&wanted));
        }
    }

    #[test]
    fn sessions_are_made_with_and_without_a_nap_length() {
        let mut random = Random::new(8);
        let mut lines = BTreeSet::new();
        for _ in 0..200 {
            lines.extend(String::from_utf8(made(&mut random, 2).1));
        }
        for wanted in ["n 2\n", "n 2 1\n", "n 2 2\n", "n 2 4\n", "n 2 255\n"] {
            assert!(lines.contains(wanted), "{wanted}");
        }
    }

    #[test]
    fn sessions_bring_rendezvous_and_collections() {
        let mut random = Random::new(4);
        let collected = (0..40).any(|_| {
            let output = model::script::run(&session(&mut random));
            output
                .split(|&byte| byte == b'\n')
                .any(|line| line.starts_with(b"c "))
        });
        assert!(collected);
    }

    #[test]
    fn sessions_bring_every_answer_to_a_withdrawal() {
        let mut random = Random::new(5);
        let mut last_words = BTreeSet::new();
        for _ in 0..400 {
            let script = session(&mut random);
            let output = model::script::run(&script);
            let lines = script.split(|&byte| byte == b'\n');
            let answers = output.split(|&byte| byte == b'\n');
            let withdrawals = lines
                .zip(answers)
                .filter(|(line, _)| line.starts_with(b"w "));
            let words =
                withdrawals.flat_map(|(_, answer)| answer.rsplit(|&byte| byte == b' ').next());
            last_words.extend(words.map(<[u8]>::to_vec));
        }
        for wanted in [&b"ok"[..], b"late", b"14", b"2"] {
            assert!(last_words.contains(wanted), "{}", wanted.escape_ascii());
        }
    }
}
