//! The day sheet of scripts, good and spoiled: the program's one line against the model's.

use crate::part::{Budget, Finding, Verdict};
use crate::program::{Program, WHOLE};
use crate::random::Random;
use crate::scripts::{lines, told_in};
use crate::seen::Seen;
use crate::spoil::{noise, spoil};
use crate::write::script;

/// Inputs for each seed.
const INPUTS: usize = 12;

/// Seeds that are tried however short the time is, so that all has been seen.
const LEAST_SEEDS: usize = 50;

/// The longest line that a script may have, without its end.
const LONGEST_LINE: usize = 200;

const EMPTY: &str = "an empty input";
const NO_DESK: &str = "an input without a desk";
const NO_OFFER: &str = "a desk without an offer";
const MET: &str = "meetings";
const WITHDREW: &str = "withdrawn";
const OPEN: &str = "open";
const LATE: &str = "too late, on the last desk";
const FOUR_DIGITS: &str = "three totals of four digits";
const LATER_DESK: &str = "a desk after one with other offers";
const REFUSED_NEW: &str = "a refused n after offers";
const MALFORMED: &str = "a malformed line after offers";
const OVERLONG: &str = "an overlong line after offers";
const UNENDED: &str = "an unended last line that would have counted";
const IN_PIECES: &str = "an input in pieces";

const SHOWN: [&str; 14] = [
    EMPTY,
    NO_DESK,
    NO_OFFER,
    MET,
    WITHDREW,
    OPEN,
    LATE,
    FOUR_DIGITS,
    LATER_DESK,
    REFUSED_NEW,
    MALFORMED,
    OVERLONG,
    UNENDED,
    IN_PIECES,
];

/// Inputs at the edges, each tried once.
const EDGES: [&[u8]; 12] = [
    b"",
    b"\n",
    b"n",
    b"n 2",
    b"n 2\n",
    b"n 1\n",
    b"n 2 0\n",
    b"o 0 1?\nw 0\nm\n",
    b"n 2\no 0 1?\nn 33\n",
    b"n 2\no 0 1?\nn 2 0\nw 0\no 1 0?\n",
    b"n 2\no 0 1?\nn 3\n",
    b"n 2\no 0 1?\nw 0",
];

/// Lines that make no desk: those of `n` that 1 or 15 refuses, and such as are malformed.
const NO_NEWS: [&[u8]; 7] = [
    b"n 0\n",
    b"n 1\n",
    b"n 33\n",
    b"n 255\n",
    b"n 2 0\n",
    b"n 256\n",
    b"n 2 1 1\n",
];

#[derive(Default)]
struct Sums {
    inputs: u64,
    lines: u64,
    bytes: u64,
    seen: Seen,
}

pub fn run(program: &Program, budget: Budget) -> Verdict {
    let mut sums = Sums::default();
    let edges = EDGES.iter().map(|edge| edge.to_vec());
    for input in edges.chain([long_script()]) {
        let same = same(program, &input, WHOLE, &mut sums);
        same.map_err(|text| Finding::new(budget.seed, text))?;
    }
    let least = (0..LEAST_SEEDS as u64).map(|k| budget.seed.wrapping_add(k));
    for seed in least.chain(budget.seeds().skip(LEAST_SEEDS)) {
        draw(program, seed, &mut sums).map_err(|text| Finding::new(seed, text))?;
    }
    match sums.seen.missed(&SHOWN) {
        Some(text) => Err(Finding::new(budget.seed, text)),
        None => Ok(sums.told()),
    }
}

/// The drawn inputs of one seed.
fn draw(program: &Program, seed: u64, sums: &mut Sums) -> Result<(), String> {
    let mut random = Random::new(seed);
    for _ in 0..INPUTS {
        let input = input(&mut random);
        let piece = match random.one_in(4) {
            true => 1 + random.below(30 + input.len() / 10),
            false => WHOLE,
        };
        same(program, &input, piece, sums)?;
    }
    Ok(())
}

impl Sums {
    fn told(&self) -> String {
        let seen = SHOWN.map(|name| format!("{} with {name}", self.seen.count(name)));
        format!(
            "sheet: {} scripts, each in a run of its own, {} lines, {} bytes; {}",
            self.inputs,
            self.lines,
            self.bytes,
            seen.join(", ")
        )
    }
}

fn same(program: &Program, input: &[u8], piece: usize, sums: &mut Sums) -> Result<(), String> {
    let told = |text: String| told_in(program, input, piece, &text);
    let output = program.compared(input, piece).map_err(told)?;
    let sheet = Sheet::read(&output).ok_or_else(|| told("no sheet that adds up".to_string()))?;
    sums.inputs += 1;
    sums.lines += lines(input).count() as u64;
    sums.bytes += input.len() as u64;
    sums.seen.note(sheet.shown());
    sums.seen.note(Story::of(input).shown());
    let counts = |input: &[u8]| model::sheet::run(input) != output;
    let unended = input.last().is_some_and(|&byte| byte != b'\n');
    sums.seen
        .note((unended && counts(&[input, b"\n"].concat())).then_some(UNENDED));
    sums.seen.note((piece < input.len()).then_some(IN_PIECES));
    Ok(())
}

/// The four numbers of a sheet.
struct Sheet {
    offers: u64,
    meetings: u64,
    withdrawn: u64,
    open: u64,
}

impl Sheet {
    /// Reads the one line; none if it is not one whose numbers add up.
    fn read(output: &[u8]) -> Option<Sheet> {
        let line = std::str::from_utf8(output).ok()?.strip_suffix('\n')?;
        let numbers: Result<Vec<u64>, _> = line.split(' ').map(str::parse).collect();
        let [offers, meetings, withdrawn, open] = numbers.ok()?[..] else {
            return None;
        };
        (offers == 2 * meetings + withdrawn + open).then_some(Sheet {
            offers,
            meetings,
            withdrawn,
            open,
        })
    }

    fn shown(&self) -> impl Iterator<Item = &'static str> {
        let four_digits = self.offers.min(self.meetings).min(self.withdrawn) >= 1000;
        let all = [
            (self.meetings > 0, MET),
            (self.withdrawn > 0, WITHDREW),
            (self.open > 0, OPEN),
            (four_digits, FOUR_DIGITS),
        ];
        holding(all)
    }
}

/// What happens in a script, by the model's answers to its lines.
#[derive(Default)]
struct Story {
    lines: usize,
    /// The accepted offers of each desk.
    offers: Vec<u64>,
    // Since the last desk was made, and all but the first after an offer.
    late: bool,
    refused_new: bool,
    malformed: bool,
    overlong: bool,
}

impl Story {
    fn of(input: &[u8]) -> Story {
        let output = model::script::run(input);
        let mut story = Story::default();
        let commands = input.split_inclusive(|&byte| byte == b'\n');
        for (line, answer) in commands.zip(lines(&output)) {
            let text = line.strip_suffix(b"\n").unwrap_or(line);
            story.goes_on(text.len() > LONGEST_LINE, &answer);
        }
        story
    }

    fn goes_on(&mut self, overlong: bool, answer: &str) {
        self.lines += 1;
        let offered = self.offers.last().is_some_and(|&offers| offers > 0);
        match (answer.as_bytes()[0], answer.trim_end()) {
            (b'n', _) => {
                let (lines, mut offers) = (self.lines, std::mem::take(&mut self.offers));
                offers.push(0);
                *self = Story {
                    lines,
                    offers,
                    ..Story::default()
                };
            }
            (b'o', _) => *self.offers.last_mut().expect("a desk was made") += 1,
            (b'w', text) => self.late |= text.ends_with("late"),
            (_, "x 1" | "x 15") => self.refused_new |= offered,
            (_, "x 8") if overlong => self.overlong |= offered,
            (_, "x 8") => self.malformed |= offered,
            _ => {}
        }
    }

    fn shown(&self) -> impl Iterator<Item = &'static str> {
        let last = self.offers.last();
        let other = self.offers.iter().any(|offers| Some(offers) != last);
        let all = [
            (self.lines == 0, EMPTY),
            (self.lines > 0 && last.is_none(), NO_DESK),
            (last == Some(&0), NO_OFFER),
            (other, LATER_DESK),
            (self.late, LATE),
            (self.refused_new, REFUSED_NEW),
            (self.malformed, MALFORMED),
            (self.overlong, OVERLONG),
        ];
        holding(all)
    }
}

/// The names of those that hold.
fn holding<const COUNT: usize>(
    all: [(bool, &'static str); COUNT],
) -> impl Iterator<Item = &'static str> {
    let holding = all.into_iter().filter(|(holds, _)| *holds);
    holding.map(|(_, name)| name)
}

/// Some scripts one after the other, with lines in between that make no desk; often
/// spoiled, now and then without a desk, and often with an unended last line.
fn input(random: &mut Random) -> Vec<u8> {
    let mut input = Vec::new();
    for _ in 0..1 + random.below(3) {
        input.extend(match random.one_in(12) {
            true => noise(random),
            false => script(random),
        });
        if random.one_in(3) {
            input.extend(random.pick(&NO_NEWS));
        }
    }
    if random.one_in(16) {
        let kept = input.split_inclusive(|&byte| byte == b'\n');
        let kept: Vec<&[u8]> = kept.filter(|line| !line.starts_with(b"n ")).collect();
        input = kept.concat();
    }
    if random.one_in(4) {
        spoil(random, &mut input);
    }
    if random.one_in(3) {
        input.truncate(random.below(input.len() + 1));
    }
    input
}

/// More than a thousand meetings and more than a thousand withdrawals.
fn long_script() -> Vec<u8> {
    let meeting = "o 0 1!0\ns 0\ns 0\ns 0\ns 0\ns 0\no 1 0?\ns 1\ns 1\ns 1\ns 1\ns 0\nc 0\nc 1\n";
    let withdrawal = "o 1 0?\nw 1\n";
    let script = ["n 2\n", &meeting.repeat(1005), &withdrawal.repeat(1234)];
    script.concat().into_bytes()
}

#[cfg(test)]
mod tests {
    use super::*;

    #[test]
    fn a_sheet_has_four_numbers_that_add_up() {
        assert!(Sheet::read(b"7 2 1 2\n").is_some());
        for line in ["7 2 1 3\n", "7 2 1 2", "7 2 1 2 0\n", "", "a 0 0 0\n"] {
            assert!(Sheet::read(line.as_bytes()).is_none(), "{line}");
        }
    }

    #[test]
    fn the_long_script_brings_four_digits() {
        let sheet = model::sheet::run(&long_script());
        assert_eq!(sheet, b"3244 1005 1234 0\n");
    }

    #[test]
    fn what_happens_in_a_script_is_told() {
        let told = |input: &str| -> Vec<_> { Story::of(input.as_bytes()).shown().collect() };
        assert_eq!(told(""), [EMPTY]);
        assert_eq!(told("m\n"), [NO_DESK]);
        assert_eq!(told("n 2\nn 1\nx\n"), [NO_OFFER]);
        let two_desks = "n 2\no 0 1?\nn 3\no 0 1?\no 1 0?\nn 1\nx\n";
        assert_eq!(told(two_desks), [LATER_DESK, REFUSED_NEW, MALFORMED]);
        assert_eq!(told(&format!("n 2\no 0 1?\n{:201}\n", "")), [OVERLONG]);
        assert_eq!(told(&format!("n 2\no 0 1?\n{:200}\n", "")), [MALFORMED]);
    }

    #[test]
    fn inputs_bring_all_that_has_to_be_seen() {
        let mut random = Random::new(1);
        let mut seen = Seen::default();
        for _ in 0..600 {
            let input = input(&mut random);
            seen.note(Story::of(&input).shown());
        }
        let wanted = [LATE, LATER_DESK, REFUSED_NEW, MALFORMED, OVERLONG, NO_DESK];
        assert_eq!(seen.missed(&wanted), None);
    }
}
