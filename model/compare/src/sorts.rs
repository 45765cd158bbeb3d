//! The sorts of lines that a script can bring about: by what is printed, and by what
//! kinds, ranks and naps have to do with it.

use crate::naps::{LAST_OF_ALL, LAST_OF_ONE, LAST_OF_SOME, WITHIN};
use std::collections::BTreeMap;

/// Each command, a withdrawal in time and too late, and each refusal but 7 and 12.
/// Then offers with kinds or ranks that are accepted, and such as are malformed for a
/// kind or a rank alone; `n` lines likewise with naps; and steps at S.
pub const SORTS: [&str; 33] = [
    "n",
    "o",
    "s",
    "c",
    "w ok",
    "w late",
    "m",
    "x 1",
    "x 2",
    "x 3",
    "x 4",
    "x 5",
    "x 6",
    "x 8",
    "x 11",
    "x 13",
    "x 14",
    "x 15",
    WITH_KIND,
    WITH_ZERO,
    CROOKED_KIND,
    WITH_RANK,
    WITH_RANK_ZERO,
    WITH_BOTH,
    CROOKED_RANK,
    WITH_NAP,
    WITH_ONE,
    COUNT_FIRST,
    CROOKED_NAP,
    WITHIN,
    LAST_OF_ONE,
    LAST_OF_SOME,
    LAST_OF_ALL,
];
const WITH_KIND: &str = "o with a kind";
const WITH_ZERO: &str = "o with kind 0 written out";
const CROOKED_KIND: &str = "x 8 for a kind alone";
const WITH_RANK: &str = "o with a rank";
const WITH_RANK_ZERO: &str = "o with rank 0 written out";
const WITH_BOTH: &str = "o with a kind and a rank at one guard";
const CROOKED_RANK: &str = "x 8 for a rank alone";
const WITH_NAP: &str = "n with a nap of more than one step";
const WITH_ONE: &str = "n with a nap of one step written out";
const COUNT_FIRST: &str = "x 1 where 15 would come next";
const CROOKED_NAP: &str = "x 8 for a nap alone";

/// The sort of a line of the output.
pub fn sort(line: &str) -> String {
    let words: Vec<&str> = line.split_whitespace().collect();
    match words.as_slice() {
        ["x", number] => format!("x {number}"),
        ["w", _, end] => format!("w {end}"),
        [command, ..] => command.to_string(),
        [] => String::new(),
    }
}

/// What an offer with kinds in it shows, if it shows something of them.
pub fn by_kind(line: &str, answer: &str) -> Option<&'static str> {
    if !line.contains(':') {
        return None;
    }
    let kinds = without(line, '^');
    let mut words = kinds.split_whitespace();
    match answer.starts_with('o') {
        true if words.any(|word| word.ends_with(":0")) => Some(WITH_ZERO),
        true => Some(WITH_KIND),
        false => malformed_for(line, ':').then_some(CROOKED_KIND),
    }
}

/// What an offer with ranks in it shows, if it shows something of them.
pub fn by_rank(line: &str, answer: &str) -> Option<&'static str> {
    if !line.contains('^') {
        return None;
    }
    let words = || line.split_whitespace();
    let has_both = |word: &str| word.contains(':') && word.contains('^');
    match answer.starts_with('o') {
        true if words().any(|word| word.ends_with("^0")) => Some(WITH_RANK_ZERO),
        true if words().any(has_both) => Some(WITH_BOTH),
        true => Some(WITH_RANK),
        false => malformed_for(line, '^').then_some(CROOKED_RANK),
    }
}

/// What an `n` line with a nap shows, if it shows something of it.
pub fn by_nap(line: &str, answer: &str) -> Option<&'static str> {
    let fields: Vec<&str> = line.strip_suffix('\n')?.split(' ').collect();
    match (fields.as_slice(), answer.trim_end()) {
        (["n", _, "0"], "x 1") => Some(COUNT_FIRST),
        (["n", n, _, ..], "x 8") => (!malformed(&format!("n {n}\n"))).then_some(CROOKED_NAP),
        (["n", _, "1"], made) if made.starts_with('n') => Some(WITH_ONE),
        (["n", _, _], made) if made.starts_with('n') => Some(WITH_NAP),
        _ => None,
    }
}

fn malformed(line: &str) -> bool {
    let output = model::script::run(format!("n 2\n{line}").as_bytes());
    output.ends_with(b"x 8\n")
}

/// True for a line that is malformed, but not without what this sign begins.
fn malformed_for(line: &str, sign: char) -> bool {
    malformed(line) && !malformed(&without(line, sign))
}

/// The line without these signs and the digits behind them.
fn without(line: &str, sign: char) -> String {
    let pieces = line.split(sign).enumerate();
    pieces
        .map(|(at, piece)| match at {
            0 => piece,
            _ => piece.trim_start_matches(|digit: char| digit.is_ascii_digit()),
        })
        .collect()
}

/// How often each process that sleeps was said to be at S, one line of the output
/// after the other.
#[derive(Default)]
pub struct Sleepers(BTreeMap<String, usize>);

impl Sleepers {
    /// What the next line shows of a nap. A nap of d steps is d times at S: as the
    /// process falls asleep, and at each of its steps there but the last.
    pub fn note(&mut self, line: &str) -> Option<&'static str> {
        let words: Vec<&str> = line.split_whitespace().collect();
        match words.as_slice() {
            ["s", process, "S"] => {
                let times = self.0.entry(process.to_string()).or_insert(0);
                *times += 1;
                (*times > 1).then_some(WITHIN)
            }
            ["s", process, _] => self.0.remove(*process).map(|times| match times {
                1 => LAST_OF_ONE,
                255 => LAST_OF_ALL,
                _ => LAST_OF_SOME,
            }),
            ["w", process, "ok"] => {
                self.0.remove(*process);
                None
            }
            ["n", _] => {
                self.0.clear();
                None
            }
            _ => None,
        }
    }
}

#[cfg(test)]
mod tests {
    use super::*;

    #[test]
    fn offers_are_sorted_by_their_kinds() {
        for (line, answer, sort) in [
            ("o 0 1?\n", "o 0 t0\n", None),
            ("o 0 1?:3\n", "o 0 t0\n", Some(WITH_KIND)),
            ("o 0 1?:0\n", "o 0 t0\n", Some(WITH_ZERO)),
            ("o 0 1?:256\n", "x 8\n", Some(CROOKED_KIND)),
            ("o 0 1!:3w5\n", "x 8\n", Some(CROOKED_KIND)),
            ("o 0 1?:1:2\n", "x 8\n", Some(CROOKED_KIND)),
            ("o 0 1?:3\n", "x 8\n", None),
            ("o 0 x?:3\n", "x 8\n", None),
            ("o 0 1?:0^3\n", "o 0 t0\n", Some(WITH_ZERO)),
            ("o 0 1?:3^0\n", "o 0 t0\n", Some(WITH_KIND)),
            ("o 0 1?:3^256\n", "x 8\n", None),
        ] {
            assert_eq!(by_kind(line, answer), sort, "{line}");
        }
    }

    #[test]
    fn offers_are_sorted_by_their_ranks() {
        for (line, answer, sort) in [
            ("o 0 1?:3\n", "o 0 t0\n", None),
            ("o 0 1?^3\n", "o 0 t0\n", Some(WITH_RANK)),
            ("o 0 1?^10 1?:3\n", "o 0 t0\n", Some(WITH_RANK)),
            ("o 0 1?^0\n", "o 0 t0\n", Some(WITH_RANK_ZERO)),
            ("o 0 1?:3^3\n", "o 0 t0\n", Some(WITH_BOTH)),
            ("o 0 1?^256\n", "x 8\n", Some(CROOKED_RANK)),
            ("o 0 1!^3w5\n", "x 8\n", Some(CROOKED_RANK)),
            ("o 0 1?^1:2\n", "x 8\n", Some(CROOKED_RANK)),
            ("o 0 1?^3\n", "x 8\n", None),
            ("o 0 1?:256^3\n", "x 8\n", None),
        ] {
            assert_eq!(by_rank(line, answer), sort, "{line}");
        }
    }

    #[test]
    fn new_tables_are_sorted_by_their_naps() {
        for (line, answer, sort) in [
            ("n 2\n", "n 2\n", None),
            ("n 2 255\n", "n 2\n", Some(WITH_NAP)),
            ("n 2 1\n", "n 2\n", Some(WITH_ONE)),
            ("n 2 0\n", "x 15\n", None),
            ("n 33 0\n", "x 1\n", Some(COUNT_FIRST)),
            ("n 2 256\n", "x 8\n", Some(CROOKED_NAP)),
            ("n 2 1 1\n", "x 8\n", Some(CROOKED_NAP)),
            ("n 2 \n", "x 8\n", Some(CROOKED_NAP)),
            ("n 256 1\n", "x 8\n", None),
            ("n 2 1", "x 8\n", None),
        ] {
            assert_eq!(by_nap(line, answer), sort, "{line}");
        }
    }

    #[test]
    fn naps_are_told_by_the_answers_to_steps() {
        for (nap, last) in [(1, LAST_OF_ONE), (2, LAST_OF_SOME), (255, LAST_OF_ALL)] {
            let mut sleepers = Sleepers::default();
            assert_eq!(sleepers.note("s 7 S\n"), None);
            for _ in 1..nap {
                assert_eq!(sleepers.note("s 1 A0\n"), None);
                assert_eq!(sleepers.note("s 7 S\n"), Some(WITHIN));
            }
            assert_eq!(sleepers.note("s 7 A0\n"), Some(last));
            assert_eq!(sleepers.note("s 7 S\n"), None);
            assert_eq!(sleepers.note("w 7 ok\n"), None);
            assert_eq!(sleepers.note("s 7 S\n"), None);
            assert_eq!(sleepers.note("n 8\n"), None);
            assert_eq!(sleepers.note("s 7 =\n"), None);
        }
    }
}
