//! Lines that are malformed by a kind, a rank or a nap length alone.

use crate::draw;
use crate::library::parts;
use crate::random::Random;
use model::Guard;

/// What may not stand behind a guard without a kind.
const BAD_KINDS: [&str; 12] = [
    ":",
    ":00",
    ":01",
    ":256",
    ":1000",
    ":4294967296",
    ":-1",
    ":+1",
    ":1:2",
    "::1",
    ":a",
    " :1",
];

/// What may not stand behind a guard, with a kind or without one.
const BAD_RANKS: [&str; 12] = [
    "^",
    "^00",
    "^01",
    "^256",
    "^1000",
    "^4294967296",
    "^-1",
    "^+1",
    "^1^2",
    "^^1",
    "^a",
    " ^1",
];

/// What may not stand behind a good number of processes.
const BAD_NAPS: [&str; 16] = [
    " ",
    " 00",
    " 01",
    " 256",
    " 1000",
    " 4294967297",
    " -1",
    " +1",
    " 1 1",
    " 1 ",
    "  1",
    " a",
    " 1.0",
    " :1",
    " 1?",
    " \t1",
];

/// A line for a new table that is malformed by its nap length alone.
pub fn crooked_new(random: &mut Random) -> String {
    format!("n {}{}", 2 + random.below(31), random.pick(&BAD_NAPS))
}

/// An offer that is malformed by the kind or the rank of one guard alone.
pub fn crooked_offer(random: &mut Random) -> String {
    let guards = draw::sociable_list(random, 0, 4);
    let mut texts: Vec<String> = guards.iter().map(|guard| parts(guard).concat()).collect();
    let at = random.below(guards.len());
    texts[at] = match random.one_in(2) {
        true => crooked_kind(random, &guards[at]),
        false => crooked_rank(random, &guards[at]),
    };
    format!("o 0 {}", texts.join(" "))
}

/// A guard whose kind is malformed or stands where it may not.
fn crooked_kind(random: &mut Random, guard: &Guard) -> String {
    let [partner, action, _, rank] = parts(guard);
    let (sign, message) = action.split_at(1);
    match random.below(6) {
        0 => format!(":3{partner}{action}{rank}"),
        1 => format!("{partner}:3{action}{rank}"),
        2 if guard.sends() => format!("{partner}{sign}:3{message}{rank}"),
        _ => format!("{partner}{action}{}{rank}", random.pick(&BAD_KINDS)),
    }
}

/// A guard whose rank is malformed or stands where it may not.
fn crooked_rank(random: &mut Random, guard: &Guard) -> String {
    let [partner, action, kind, _] = parts(guard);
    let (sign, message) = action.split_at(1);
    match random.below(8) {
        0 => format!("^3{partner}{action}{kind}"),
        1 => format!("{partner}^3{action}{kind}"),
        2 if guard.sends() => format!("{partner}{sign}^3{message}{kind}"),
        // The kind comes first.
        3 => format!("{partner}{action}^3:{}", guard.kind),
        _ => format!("{partner}{action}{kind}{}", random.pick(&BAD_RANKS)),
    }
}

#[cfg(test)]
mod tests {
    use super::*;
    use std::collections::BTreeSet;

    /// The crooked texts of many drawn guards, with `P` for the partner, `?` for what
    /// it does and `K` for its kind; each makes an offer malformed.
    fn texts(crooked: fn(&mut Random, &Guard) -> String) -> BTreeSet<String> {
        let mut random = Random::new(6);
        let mut texts = BTreeSet::new();
        for _ in 0..6000 {
            let guard = draw::sociable_list(&mut random, 0, 4)[0];
            let text = crooked(&mut random, &guard);
            let script = format!("n 4\no 0 {text}\n");
            let output = model::script::run(script.as_bytes());
            assert_eq!(output, b"n 4\nx 8\n", "{text}");
            let [partner, action, kind, _] = parts(&guard);
            let text = text.replacen(&partner, "P", 1).replace(&action, "?");
            texts.insert(match kind.as_str() {
                "" => text,
                kind => text.replace(kind, "K"),
            });
        }
        texts
    }

    #[test]
    fn kinds_are_malformed_in_every_way() {
        let texts = texts(crooked_kind);
        for kind in BAD_KINDS {
            let begins = |text: &String| text.starts_with(&format!("P?{kind}"));
            assert!(texts.iter().any(begins), "{kind}");
        }
        assert!(texts.contains("P:3?") && texts.contains(":3P?"));
    }

    #[test]
    fn ranks_are_malformed_in_every_way_with_a_kind_and_without() {
        let texts = texts(crooked_rank);
        for rank in BAD_RANKS {
            for before in ["P?", "P?K"] {
                assert!(texts.contains(&format!("{before}{rank}")), "{rank}");
            }
        }
        for text in ["^3P?", "^3P?K", "P^3?", "P?^3:0", "P?^3K"] {
            assert!(texts.contains(text), "{text}");
        }
    }

    #[test]
    fn a_crooked_nap_is_malformed_and_good_without_it() {
        let mut random = Random::new(7);
        let mut naps = BTreeSet::new();
        for _ in 0..2000 {
            let line = crooked_new(&mut random);
            assert_eq!(
                model::script::run(format!("{line}\n").as_bytes()),
                b"x 8\n",
                "{line}"
            );
            let nap = line.trim_start_matches("n ");
            naps.insert(
                nap.trim_start_matches(|c: char| c.is_ascii_digit())
                    .to_string(),
            );
        }
        assert!(naps.iter().eq(&BTreeSet::from(BAD_NAPS)));
    }
}
