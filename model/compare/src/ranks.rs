//! What ranks decide in a search of rule 7, where they must not decide, and how
//! often that was seen.

use crate::fit::{fit, kept, searched};
use crate::seen::Seen;
use model::{Call, Desk, Given, Guard};
use std::cmp::Ordering;
use std::collections::BTreeSet;

// Another guard of the posted list matches as well.
const BEHIND_LOWER: &str = "rule 7 behind a guard that matches and ranks lower";
const BEFORE_LOWER: &str = "rule 7 before a guard that matches and ranks lower";
const FIRST_AT_0: &str = "rule 7 at the first of two that match with rank 0";
const FIRST_ABOVE_0: &str = "rule 7 at the first of two that match with one rank above 0";
const BETWEEN: &str = "rule 7 between guards that match, of a lower rank and of the same";
const TOP_BIT: &str = "rule 7 at a rank of 128 or more where one below it matches";

// A guard of the posted list ranks above the kept one and does not match, for one
// reason alone.
const DISABLED: &str = "rule 7 past a disabled guard of greater rank";
const OTHER_KIND: &str = "rule 7 past a guard of another kind and greater rank";
const OTHER_PROCESS: &str = "rule 7 past a guard of greater rank to another process";
const SAME_ACTION: &str = "rule 7 past a guard of greater rank that sends or receives likewise";

// The rank of the own guard, which decides nothing.
const OWN_ABOVE: &str = "rule 7 for an own guard that ranks above the kept one";
const OWN_BELOW: &str = "rule 7 for an own guard that ranks below the kept one";
const OWN_EQUAL: &str = "rule 7 for an own guard that ranks as one that matches and is not kept";

// The own list, which is gone through in its order.
const EARLIER_MEETS: &str = "rule 7 for an own guard before one of greater rank that matches too";
const EARLIER_SCANNED: &str = "A at a guard before an enabled one of greater rank";

pub const SHOWN: [&str; 15] = [
    BEHIND_LOWER,
    BEFORE_LOWER,
    FIRST_AT_0,
    FIRST_ABOVE_0,
    BETWEEN,
    TOP_BIT,
    DISABLED,
    OTHER_KIND,
    OTHER_PROCESS,
    SAME_ACTION,
    OWN_ABOVE,
    OWN_BELOW,
    OWN_EQUAL,
    EARLIER_MEETS,
    EARLIER_SCANNED,
];

/// What two processes show with ranks 0 and 1 and lists of at most two guards.
pub const SHOWN_BY_TWO: [&str; 12] = [
    BEHIND_LOWER,
    BEFORE_LOWER,
    FIRST_AT_0,
    FIRST_ABOVE_0,
    DISABLED,
    OTHER_KIND,
    SAME_ACTION,
    OWN_ABOVE,
    OWN_BELOW,
    OWN_EQUAL,
    EARLIER_MEETS,
    EARLIER_SCANNED,
];

/// What a call shows of ranks on this desk, if it is not refused.
pub fn shown(desk: &Desk, call: &Call) -> BTreeSet<&'static str> {
    match *call {
        Call::Step { party } => shown_by_search(desk, party).unwrap_or_default(),
        _ => BTreeSet::new(),
    }
}

/// What the answer to a step shows of ranks; no step changes the own list.
pub fn shown_by_scan(desk: &Desk, call: &Call, answer: &Result<Given, u8>) -> Option<&'static str> {
    let (Call::Step { party }, Ok(Given::Place(Some(place)))) = (call, answer) else {
        return None;
    };
    let at = place.index.filter(|_| place.letter == 'A')?;
    let (own, behind) = desk.parties.get(*party)?.guards.get(at..)?.split_first()?;
    let mut enabled = behind.iter().filter(|guard| guard.enabled);
    let outranked = enabled.any(|guard| guard.rank > own.rank);
    outranked.then_some(EARLIER_SCANNED)
}

fn shown_by_search(desk: &Desk, party: usize) -> Option<BTreeSet<&'static str>> {
    let (at, posted) = searched(desk, party)?;
    let (own, behind) = desk.parties[party].guards[at..].split_first()?;
    let at = kept(party, own, posted)?;
    let mut shown = BTreeSet::from_iter(by_own_rank(own, &posted[at]));
    for (index, other) in posted.iter().enumerate().filter(|&(index, _)| index != at) {
        if fit(party, own, own.partner, other) {
            shown.insert(by_order(posted, at, index));
            shown.extend(by_bit(&posted[at], other));
            shown.extend(by_equal(own, &posted[at], other));
        } else if other.rank > posted[at].rank {
            shown.extend(only_fault(party, own, other));
        }
    }
    if shown.contains(BEHIND_LOWER) && shown.contains(FIRST_ABOVE_0) {
        shown.insert(BETWEEN);
    }
    let mut later = behind.iter().filter(|guard| guard.rank > own.rank);
    if later.any(|guard| guard.partner == own.partner && kept(party, guard, posted).is_some()) {
        shown.insert(EARLIER_MEETS);
    }
    Some(shown)
}

/// What is shown by where the guard at `index` stands, which matches as well.
fn by_order(posted: &[Guard], kept: usize, index: usize) -> &'static str {
    match posted[kept].rank {
        0 => FIRST_AT_0,
        rank if posted[index].rank == rank => FIRST_ABOVE_0,
        _ if index < kept => BEHIND_LOWER,
        _ => BEFORE_LOWER,
    }
}

fn by_bit(kept: &Guard, other: &Guard) -> Option<&'static str> {
    (other.rank < 128 && 128 <= kept.rank).then_some(TOP_BIT)
}

fn by_equal(own: &Guard, kept: &Guard, other: &Guard) -> Option<&'static str> {
    (own.rank == other.rank && other.rank < kept.rank).then_some(OWN_EQUAL)
}

fn by_own_rank(own: &Guard, kept: &Guard) -> Option<&'static str> {
    match own.rank.cmp(&kept.rank) {
        Ordering::Greater => Some(OWN_ABOVE),
        Ordering::Less => Some(OWN_BELOW),
        Ordering::Equal => None,
    }
}

/// What keeps a guard from matching the own one of process `p`, if it is one thing
/// alone.
fn only_fault(p: usize, own: &Guard, other: &Guard) -> Option<&'static str> {
    let faults = [
        (!other.enabled, DISABLED),
        (other.kind != own.kind, OTHER_KIND),
        (other.partner != p, OTHER_PROCESS),
        (other.sends() == own.sends(), SAME_ACTION),
    ];
    let mut faults = faults.into_iter().filter(|(holds, _)| *holds);
    match (faults.next(), faults.next()) {
        (Some((_, name)), None) => Some(name),
        _ => None,
    }
}

/// How often each of these was seen, in runs from fresh tables.
#[derive(Default)]
pub struct Ranks(Seen);

impl Ranks {
    /// Notes a call on a desk as it is before.
    pub fn note(&mut self, desk: &Desk, call: &Call) {
        self.0.note(shown(desk, call));
    }

    /// Notes the answer to a call.
    pub fn note_answer(&mut self, desk: &Desk, call: &Call, answer: &Result<Given, u8>) {
        self.0.note(shown_by_scan(desk, call, answer));
    }

    /// The first of these that was never seen.
    pub fn missed(&self, wanted: &[&'static str]) -> Option<String> {
        self.0.missed(wanted)
    }

    pub fn told(&self) -> String {
        let past = [DISABLED, OTHER_KIND, OTHER_PROCESS, SAME_ACTION];
        let past: u64 = past.iter().map(|name| self.0.count(name)).sum();
        format!(
            "by ranks {} searches kept a guard behind a lower one, {} and {} the first of equals of rank 0 and above, {past} passed over a greater one that does not match, {} met at an own guard before a greater one",
            self.0.count(BEHIND_LOWER),
            self.0.count(FIRST_AT_0),
            self.0.count(FIRST_ABOVE_0),
            self.0.count(EARLIER_MEETS)
        )
    }
}

#[cfg(test)]
mod tests {
    use super::*;
    use crate::library::Start;
    use crate::plans::guard;
    use model::Place;

    /// Process 0 tries with a sending guard of rank 5, which stands before another of
    /// this rank; process 1 has posted these guards.
    fn searched_for(later: u8, posted: &[Guard]) -> BTreeSet<&'static str> {
        let mut desk = Start { n: 3, nap: 1 }.desk();
        let own = |rank| of_rank(guard(1, true, true), rank);
        desk.parties[0].guards = vec![own(5), own(later)];
        desk.parties[0].place = Place::Trying(0);
        desk.parties[1].posted = posted.to_vec();
        desk.parties[1].wake_count = 0;
        shown(&desk, &Call::Step { party: 0 })
    }

    fn of_rank(guard: Guard, rank: u8) -> Guard {
        Guard { rank, ..guard }
    }

    /// What guards of these ranks show that all match.
    fn shown_by(ranks: &[u8]) -> BTreeSet<&'static str> {
        let guards = ranks
            .iter()
            .map(|&rank| of_rank(guard(0, false, true), rank));
        searched_for(5, &guards.collect::<Vec<_>>())
    }

    #[test]
    fn searches_are_told_apart_by_the_ranks_of_those_that_match() {
        for (ranks, names) in [
            (&[5][..], &[][..]),
            (&[6], &[OWN_BELOW]),
            (&[4], &[OWN_ABOVE]),
            (&[6, 7], &[BEHIND_LOWER, OWN_BELOW]),
            (&[7, 6], &[BEFORE_LOWER, OWN_BELOW]),
            (&[7, 5], &[BEFORE_LOWER, OWN_BELOW, OWN_EQUAL]),
            (&[0, 0], &[FIRST_AT_0, OWN_ABOVE]),
            (&[5, 5], &[FIRST_ABOVE_0]),
            (
                &[6, 7, 7],
                &[BEHIND_LOWER, FIRST_ABOVE_0, BETWEEN, OWN_BELOW],
            ),
            (&[127, 128], &[BEHIND_LOWER, TOP_BIT, OWN_BELOW]),
        ] {
            assert_eq!(shown_by(ranks), BTreeSet::from_iter(names.iter().copied()));
        }
    }

    #[test]
    fn guards_of_greater_rank_are_passed_over_for_one_reason() {
        let answer = of_rank(guard(0, false, true), 5);
        let greater = of_rank(answer, 6);
        for (other, name) in [
            (of_rank(guard(0, false, false), 6), DISABLED),
            (Guard { kind: 1, ..greater }, OTHER_KIND),
            (
                Guard {
                    partner: 2,
                    ..greater
                },
                OTHER_PROCESS,
            ),
            (of_rank(guard(0, true, true), 6), SAME_ACTION),
        ] {
            assert_eq!(searched_for(5, &[other, answer]), BTreeSet::from([name]));
            let lower = of_rank(other, 5);
            assert_eq!(searched_for(5, &[lower, answer]), BTreeSet::new());
            let two_reasons = Guard {
                enabled: false,
                kind: 1,
                ..other
            };
            assert_eq!(searched_for(5, &[two_reasons, answer]), BTreeSet::new());
        }
        assert_eq!(searched_for(5, &[]), BTreeSet::new());
    }

    #[test]
    fn the_own_list_goes_by_its_order() {
        let answer = of_rank(guard(0, false, true), 5);
        assert_eq!(searched_for(6, &[answer]), BTreeSet::from([EARLIER_MEETS]));
        let mut desk = Start { n: 2, nap: 1 }.desk();
        let step = Call::Step { party: 0 };
        for (later, enabled, name) in [
            (0, true, None),
            (1, true, Some(EARLIER_SCANNED)),
            (1, false, None),
        ] {
            let own = guard(1, true, true);
            desk.parties[0].guards = vec![own, of_rank(guard(1, true, enabled), later)];
            for (place, name) in [(Place::Scanning(0), name), (Place::Trying(0), None)] {
                let answer = Ok(Given::Place(Some(place.answer())));
                assert_eq!(shown_by_scan(&desk, &step, &answer), name);
            }
        }
    }
}
