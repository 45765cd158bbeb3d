//! The comparison's own test whether guards match, which of them rule 7 keeps, and
//! what kinds alone decide. The model and its book find guards by their own search; a
//! check by the same one could not fail.

use model::{Call, Desk, Guard, OpenOffer, Place};

/// Two guards match but for their kinds: both are enabled, each names the
/// other's party, and one sends while the other receives.
fn nearly_fit(p: usize, own: &Guard, q: usize, other: &Guard) -> bool {
    own.enabled
        && other.enabled
        && own.partner == q
        && other.partner == p
        && own.sends() != other.sends()
}

/// Two guards match.
pub fn fit(p: usize, own: &Guard, q: usize, other: &Guard) -> bool {
    own.kind == other.kind && nearly_fit(p, own, q, other)
}

/// The guard of a list that rule 7 keeps for guard `own` of process `p`.
pub fn kept(p: usize, own: &Guard, list: &[Guard]) -> Option<usize> {
    leader(list, |other| fit(p, own, own.partner, other))
}

/// Of the guards that pass a test, the one that no other goes before: none ranks
/// higher, and none that ranks the same has a smaller index.
fn leader(list: &[Guard], passes: impl Fn(&Guard) -> bool) -> Option<usize> {
    let passing = || (0..list.len()).filter(|&at| passes(&list[at]));
    let goes_before = |one: usize, other: usize| {
        let (rank, other_rank) = (list[one].rank, list[other].rank);
        rank > other_rank || (rank == other_rank && one < other)
    };
    passing().find(|&at| !passing().any(|other| goes_before(other, at)))
}

/// No two of these offers match.
pub fn none_match(offers: &[OpenOffer]) -> bool {
    !any_two(offers, fit)
}

fn any_two(offers: &[OpenOffer], test: fn(usize, &Guard, usize, &Guard) -> bool) -> bool {
    let two = |one: &OpenOffer, other: &OpenOffer| {
        one.guards.iter().any(|own| {
            let mut theirs = other.guards.iter();
            theirs.any(|guard| test(one.party, own, other.party, guard))
        })
    };
    offers
        .iter()
        .enumerate()
        .any(|(index, one)| offers[index + 1..].iter().any(|other| two(one, other)))
}

/// What kinds alone decide in a search of rule 7.
#[derive(Clone, Copy, Debug, PartialEq, Eq)]
pub enum Search {
    /// It keeps another guard than one that matches but for its kind, which it would
    /// keep if all kinds were equal.
    PassesOver,
    /// It finds none, but one that matches but for its kind.
    FindsNone,
}

/// Which own guard a step of `party` searches a match for, and in which list; none if
/// it makes no search.
pub fn searched(desk: &Desk, party: usize) -> Option<(usize, &[Guard])> {
    let record = desk.parties.get(party)?;
    let Place::Trying(at) = record.place else {
        return None;
    };
    let partner = desk.parties.get(record.guards.get(at)?.partner)?;
    (partner.wake_count == 0).then_some((at, &partner.posted))
}

/// What kinds decide in the search that a step of `party` makes, if it makes one.
pub fn search(desk: &Desk, party: usize) -> Option<Search> {
    let (at, posted) = searched(desk, party)?;
    let own = &desk.parties[party].guards[at];
    let near = leader(posted, |other| nearly_fit(party, own, own.partner, other))?;
    match kept(party, own, posted) {
        Some(kept) => (kept != near).then_some(Search::PassesOver),
        None => Some(Search::FindsNone),
    }
}

/// How often kinds alone decided, in runs from fresh tables.
#[derive(Default)]
pub struct ByKinds {
    passed_over: u64,
    found_none: u64,
    kept_apart: u64,
}

impl ByKinds {
    /// Notes a call on a desk as it is before.
    pub fn note(&mut self, desk: &Desk, call: &Call) {
        let Call::Step { party } = call else { return };
        match search(desk, *party) {
            Some(Search::PassesOver) => self.passed_over += 1,
            Some(Search::FindsNone) => self.found_none += 1,
            None => {}
        }
    }

    /// Notes the offers that are open at rest, of which no two match.
    pub fn note_rest(&mut self, open: &[OpenOffer]) {
        self.kept_apart += u64::from(any_two(open, nearly_fit));
    }

    /// What kinds never decided.
    pub fn missed(&self) -> Option<&'static str> {
        match self {
            ByKinds { passed_over: 0, .. } => Some("no search passed over a guard of another kind"),
            ByKinds { found_none: 0, .. } => Some("no search found none for kinds alone"),
            ByKinds { kept_apart: 0, .. } => Some("kinds kept no open offers apart at rest"),
            _ => None,
        }
    }

    pub fn told(&self) -> String {
        format!(
            "by kinds alone {} searches passed over a guard, {} found none, and {} times at rest open offers stayed apart",
            self.passed_over, self.found_none, self.kept_apart
        )
    }
}

#[cfg(test)]
mod tests {
    use super::*;
    use crate::library::Start;
    use crate::plans::guard;
    use model::Ticket;

    /// Process 0 tries with a sending guard of kind 7; process 1 has posted
    /// receiving guards of these kinds.
    fn by_kinds(kinds: &[u8], wake_count: u8) -> Option<Search> {
        let mut desk = Start { n: 2, nap: 1 }.desk();
        let of_kind = |guard, kind| Guard { kind, ..guard };
        desk.parties[0].guards = vec![of_kind(guard(1, true, true), 7)];
        desk.parties[0].place = Place::Trying(0);
        let posted = kinds
            .iter()
            .map(|&kind| of_kind(guard(0, false, true), kind));
        desk.parties[1].posted = posted.collect();
        desk.parties[1].wake_count = wake_count;
        search(&desk, 0)
    }

    #[test]
    fn searches_are_told_apart() {
        assert_eq!(by_kinds(&[8, 7], 0), Some(Search::PassesOver));
        assert_eq!(by_kinds(&[8, 6], 0), Some(Search::FindsNone));
        assert_eq!(by_kinds(&[7, 8], 0), None);
        assert_eq!(by_kinds(&[], 0), None);
        assert_eq!(by_kinds(&[8, 7], 1), None);
    }

    #[test]
    fn offers_that_only_kinds_keep_apart_are_counted() {
        let offer = |party: usize, kind| OpenOffer {
            party,
            ticket: Ticket(0),
            guards: vec![Guard {
                kind,
                ..guard(1 - party, party == 0, true)
            }],
        };
        let mut counts = ByKinds::default();
        for (one, other, sum) in [(1, 1, 1), (0, 255, 2)] {
            let offers = [offer(0, one), offer(1, other)];
            counts.note_rest(&offers);
            assert_eq!(none_match(&offers), one != other);
            assert_eq!(counts.kept_apart, sum);
        }
    }
}
