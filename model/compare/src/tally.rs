//! How often each refusal, each rule, each withdrawal, each case that kinds, ranks or
//! naps decide and each odd case was hit.

use crate::damage::{Point, POINTS};
use crate::draw::{kind_of, rank_of, ByteOf};
use crate::fit::{fit, kept, search, Search};
use crate::library::Reply;
use crate::naps;
use crate::ranks;
use model::{Answer, Call, Desk, Given, Guard, Party, Place, Withdrawal};
use std::collections::BTreeMap;

const REFUSALS: [u8; 12] = [1, 2, 3, 4, 5, 6, 7, 11, 12, 13, 14, 15];

const WITHDRAWN: &str = "withdrawn";
const TOO_LATE: &str = "too late";
const TURNED_AWAY: &str = "refusal 14";

/// Letters of places, and what a withdrawal says there with wake count 0 and
/// with 1. Runs have wake count 0 at H and W alone.
const WITHDRAWALS: [(&str, [&str; 2]); 4] = [
    ("EATPOS", [WITHDRAWN, WITHDRAWN]),
    ("HW", [WITHDRAWN, TOO_LATE]),
    ("C", [TOO_LATE, TOO_LATE]),
    ("IM", [TURNED_AWAY, TURNED_AWAY]),
];

// What kinds or ranks alone decide.
const PASSED_OVER: &str = "rule 7 past a guard that matches but for its kind";
const FOUND_NONE: &str = "rule 8 where a guard matches but for its kind";
const KINDS_REPLACED: &str = "rule 10 over a list that differs in kinds alone";
const RANKS_REPLACED: &str = "rule 10 over a list that differs in ranks alone";

// What a sleeper's steps decide, with a nap of d steps.
const OVERSLEPT_BY_D: &str = "7 for a sleeper with d steps";
const OVERSLEPT_BY_MORE: &str = "7 for a sleeper with d + 1 steps";
const OVERSLEPT_BY_MOST: &str = "7 for a sleeper with 255 steps, d below it";
const OVERSLEPT_BY_NOBODY: &str = "no 7 for d steps at S past the last process";

// Odd cases that only damaged tables have.
const EQUAL_TICKETS: &str = "rule 6 with equal tickets";
const DISABLED_OWN: &str = "rule 8 with a disabled own guard";
const TWO_RECEIVING: &str = "rule 9 with two receiving guards";
const TWO_SENDING: &str = "rule 9 with two sending guards";
const TWO_KINDS: &str = "rule 9 with guards of two kinds";
const NOT_THE_BEST: &str = "rule 9 at a guard that matches and that rule 7 would not keep";
const OLD_SIGNAL: &str = "rule 9 over an old signal";
const NAN_HANDED_OVER: &str = "rule 9 hands over a NaN";
const STILL_ACCEPTING: &str = "rule 13 with wake count 0";
const SIGNAL_STAYS: &str = "withdrawn under an old signal";

const CASES: [&str; 18] = [
    PASSED_OVER,
    FOUND_NONE,
    KINDS_REPLACED,
    RANKS_REPLACED,
    OVERSLEPT_BY_D,
    OVERSLEPT_BY_MORE,
    OVERSLEPT_BY_MOST,
    OVERSLEPT_BY_NOBODY,
    EQUAL_TICKETS,
    DISABLED_OWN,
    TWO_RECEIVING,
    TWO_SENDING,
    TWO_KINDS,
    NOT_THE_BEST,
    OLD_SIGNAL,
    NAN_HANDED_OVER,
    STILL_ACCEPTING,
    SIGNAL_STAYS,
];

pub struct Tally {
    pub calls: u64,
    counts: BTreeMap<String, u64>,
}

impl Tally {
    /// All that has to be hit, at 0.
    pub fn new() -> Tally {
        let refusals = REFUSALS.iter().map(|&number| refusal_name(number));
        let rules = (1..=15).map(rule_name);
        let cases = CASES.iter().chain(&ranks::SHOWN).chain(&naps::SHOWN);
        let cases = cases.map(|name| name.to_string());
        let points = POINTS.iter().map(point_name);
        let names = refusals.chain(rules).chain(cases).chain(points);
        let names = names.chain(withdrawals());
        Tally {
            calls: 0,
            counts: names.map(|name| (name, 0)).collect(),
        }
    }

    fn hit(&mut self, name: String) {
        *self.counts.entry(name).or_insert(0) += 1;
    }

    pub fn refused(&mut self, number: u8) {
        self.hit(refusal_name(number));
    }

    /// Notes a desk that is out of form at one point.
    pub fn out_of_form(&mut self, desk: &Desk, point: Point) {
        self.hit(point_name(&point));
        if point == Point::Overslept {
            let sleepers = desk.parties.iter().take(desk.n);
            for steps in sleepers.filter_map(steps_at_s) {
                if let Some(name) = overslept(steps, desk.nap) {
                    self.hit(name.to_string());
                }
            }
        }
    }

    /// Notes a call on the desk as it was before.
    pub fn note(&mut self, before: &Desk, call: &Call, reply: &Reply) {
        self.calls += 1;
        match reply.answer {
            Err(number) => self.refused(number),
            Ok(_) => {
                self.naps(before, call);
                self.ranks(before, call, reply);
            }
        }
        match (&reply.answer, call) {
            (Ok(Given::Place(answer)), Call::Step { party }) => {
                let rule = rule_of(before.parties[*party].place, *answer);
                self.hit(rule_name(rule));
                if let Some(name) = case_of(before, *party, rule) {
                    self.hit(name.to_string());
                }
            }
            (answer, Call::Withdraw { party }) => {
                if let Some(said) = said_by_withdrawal(answer) {
                    self.withdrawal(&before.parties[*party], said);
                }
            }
            _ => {}
        }
    }

    fn naps(&mut self, desk: &Desk, call: &Call) {
        if let Some(name) = naps::shown(desk, call) {
            self.hit(name.to_string());
        }
        let mut past = desk.parties.iter().skip(desk.n).filter_map(steps_at_s);
        if past.any(|steps| steps >= desk.nap) {
            self.hit(OVERSLEPT_BY_NOBODY.to_string());
        }
    }

    fn ranks(&mut self, desk: &Desk, call: &Call, reply: &Reply) {
        let by_scan = ranks::shown_by_scan(desk, call, &reply.answer);
        for name in ranks::shown(desk, call).into_iter().chain(by_scan) {
            self.hit(name.to_string());
        }
    }

    fn withdrawal(&mut self, record: &Party, said: &str) {
        let letter = record.place.answer().letter;
        self.hit(withdrawal_name(letter, record.wake_count, said));
        if said == WITHDRAWN && record.signal.is_some() {
            self.hit(SIGNAL_STAYS.to_string());
        }
    }

    /// What was never hit.
    pub fn missed(&self) -> Vec<String> {
        let missed = self.counts.iter().filter(|(_, &count)| count == 0);
        missed.map(|(name, _)| name.clone()).collect()
    }

    pub fn listed(&self) -> String {
        let lines = self.counts.iter();
        lines
            .map(|(name, count)| format!("  {name}: {count}\n"))
            .collect()
    }
}

fn refusal_name(number: u8) -> String {
    format!("refusal {number:2}")
}

fn rule_name(rule: u8) -> String {
    format!("rule {rule:2}")
}

fn point_name(point: &Point) -> String {
    format!("7 by {point:?} alone")
}

fn withdrawal_name(letter: char, wake_count: u8, said: &str) -> String {
    format!("withdrawal at {letter} with wake count {wake_count}: {said}")
}

/// The withdrawals that have to be hit.
fn withdrawals() -> impl Iterator<Item = String> {
    WITHDRAWALS
        .into_iter()
        .flat_map(|(letters, [with_0, with_1])| {
            letters.chars().flat_map(move |letter| {
                [
                    withdrawal_name(letter, 0, with_0),
                    withdrawal_name(letter, 1, with_1),
                ]
            })
        })
}

/// What a withdrawal says by place and wake count; none if 7 or 2 came first.
fn said_by_withdrawal(answer: &Result<Given, u8>) -> Option<&'static str> {
    match answer {
        Ok(Given::Withdrawal(Withdrawal::Withdrawn)) => Some(WITHDRAWN),
        Ok(Given::Withdrawal(Withdrawal::TooLate)) => Some(TOO_LATE),
        Err(14) => Some(TURNED_AWAY),
        _ => None,
    }
}

fn steps_at_s(record: &Party) -> Option<u8> {
    match record.place {
        Place::Asleep(steps) => Some(steps),
        _ => None,
    }
}

/// How a sleeper with these steps has made too many for such a nap, if it has and
/// lies at an edge.
fn overslept(steps: u8, nap: u8) -> Option<&'static str> {
    match steps.checked_sub(nap)? {
        0 => Some(OVERSLEPT_BY_D),
        1 => Some(OVERSLEPT_BY_MORE),
        _ => (steps == u8::MAX).then_some(OVERSLEPT_BY_MOST),
    }
}

/// The rule by which a party at this place gives this answer.
fn rule_of(place: Place, answer: Option<Answer>) -> u8 {
    let letter = answer.map(|answer| answer.letter);
    match (place, letter) {
        (Place::Entering, _) => 1,
        (Place::Asleep(_), _) => 2,
        (Place::Scanning(_), Some('T')) => 4,
        (Place::Scanning(_), Some('S')) => 5,
        (Place::Scanning(_), Some(_)) => 3,
        (Place::Scanning(_), None) => 6,
        (Place::Trying(_), Some('C')) => 7,
        (Place::Trying(_), _) => 8,
        (Place::Committed { .. }, _) => 9,
        (Place::Posting, _) => 10,
        (Place::Opening, _) => 11,
        (Place::Showing, _) => 12,
        (Place::Waiting, Some(_)) => 13,
        (Place::Waiting, None) => 14,
        (Place::Idle | Place::Met(_), _) => 15,
    }
}

/// What is to be noted of a step by this rule, besides the rule.
fn case_of(desk: &Desk, party: usize, rule: u8) -> Option<&'static str> {
    let record = &desk.parties[party];
    match record.place {
        Place::Scanning(own) => {
            let partner = &desk.parties[record.guards[own].partner];
            (rule == 6 && partner.ticket == record.ticket).then_some(EQUAL_TICKETS)
        }
        Place::Trying(own) if !record.guards[own].enabled => Some(DISABLED_OWN),
        Place::Trying(_) => search(desk, party).map(|search| match search {
            Search::PassesOver => PASSED_OVER,
            Search::FindsNone => FOUND_NONE,
        }),
        Place::Committed { own, kept } => {
            let own = record.guards[own];
            odd_delivery(party, &own, &desk.parties[own.partner], kept)
        }
        Place::Posting if differs_by(record, kind_of) => Some(KINDS_REPLACED),
        Place::Posting => differs_by(record, rank_of).then_some(RANKS_REPLACED),
        Place::Waiting => (rule == 13 && record.wake_count == 0).then_some(STILL_ACCEPTING),
        _ => None,
    }
}

/// True if the posted list is the own one but for this byte of its guards.
fn differs_by(record: &Party, byte: ByteOf) -> bool {
    let plain = |list: &[Guard]| {
        let mut list = list.to_vec();
        list.iter_mut().for_each(|guard| *byte(guard) = 0);
        list
    };
    record.posted != record.guards && plain(&record.posted) == plain(&record.guards)
}

fn odd_delivery(p: usize, own: &Guard, partner: &Party, at: usize) -> Option<&'static str> {
    let given = partner.posted[at];
    let sender = if own.sends() { own } else { &given };
    match (own.sends(), given.sends()) {
        _ if sender.message().holds_nan() => Some(NAN_HANDED_OVER),
        (false, false) => Some(TWO_RECEIVING),
        (true, true) => Some(TWO_SENDING),
        _ if partner.signal.is_some() => Some(OLD_SIGNAL),
        _ if own.kind != given.kind => Some(TWO_KINDS),
        _ => is_no_best(p, own, partner, at).then_some(NOT_THE_BEST),
    }
}

/// True if the guard matches, but goes behind another that does.
fn is_no_best(p: usize, own: &Guard, partner: &Party, at: usize) -> bool {
    let matches = fit(p, own, own.partner, &partner.posted[at]);
    matches && kept(p, own, &partner.posted) != Some(at)
}

#[cfg(test)]
mod tests {
    use super::*;
    use std::collections::BTreeSet;

    #[test]
    fn withdrawals_have_to_be_hit_at_eleven_places_with_both_wake_counts() {
        let names: BTreeSet<String> = withdrawals().collect();
        assert_eq!(names.len(), 22);
    }
}
