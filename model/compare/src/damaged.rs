//! Calls on damaged tables, with a count of every refusal, rule and withdrawal
//! that was hit.

use crate::damage::{self, POINTS};
use crate::draw;
use crate::library::{both, line, Library, Start};
use crate::part::{Budget, Finding, Verdict};
use crate::plans::guard;
use crate::random::Random;
use crate::reduce_desk::reduce;
use crate::rendezvous::{GUARD_BYTES, GUARD_RANK, HEAD_BYTES, HEAD_MEETINGS, RECORD_BYTES};
use crate::rendezvous::{RECORD_KEPT, RECORD_OWN, RECORD_PLACE, RECORD_POSTED};
use crate::tally::Tally;
use crate::wire::{decode, encode, normal, Table};
use model::{Call, Desk, Place, Ticket};

/// Tables for each seed, and calls on each of them.
const TABLES: usize = 40;
const CALLS: usize = 8;

/// The byte of a place that is C.
const COMMITTED: u8 = 4;

pub fn run(library: &dyn Library, budget: Budget) -> Verdict {
    let mut tally = Tally::new();
    let mut tables = 0;
    for seed in budget.seeds() {
        let found = |text| Finding::new(seed, text);
        if seed == budget.seed {
            creations(library, &mut tally).map_err(found)?;
        }
        let mut part = Tables {
            library,
            random: Random::new(seed),
            tally: &mut tally,
        };
        for _ in 0..TABLES {
            part.one().map_err(found)?;
            tables += 1;
        }
    }
    every_two_ranks(library).map_err(|text| Finding::new(budget.seed, text))?;
    print!("{}", tally.listed());
    match tally.missed().as_slice() {
        [] => Ok(format!(
            "damaged tables: {tables} tables, {} calls, every refusal, rule, withdrawal and point hit",
            tally.calls
        )),
        missed => Err(Finding::new(
            budget.seed,
            format!("never hit: {}", missed.join(", ")),
        )),
    }
}

/// Every number of processes with every nap length: a fresh table, 1 or 15.
fn creations(library: &dyn Library, tally: &mut Tally) -> Result<(), String> {
    for (n, nap) in (0..=255).flat_map(|n| (0..=255).map(move |nap| (n, nap))) {
        let given = library.create(n, nap);
        let expected = Desk::new(usize::from(n), nap).map_err(model::Refusal::number);
        let expected = expected.map(|desk| encode(&desk));
        if given != expected {
            return Err(format!(
                "n {n} {nap}: the fresh tables or the refusals differ"
            ));
        }
        if let Err(number) = given {
            tally.refused(number);
        }
    }
    Ok(())
}

/// A search among two guards that match, with every two ranks and some rank of the
/// own guard: the second is kept where it ranks higher, else the first.
fn every_two_ranks(library: &dyn Library) -> Result<(), String> {
    let mut desk = Start { n: 2, nap: 1 }.desk();
    desk.parties[0].guards = vec![guard(1, true, true)];
    desk.parties[0].place = Place::Trying(0);
    desk.parties[1].posted = vec![guard(0, false, true); 2];
    desk.parties[1].wake_count = 0;
    desk.next_ticket = Ticket(2);
    let mut table = encode(&desk);
    let rank_at = |list: usize, slot: usize| HEAD_BYTES + list + slot * GUARD_BYTES + GUARD_RANK;
    let call = Call::Step { party: 0 };
    for (one, other) in (0..=255).flat_map(|one| (0..=255).map(move |other| (one, other))) {
        let bytes = table.bytes_mut();
        bytes[rank_at(RECORD_OWN, 0)] = one ^ other;
        bytes[rank_at(RECORD_BYTES + RECORD_POSTED, 0)] = one;
        bytes[rank_at(RECORD_BYTES + RECORD_POSTED, 1)] = other;
        let reply = library.call(&table, &call);
        let place = &reply.table.bytes()[HEAD_BYTES + RECORD_PLACE..];
        if place[..=RECORD_KEPT] != [COMMITTED, 0, u8::from(other > one)] {
            let text = format!("of ranks {one} and {other} the other guard is kept, or none");
            return Err(told(library, &table, &call, &text));
        }
    }
    Ok(())
}

struct Tables<'a> {
    library: &'a dyn Library,
    random: Random,
    tally: &'a mut Tally,
}

impl Tables<'_> {
    fn one(&mut self) -> Result<(), String> {
        let random = &mut self.random;
        let table = match random.below(16) {
            0..=7 => encode(&damage::odd_desk(random)),
            8..=10 => encode(&damage::changed_desk(random)),
            11 => slack(random),
            12 => encode(&damage::any_desk(random)),
            13 => random_bytes(random),
            _ => return self.out_of_form(),
        };
        self.calls_on(table)
    }

    /// Some calls one after the other, each on what the one before left.
    fn calls_on(&mut self, mut table: Table) -> Result<(), String> {
        let mut desk = decode(&table);
        for _ in 0..CALLS {
            let call = draw::call(&mut self.random, desk.n.clamp(2, 32));
            let before = desk.clone();
            let reply = both(self.library, &table, &mut desk, &call)
                .map_err(|text| told(self.library, &table, &call, &text))?;
            self.tally.note(&before, &call, &reply);
            table = reply.table;
        }
        Ok(())
    }

    /// A desk in form, spoiled at one point: every call gives 7.
    fn out_of_form(&mut self) -> Result<(), String> {
        let point = self.random.pick(&POINTS);
        let mut desk = damage::odd_desk(&mut self.random);
        if !damage::spoil(&mut self.random, &mut desk, point) {
            return Ok(());
        }
        let (table, n) = (encode(&desk), desk.n.clamp(2, 32));
        for _ in 0..CALLS {
            let call = draw::call(&mut self.random, n);
            let told = |text: &str| told(self.library, &table, &call, text);
            let reply = both(self.library, &table, &mut desk, &call).map_err(|text| told(&text))?;
            if reply.answer != Err(7) {
                return Err(told(&format!("{point:?} is not refused by 7")));
            }
            self.tally.note(&desk, &call, &reply);
            self.tally.out_of_form(&desk, point);
        }
        Ok(())
    }
}

/// A desk in form whose lists have something in the slots past their ends.
fn slack(random: &mut Random) -> Table {
    let desk = damage::odd_desk(random);
    let other = encode(&damage::any_desk(random));
    let mut table = encode(&desk);
    for (number, record) in desk.parties.iter().enumerate() {
        for at in Table::slots_past(number, record.guards.len(), record.posted.len()) {
            table.bytes_mut()[at] = other.bytes()[at];
        }
    }
    table
}

/// Any bytes are a table too, mostly one out of form.
fn random_bytes(random: &mut Random) -> Table {
    let mut table = Table::zero();
    let most = random.pick(&[2, 4, 12, 256]);
    for byte in table.bytes_mut() {
        *byte = random.below(most) as u8;
    }
    // Eight bytes are nearly always too great a total.
    if random.one_in(2) {
        table.bytes_mut()[HEAD_MEETINGS..HEAD_BYTES].fill(0);
    }
    table
}

/// The complaint, with the smallest table and call that still bring one.
pub fn told(library: &dyn Library, table: &Table, call: &Call, text: &str) -> String {
    let differs =
        |table: &Table, call: &Call| both(library, table, &mut decode(table), call).is_err();
    let given = (decode(&normal(table)), call.clone());
    let (desk, call) = reduce(given, |desk, call| differs(&encode(desk), call));
    let mut shown = format!("{text}\nthe smallest table and call found:\n");
    shown.push_str(&show(&desk));
    shown.push_str(&format!("call: {}\n", line(&call)));
    if let Err(text) = both(library, &encode(&desk), &mut desk.clone(), &call) {
        shown.push_str(&text);
    } else {
        shown
            .push_str("(on this table the two agree: the difference needs the bytes as they were)");
    }
    shown
}

/// A desk in a few lines: what differs from a fresh one.
fn show(desk: &Desk) -> String {
    let (n, nap, next) = (desk.n, desk.nap, desk.next_ticket.0);
    let (meetings, withdrawn) = (desk.meetings, desk.withdrawn);
    let mut text = format!("n {n}, nap {nap}, next ticket {next}, ");
    text.push_str(&format!("meetings {meetings}, withdrawn {withdrawn}\n"));
    for (party, record) in desk.parties.iter().enumerate() {
        if *record != model::Party::fresh() {
            text.push_str(&format!("record {party}: {record:?}\n"));
        }
    }
    text
}

#[cfg(test)]
mod tests {
    use super::*;
    use crate::erring::{Erring, OtherNap, ScansByRank, ERRORS, NAP_ERRORS};
    use crate::erring::{KIND_BLIND, RANK_ERRORS};
    use crate::miscounting::{MISCOUNTS, OTHER_SUMS};
    use std::time::Duration;

    fn found(library: &dyn Library) -> String {
        let time = Duration::from_secs(20);
        let found = run(library, Budget { seed: 1, time }).err();
        found.expect("a difference").text
    }

    #[test]
    fn errors_in_withdrawals_are_found_and_told_by_one_call() {
        for (right, wrong) in ERRORS {
            let text = found(&Erring { right, wrong });
            assert!(text.contains("\ncall: w "), "{text}");
        }
    }

    #[test]
    fn errors_in_naps_are_found_and_told_by_one_call_in_a_short_nap() {
        for error in NAP_ERRORS {
            let text = found(&OtherNap(error));
            let short = ["nap 1,", "nap 2,"].iter().any(|nap| text.contains(nap));
            assert!(short && text.contains("Asleep("), "{text}");
        }
    }

    #[test]
    fn errors_in_totals_are_found() {
        let miscounts = MISCOUNTS.iter().map(|library| library as &dyn Library);
        let other_sums = OTHER_SUMS.iter().map(|library| library as &dyn Library);
        for library in miscounts.chain(other_sums) {
            let text = found(library);
            assert!(text.contains("\ncall: "), "{text}");
        }
    }

    #[test]
    fn a_search_that_does_not_look_at_kinds_is_found_and_told_by_one_step() {
        let text = found(&KIND_BLIND);
        assert!(text.contains("\ncall: s "), "{text}");
    }

    #[test]
    fn errors_in_ranks_are_found_and_told_by_one_step() {
        for error in &RANK_ERRORS {
            let text = found(error);
            assert!(text.contains("\ncall: s "), "{text}");
        }
        let text = found(&ScansByRank);
        assert!(text.contains("Entering"), "{text}");
    }
}
