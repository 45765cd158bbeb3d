//! Many random lists of calls, each compared with the book along the run.

use crate::tools::{check_totals, fresh_with_nap, Xorshift};
use model::guard::guards_match;
use model::{
    Action, Answer, Book, Call, Desk, Entry, Given, Guard, Meeting, Message, Moment, Place,
    Refusal, Ticket, Told, Withdrawal,
};
use std::collections::BTreeSet;
use std::ops::{Range, RangeInclusive};

/// A desk with its book, and what the run has seen so far.
struct Run {
    desk: Desk,
    book: Book,
    closed: BTreeSet<Ticket>,
    rests: usize,
    collections: usize,
    too_late: usize,
    /// Meetings for which a rank decided.
    by_rank: usize,
}

impl Run {
    fn new(n: usize, nap: u8) -> Run {
        Run {
            desk: fresh_with_nap(n, nap),
            book: Book::default(),
            closed: BTreeSet::new(),
            rests: 0,
            collections: 0,
            too_late: 0,
            by_rank: 0,
        }
    }

    /// Makes one call on the desk, feeds the book and compares the two.
    fn call(&mut self, call: &Call) {
        let before = self.desk.clone();
        let given = call.on(&mut self.desk);
        let entry = match self.book.feed(call, Told::of(&given)) {
            Ok(entry) => entry,
            Err(stuck) => panic!("the book is stuck: {stuck}"),
        };
        match given {
            Err(refusal) => {
                assert_ne!(refusal, Refusal::OutOfForm, "a reached desk is in form");
                assert_eq!(self.desk, before);
                assert_eq!(entry, Entry::Unchanged);
            }
            Ok(given) => self.compare(given, entry, &before),
        }
        assert_eq!(self.desk.open_offers(), self.book.open_offers());
        check_totals(&self.desk, &self.book);
    }

    /// Compares what an accepted call gave with what the book entered.
    fn compare(&mut self, given: Given, entry: Entry, before: &Desk) {
        match given {
            Given::Ticket(ticket) => assert_eq!(entry, Entry::Opened(ticket)),
            Given::Outcome(outcome) => {
                self.collections += 1;
                assert_eq!(entry, Entry::Given(outcome));
            }
            Given::Place(answer) => {
                assert_eq!(answer.is_none(), self.desk == *before);
                self.note_step(answer, entry, before);
            }
            Given::Withdrawal(Withdrawal::Withdrawn) => self.note_withdrawal(entry),
            Given::Withdrawal(Withdrawal::TooLate) => {
                self.too_late += 1;
                assert_eq!((&self.desk, entry), (before, Entry::Unchanged));
            }
            Given::Set(_) => assert_eq!(self.desk, *before),
        }
    }

    fn note_step(&mut self, answer: Option<Answer>, entry: Entry, before: &Desk) {
        let committed = answer.is_some_and(|answer| answer.letter == 'C');
        let Entry::Met(meeting) = entry else {
            assert!(!committed && entry == Entry::Unchanged);
            return;
        };
        assert!(committed);
        assert_eq!(self.book.meetings().last(), Some(&meeting));
        self.by_rank += usize::from(rank_decided(&meeting, before));
        self.note_closed(&[meeting.p_ticket, meeting.q_ticket]);
    }

    fn note_withdrawal(&mut self, entry: Entry) {
        let Entry::Withdrew(ticket) = entry else {
            panic!("withdrawn, but the book entered {entry:?}");
        };
        self.note_closed(&[ticket]);
    }

    /// The last moment of the run has these tickets, and no earlier one has.
    fn note_closed(&mut self, tickets: &[Ticket]) {
        let last = self.book.moments().last().map(Moment::tickets);
        assert_eq!(last.as_deref(), Some(tickets));
        for &ticket in tickets {
            assert!(self.closed.insert(ticket), "{ticket:?} closes twice");
        }
    }

    /// At rest no two open offers match, and nobody is on the way.
    fn check_rest(&mut self) {
        self.rests += 1;
        let offers = self.desk.open_offers();
        for (index, one) in offers.iter().enumerate() {
            for other in &offers[index + 1..] {
                assert!(!one.matches(other), "{one:?} and {other:?}");
            }
        }
        for record in &self.desk.parties {
            let place = record.place;
            assert!(matches!(
                place,
                Place::Idle | Place::Met(_) | Place::Waiting
            ));
        }
    }

    /// Steps movers drawn at random until the desk is at rest.
    fn settle(&mut self, random: &mut Xorshift) {
        for _ in 0..1_000_000 {
            let movers = self.desk.movers().expect("a reached desk is in form");
            if movers == 0 {
                assert!(self.desk.at_rest());
                return self.check_rest();
            }
            let parties: Vec<usize> = (0..32).filter(|p| movers >> p & 1 == 1).collect();
            let party = parties[random.below(parties.len())];
            self.call(&Call::Step { party });
        }
        panic!("the desk does not come to rest");
    }
}

/// Had the partner posted a matching guard before the one that was kept?
fn rank_decided(meeting: &Meeting, before: &Desk) -> bool {
    let Meeting { p, i, q, j, .. } = *meeting;
    let own = &before.parties[p].guards[i];
    let mut earlier = before.parties[q].posted[..j].iter();
    earlier.any(|other| guards_match(p, own, q, other))
}

fn random_message(random: &mut Xorshift) -> Message {
    // Random bits hold a NaN now and then; the offer is then refused.
    match random.below(4) {
        0 => Message::Nothing,
        1 => Message::Whole(random.bits() as i32),
        2 => Message::Reading(f32::from_bits(random.bits())),
        _ => Message::Limit {
            low: f32::from_bits(random.bits()),
            high: f32::from_bits(random.bits()),
        },
    }
}

fn random_guard(random: &mut Xorshift, party: usize, n: usize) -> Guard {
    let partner = match random.below(60) {
        0 => party,
        1 => n + random.below(250),
        _ => (party + 1 + random.below(n - 1)) % n,
    };
    let action = match random.one_in(2) {
        true => Action::Receive,
        false => Action::Send(random_message(random)),
    };
    let enabled = !random.one_in(6);
    Guard {
        enabled,
        partner,
        // Half of all pairs are equal, so that many offers still meet.
        kind: [0, 0, 0, 0, 1, 255][random.below(6)],
        // Few different ranks, so that many are equal.
        rank: [0, 0, 1, 255][random.below(4)],
        action,
    }
}

pub fn random_call(random: &mut Xorshift, n: usize) -> Call {
    let party = match random.below(50) {
        0 => n + random.below(250),
        _ => random.below(n),
    };
    match random.below(20) {
        0..=3 => {
            let count = match random.below(12) {
                0 => random.below(12),
                1..=4 => 1 + random.below(8),
                _ => 1 + random.below(3),
            };
            let owner = party % n;
            let guards = (0..count).map(|_| random_guard(random, owner, n));
            let guards = guards.collect();
            Call::Offer { party, guards }
        }
        4..=5 => Call::Collect { party },
        6 => Call::Movers,
        7 => Call::Withdraw { party },
        _ => Call::Step { party },
    }
}

fn run_once(random: &mut Xorshift, n: usize, nap: u8, calls: usize) -> Run {
    let mut run = Run::new(n, nap);
    for _ in 0..4 {
        for _ in 0..calls {
            let call = random_call(random, n);
            run.call(&call);
            if matches!(call, Call::Movers) && run.desk.at_rest() {
                run.check_rest();
            }
        }
        run.settle(random);
    }
    run
}

fn run_from_seed(seed: u64, parties: &RangeInclusive<usize>, calls: usize) -> Run {
    let mut random = Xorshift::new(seed * 0x9e37_79b9 + 1);
    // The first words after a small seed are small too.
    for _ in 0..20 {
        random.word();
    }
    let n = parties.start() + random.below(parties.end() - parties.start() + 1);
    let nap = [1, 2, 3, 255][random.below(4)];
    run_once(&mut random, n, nap, calls)
}

/// Runs the seeds; the counts make sure that the comparison is not empty. Gives
/// the number of meetings for which a rank decided.
fn check_runs(seeds: Range<u64>, parties: RangeInclusive<usize>, calls: usize) -> usize {
    let runs: Vec<Run> = seeds
        .map(|seed| run_from_seed(seed, &parties, calls))
        .collect();
    let total = |count: fn(&Run) -> usize| runs.iter().map(count).sum::<usize>();
    // Each run comes to rest four times. With so many calls a run should meet,
    // collect and withdraw at least now and then; a commit that comes just
    // before a withdrawal is rarer.
    assert!(total(|run| run.rests) >= 4 * runs.len());
    let meetings = total(|run| run.book.meetings().count());
    let withdrawals = total(|run| run.book.moments().len()) - meetings;
    assert!(meetings > runs.len() && withdrawals > runs.len());
    assert!(total(|run| run.collections) > runs.len());
    assert!(total(|run| run.too_late) > 0);
    total(|run| run.by_rank)
}

#[test]
fn random_runs_of_few_parties_agree_with_the_book() {
    assert!(check_runs(1..201, 2..=4, 100) > 10);
}

#[test]
fn random_runs_of_some_parties_agree_with_the_book() {
    assert!(check_runs(1000..1040, 5..=9, 200) > 0);
}

#[test]
fn random_runs_of_many_parties_agree_with_the_book() {
    // Two guards of a list seldom name the same one of so many parties, so the
    // ranks are left to the runs above.
    check_runs(2005..2012, 30..=32, 800);
}
