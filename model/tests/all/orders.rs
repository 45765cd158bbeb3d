//! Every order of calls, for a few small sets of offers and withdrawals.

use crate::tools::{check_totals, fresh_with_nap, of_kind, of_rank, receive, send};
use model::{Book, Call, Desk, Guard, Message, Moment, Ticket, Told};
use std::collections::BTreeSet;

/// A desk with its book, and for each party the calls that it will yet make, in
/// this order, besides its steps.
#[derive(Clone, Debug)]
struct Scene<'a> {
    desk: Desk,
    book: Book,
    plans: Vec<&'a [Call]>,
}

/// How many meetings and withdrawals there were, and how many offers are open.
type End = (usize, usize, usize);

impl<'a> Scene<'a> {
    fn new(plans: &'a [Vec<Call>], nap: u8) -> Scene<'a> {
        Scene {
            desk: fresh_with_nap(plans.len(), nap),
            book: Book::default(),
            plans: plans.iter().map(Vec::as_slice).collect(),
        }
    }

    /// Each party may step, or make the next call that it plans.
    fn next(&self) -> Vec<Scene<'a>> {
        let mut scenes = Vec::new();
        for party in 0..self.desk.n {
            scenes.push(self.after(&Call::Step { party }));
            if let Some((call, rest)) = self.plans[party].split_first() {
                let mut scene = self.after(call);
                scene.plans[party] = rest;
                scenes.push(scene);
            }
        }
        scenes
    }

    fn after(&self, call: &Call) -> Scene<'a> {
        let mut scene = self.clone();
        let answer = call.on(&mut scene.desk);
        let entry = scene.book.feed(call, Told::of(&answer));
        assert!(entry.is_ok(), "{entry:?} after {call:?} on {self:?}");
        scene
    }

    /// Each offer has met, is withdrawn or is open, one of the three and once;
    /// at rest no two open offers match.
    fn check(&self) {
        let open = self.desk.open_offers();
        assert_eq!(open, self.book.open_offers());
        check_totals(&self.desk, &self.book);
        let closed = self.book.moments().iter().flat_map(Moment::tickets);
        let mut tickets: Vec<Ticket> = closed.chain(open.iter().map(|o| o.ticket)).collect();
        tickets.sort();
        let given: Vec<Ticket> = (0..self.desk.next_ticket.0).map(Ticket).collect();
        assert_eq!(tickets, given);
        if self.desk.at_rest() {
            for (index, one) in open.iter().enumerate() {
                assert!(open[index + 1..].iter().all(|other| !one.matches(other)));
            }
        }
    }

    fn is_over(&self) -> bool {
        self.desk.at_rest() && self.plans.iter().all(|plan| plan.is_empty())
    }

    fn end(&self) -> End {
        let meetings = self.book.meetings().count();
        let withdrawals = self.book.moments().len() - meetings;
        (meetings, withdrawals, self.book.open_offers().len())
    }
}

/// The ends with the shortest nap, which a longer one leaves as they are: the
/// earlier steps of a nap show nothing to others, and can be made in a row.
fn ends(plans: &[Vec<Call>]) -> BTreeSet<End> {
    let ends = ends_with_nap(plans, 1);
    assert_eq!(ends_with_nap(plans, 2), ends);
    ends
}

/// Checks every scene that some order of calls reaches, and gives the ends of
/// those that are over.
fn ends_with_nap(plans: &[Vec<Call>], nap: u8) -> BTreeSet<End> {
    let start = Scene::new(plans, nap);
    let mut seen = BTreeSet::from([format!("{start:?}")]);
    let mut to_do = vec![start];
    let mut ends = BTreeSet::new();
    while let Some(scene) = to_do.pop() {
        scene.check();
        if scene.is_over() {
            ends.insert(scene.end());
        }
        for next in scene.next() {
            if seen.insert(format!("{next:?}")) {
                to_do.push(next);
            }
        }
    }
    ends
}

fn offer(party: usize, guards: &[Guard]) -> Call {
    let guards = guards.to_vec();
    Call::Offer { party, guards }
}

fn withdraw(party: usize) -> Call {
    Call::Withdraw { party }
}

fn sends(partner: usize) -> Guard {
    send(partner, Message::Whole(partner as i32))
}

#[test]
fn two_that_match_have_met_at_every_end() {
    let plans = [vec![offer(0, &[sends(1)])], vec![offer(1, &[receive(0)])]];
    assert_eq!(ends(&plans), BTreeSet::from([(1, 0, 0)]));
}

#[test]
fn two_that_do_not_match_never_meet() {
    let plans = [vec![offer(0, &[sends(1)])], vec![offer(1, &[sends(0)])]];
    assert_eq!(ends(&plans), BTreeSet::from([(0, 0, 2)]));
}

#[test]
fn two_that_differ_in_kind_alone_never_meet() {
    let plans = [
        vec![offer(0, &[of_kind(1, sends(1))])],
        vec![offer(1, &[of_kind(2, receive(0))])],
    ];
    assert_eq!(ends(&plans), BTreeSet::from([(0, 0, 2)]));
}

#[test]
fn two_with_one_kind_in_common_have_met_at_every_end() {
    let plans = [
        vec![offer(0, &[of_kind(1, sends(1)), of_kind(2, sends(1))])],
        vec![offer(1, &[of_kind(2, receive(0)), of_kind(3, receive(0))])],
    ];
    assert_eq!(ends(&plans), BTreeSet::from([(1, 0, 0)]));
}

#[test]
fn two_with_guards_of_several_ranks_have_met_at_every_end() {
    let plans = [
        vec![offer(0, &[sends(1), of_rank(9, sends(1))])],
        vec![offer(1, &[receive(0), of_rank(255, receive(0))])],
    ];
    assert_eq!(ends(&plans), BTreeSet::from([(1, 0, 0)]));
}

#[test]
fn in_a_ring_of_three_two_meet_and_one_stays() {
    // Each sends to the next and receives from the one before.
    let plans = [
        vec![offer(0, &[sends(1), receive(2)])],
        vec![offer(1, &[sends(2), receive(0)])],
        vec![offer(2, &[sends(0), receive(1)])],
    ];
    assert_eq!(ends(&plans), BTreeSet::from([(1, 0, 1)]));
}

#[test]
fn of_two_senders_one_meets_the_receiver() {
    let plans = [
        vec![offer(0, &[receive(1), receive(2)])],
        vec![offer(1, &[sends(0)])],
        vec![offer(2, &[sends(0)])],
    ];
    assert_eq!(ends(&plans), BTreeSet::from([(1, 0, 1)]));
}

#[test]
fn when_one_withdraws_both_have_met_or_the_other_stays() {
    let plans = [
        vec![offer(0, &[sends(1)]), withdraw(0)],
        vec![offer(1, &[receive(0)])],
    ];
    assert_eq!(ends(&plans), BTreeSet::from([(1, 0, 0), (0, 1, 1)]));
}

#[test]
fn when_both_withdraw_both_have_met_or_neither() {
    let plans = [
        vec![offer(0, &[sends(1)]), withdraw(0)],
        vec![offer(1, &[receive(0)]), withdraw(1)],
    ];
    assert_eq!(ends(&plans), BTreeSet::from([(1, 0, 0), (0, 2, 0)]));
}

#[test]
fn two_that_withdraw_and_offer_again_meet_once() {
    // The new offer of one may meet the old one of the other. Who has met with
    // its old offer does not collect, and so its new offer is turned away.
    let plan = |party, guard| {
        vec![
            offer(party, &[guard]),
            withdraw(party),
            offer(party, &[guard]),
        ]
    };
    let plans = [plan(0, sends(1)), plan(1, receive(0))];
    let met_once = [(1, 0, 0), (1, 1, 0), (1, 2, 0)];
    assert_eq!(ends(&plans), BTreeSet::from(met_once));
}

#[test]
fn when_a_receiver_withdraws_one_sender_has_met_it_or_both_stay() {
    let plans = [
        vec![offer(0, &[receive(1), receive(2)]), withdraw(0)],
        vec![offer(1, &[sends(0)])],
        vec![offer(2, &[sends(0)])],
    ];
    assert_eq!(ends(&plans), BTreeSet::from([(1, 0, 1), (0, 1, 2)]));
}

#[test]
fn when_all_of_a_ring_withdraw_two_have_met_or_none() {
    let plan = |party, guards: [Guard; 2]| vec![offer(party, &guards), withdraw(party)];
    let plans = [
        plan(0, [sends(1), receive(2)]),
        plan(1, [sends(2), receive(0)]),
        plan(2, [sends(0), receive(1)]),
    ];
    assert_eq!(ends(&plans), BTreeSet::from([(1, 1, 0), (0, 3, 0)]));
}
