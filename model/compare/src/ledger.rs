//! Answers alone, without table, model or book: each offer ends once, collected
//! or withdrawn, or is open at the end; what was collected was sent, to the one
//! who collected it, at a guard of the same kind, and of those that match at the one
//! of greatest rank; and nothing is lost or given twice.

use crate::fit::kept;
use crate::wire::put_message;
use model::{Call, Given, Guard, Message, Outcome, Withdrawal};
use std::collections::{BTreeMap, BTreeSet};

/// Calls in the order in which they were made, each with what it said or the
/// number of its refusal.
pub type History = Vec<(Call, Result<Given, u8>)>;

/// A message's nine bytes. In a history that is checked no two guards send the
/// same.
type Bytes = Vec<u8>;

#[derive(Default)]
struct Ledger {
    /// The list of each process whose offer has not ended.
    open: BTreeMap<usize, Vec<Guard>>,
    withdrawn: usize,
    late: usize,
    /// For each process that another committed to and that has not collected yet: who
    /// did, and with which guard.
    committed: BTreeMap<usize, (usize, Guard)>,
    /// Who sends a message to whom, and of which kind.
    sent: BTreeMap<Bytes, (usize, usize, u8)>,
    /// Messages that a sender was told to be gone, and that someone received.
    gone: BTreeSet<Bytes>,
    received: BTreeSet<Bytes>,
}

/// How the offers of a history ended.
#[derive(Debug, PartialEq, Eq)]
pub struct Ends {
    /// Messages that were handed over, each by a rendezvous of its own.
    pub messages: usize,
    /// Withdrawals in time and too late.
    pub withdrawn: usize,
    pub late: usize,
    /// The processes whose offers are open at the end.
    pub open: Vec<usize>,
}

/// Checks a history that ends with everything collected.
pub fn check(history: &History) -> Result<Ends, String> {
    let mut ledger = Ledger::default();
    for (call, answer) in history {
        match (call, answer) {
            (Call::Offer { party, guards }, Ok(_)) => ledger.offered(*party, guards)?,
            (Call::Step { party }, Ok(Given::Place(Some(place)))) if place.letter == 'C' => {
                ledger.commits(*party, place.index)?
            }
            (Call::Collect { party }, Ok(Given::Outcome(outcome))) => {
                ledger.collected(*party, outcome)?
            }
            (Call::Withdraw { party }, Ok(Given::Withdrawal(Withdrawal::Withdrawn))) => {
                ledger.withdrew(*party)?
            }
            (Call::Withdraw { .. }, Ok(_)) => ledger.late += 1,
            _ => {}
        }
    }
    match ledger.gone == ledger.received {
        true => Ok(ledger.ends()),
        false => Err("some messages are gone but not received, or the reverse".to_string()),
    }
}

impl Ledger {
    fn offered(&mut self, party: usize, guards: &[Guard]) -> Result<(), String> {
        for guard in guards.iter().filter(|guard| guard.sends()) {
            let way = (party, guard.partner, guard.kind);
            self.sent.insert(bytes(guard.message()), way);
        }
        match self.open.insert(party, guards.to_vec()) {
            None => Ok(()),
            Some(_) => Err(format!("{party} offers again before its offer ended")),
        }
    }

    fn commits(&mut self, party: usize, index: Option<usize>) -> Result<(), String> {
        let list = self.open.get(&party);
        let guard = list.and_then(|list| list.get(index?).copied());
        let guard = guard.ok_or(format!("{party} commits at a guard that it did not offer"))?;
        match self.committed.insert(guard.partner, (party, guard)) {
            None => Ok(()),
            Some(_) => Err(format!("{party} commits to one that is committed to")),
        }
    }

    /// After this the process has nothing to collect by, and what another
    /// received of the offer's messages is never gone.
    fn withdrew(&mut self, party: usize) -> Result<(), String> {
        self.withdrawn += 1;
        match self.open.remove(&party) {
            Some(_) => Ok(()),
            None => Err(format!("{party} withdraws an offer that has ended")),
        }
    }

    fn ends(self) -> Ends {
        Ends {
            messages: self.received.len(),
            withdrawn: self.withdrawn,
            late: self.late,
            open: self.open.into_keys().collect(),
        }
    }

    fn collected(&mut self, party: usize, outcome: &Outcome) -> Result<(), String> {
        let list = self.open.remove(&party).unwrap_or_default();
        let guard = list.get(outcome.index);
        let guard = guard.ok_or(format!("{party} collects at a guard that it did not offer"))?;
        if let Some((other, own)) = self.committed.remove(&party) {
            if kept(other, &own, &list) != Some(outcome.index) {
                return Err(format!(
                    "{party} collects {outcome:?}, not at the best match"
                ));
            }
        }
        if guard.partner != outcome.partner || !guard.enabled {
            return Err(format!("{party} collects {outcome:?} at {guard:?}"));
        }
        let (key, noted) = match guard.sends() {
            true => (bytes(guard.message()), &mut self.gone),
            false => (bytes(outcome.message), &mut self.received),
        };
        if guard.sends() && outcome.message != Message::Nothing {
            return Err(format!("{party} sent and collects {outcome:?}"));
        }
        let way = match guard.sends() {
            true => (party, outcome.partner, guard.kind),
            false => (outcome.partner, party, guard.kind),
        };
        if self.sent.get(&key) != Some(&way) {
            return Err(format!(
                "{party} collects {outcome:?}, which was not sent so"
            ));
        }
        match noted.insert(key) {
            true => Ok(()),
            false => Err(format!("{party} collects {outcome:?}, for the second time")),
        }
    }
}

fn bytes(message: Message) -> Bytes {
    let mut bytes = Vec::new();
    put_message(&mut bytes, message);
    bytes
}

#[cfg(test)]
mod tests {
    use super::*;
    use model::{Action, Place, Ticket};

    fn offer(party: usize, partner: usize, action: Action) -> (Call, Result<Given, u8>) {
        let guards = vec![Guard {
            enabled: true,
            partner,
            kind: 0,
            rank: 0,
            action,
        }];
        (Call::Offer { party, guards }, Ok(Given::Ticket(Ticket(0))))
    }

    fn collect(party: usize, partner: usize, message: Message) -> (Call, Result<Given, u8>) {
        let outcome = Outcome {
            index: 0,
            partner,
            message,
        };
        (Call::Collect { party }, Ok(Given::Outcome(outcome)))
    }

    fn handed_over() -> History {
        vec![
            offer(0, 1, Action::Send(Message::Whole(7))),
            offer(1, 0, Action::Receive),
            collect(1, 0, Message::Whole(7)),
            collect(0, 1, Message::Nothing),
        ]
    }

    fn withdraw(party: usize, withdrawal: Withdrawal) -> (Call, Result<Given, u8>) {
        let given = Given::Withdrawal(withdrawal);
        (Call::Withdraw { party }, Ok(given))
    }

    #[test]
    fn a_message_that_arrives_once_is_good() {
        let ends = check(&handed_over());
        assert_eq!(ends.map(|ends| ends.messages), Ok(1));
    }

    #[test]
    fn a_lost_message_is_found() {
        let mut history = handed_over();
        let _received = history.remove(2);
        assert!(check(&history).is_err());
    }

    #[test]
    fn a_message_given_twice_is_found() {
        let mut history = handed_over();
        history.push(offer(1, 0, Action::Receive));
        history.push(collect(1, 0, Message::Whole(7)));
        assert!(check(&history).is_err());
    }

    #[test]
    fn a_message_that_nobody_sent_is_found() {
        let mut history = handed_over();
        history[2] = collect(1, 0, Message::Whole(8));
        assert!(check(&history).is_err());
    }

    #[test]
    fn a_message_of_another_kind_is_found() {
        let mut history = handed_over();
        let (Call::Offer { guards, .. }, _) = &mut history[1] else {
            panic!("the receiver's offer comes second");
        };
        guards[0].kind = 255;
        assert!(check(&history).is_err());
    }

    /// Process 1 offers two guards of these ranks and meets at the first.
    fn met_at_the_first(ranks: [u8; 2]) -> History {
        let mut history = handed_over();
        let (Call::Offer { guards, .. }, _) = &mut history[1] else {
            panic!("the receiver's offer comes second");
        };
        let receiving = guards[0];
        *guards = ranks.map(|rank| Guard { rank, ..receiving }).to_vec();
        let place = Place::Committed { own: 0, kept: 0 };
        let given = Given::Place(Some(place.answer()));
        history.insert(2, (Call::Step { party: 0 }, Ok(given)));
        history
    }

    #[test]
    fn a_rendezvous_at_another_than_the_best_match_is_found() {
        for (ranks, good) in [([0, 1], false), ([1, 0], true), ([1, 1], true)] {
            assert_eq!(check(&met_at_the_first(ranks)).is_ok(), good);
        }
    }

    #[test]
    fn a_second_commit_to_one_offer_is_found() {
        let mut history = met_at_the_first([0, 0]);
        let commit = history[2].clone();
        history.insert(2, commit);
        assert!(check(&history).is_err());
    }

    #[test]
    fn offers_are_withdrawn_too_late_or_open() {
        let mut history = handed_over();
        history.insert(2, withdraw(1, Withdrawal::TooLate));
        history.push(offer(1, 0, Action::Receive));
        history.push(withdraw(1, Withdrawal::Withdrawn));
        history.push(offer(0, 1, Action::Receive));
        let ends = Ends {
            messages: 1,
            withdrawn: 1,
            late: 1,
            open: vec![0],
        };
        assert_eq!(check(&history), Ok(ends));
    }

    #[test]
    fn an_offer_that_ends_twice_is_found() {
        for at in [2, 4] {
            let mut history = handed_over();
            history.insert(at, withdraw(1, Withdrawal::Withdrawn));
            assert!(check(&history).is_err());
        }
    }

    #[test]
    fn a_message_of_a_withdrawn_offer_is_found() {
        let mut history = handed_over();
        history[3] = withdraw(0, Withdrawal::Withdrawn);
        assert!(check(&history).is_err());
    }

    #[test]
    fn an_offer_while_another_is_open_is_found() {
        let mut history = handed_over();
        history.insert(2, offer(1, 0, Action::Receive));
        assert!(check(&history).is_err());
    }
}
