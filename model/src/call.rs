//! The calls on a desk, as a script writes them and as the book is fed them.

use crate::desk::{Desk, Outcome, Ticket, Withdrawal};
use crate::guard::Guard;
use crate::place::Answer;
use crate::refusal::Refusal;

/// A call's arguments other than the desk.
#[derive(Clone, Debug, PartialEq, Eq)]
pub enum Call {
    Offer { party: usize, guards: Vec<Guard> },
    Step { party: usize },
    Collect { party: usize },
    Withdraw { party: usize },
    Movers,
}

/// What an accepted call says.
#[derive(Clone, Copy, Debug, PartialEq, Eq)]
pub enum Given {
    Ticket(Ticket),
    /// The new place of a step; none if nothing changed.
    Place(Option<Answer>),
    Outcome(Outcome),
    Withdrawal(Withdrawal),
    Set(u32),
}

impl Call {
    /// Makes the call on a desk.
    pub fn on(&self, desk: &mut Desk) -> Result<Given, Refusal> {
        match self {
            Call::Offer { party, guards } => desk.offer(*party, guards).map(Given::Ticket),
            Call::Step { party } => desk.step(*party).map(Given::Place),
            Call::Collect { party } => desk.collect(*party).map(Given::Outcome),
            Call::Withdraw { party } => desk.withdraw(*party).map(Given::Withdrawal),
            Call::Movers => desk.movers().map(Given::Set),
        }
    }
}
