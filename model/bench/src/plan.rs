//! What is called, in turn. The three loops follow the same plans, and so
//! their sums of answers are the same.

use model::Withdrawal;

#[derive(Clone, Copy, PartialEq, Eq)]
pub enum Plan {
    /// Whole meetings of parties 0 and 1, as in document 01's session.
    Meeting,
    /// Party 1 scans, sleeps, scans: each step changes the desk.
    Step,
    /// Party 0 scans, and its younger partner too: no step changes anything.
    StepSame,
    Offer,
    Collect,
    Movers,
    Withdraw,
}

pub enum Call {
    Offer(u8),
    Step(u8),
    Collect(u8),
    Withdraw(u8),
    Movers,
}

/// How many calls make a meeting.
pub const MEETING: u8 = 14;

/// The next ticket of every desk that a plan starts from, as crates/meter has it: no less than the
/// offers that are open in it and those that a run withdraws, with enough left for its offers.
pub const NEXT_TICKET: u32 = 1 << 31;

/// The nap length of every desk: every second step of `Plan::Step` ends a nap.
pub const NAP: u8 = 1;

impl Plan {
    pub const ALL: [Plan; 7] = [
        Plan::Step,
        Plan::StepSame,
        Plan::Offer,
        Plan::Collect,
        Plan::Withdraw,
        Plan::Movers,
        Plan::Meeting,
    ];

    pub fn name(self) -> &'static str {
        match self {
            Plan::Meeting => "meeting",
            Plan::Step => "step",
            Plan::StepSame => "step, =",
            Plan::Offer => "offer",
            Plan::Collect => "collect",
            Plan::Withdraw => "withdraw",
            Plan::Movers => "movers",
        }
    }

    /// The call at this turn of fourteen.
    pub fn call(self, turn: u8) -> Call {
        match self {
            Plan::Step => Call::Step(1),
            Plan::StepSame => Call::Step(0),
            Plan::Offer => Call::Offer(0),
            Plan::Collect => Call::Collect(0),
            Plan::Withdraw => Call::Withdraw(0),
            Plan::Movers => Call::Movers,
            Plan::Meeting => match turn {
                0 | 1 => Call::Offer(turn),
                7..=10 => Call::Step(1),
                2..=11 => Call::Step(0),
                12 => Call::Collect(1),
                _ => Call::Collect(0),
            },
        }
    }

    /// Is party 0 put back after each call? Its offers, collections and
    /// withdrawals are accepted only once in a row.
    pub fn resets(self) -> bool {
        matches!(self, Plan::Offer | Plan::Collect | Plan::Withdraw)
    }

    /// How many calls the figure is for.
    pub fn calls(self) -> u64 {
        match self {
            Plan::Meeting => u64::from(MEETING),
            _ => 1,
        }
    }
}

/// A desk to start from: n parties, of which those past 1 wait with lists of
/// `load` guards.
#[derive(Clone, Copy)]
pub struct Setting {
    pub n: u8,
    pub load: u8,
}

/// What a refusal counts in a sum of answers: it shows.
pub const REFUSED: u64 = 1_000_000_007;

/// What a step counts.
pub fn moved(changed: bool) -> u64 {
    match changed {
        true => 2,
        false => 3,
    }
}

/// What a withdrawal counts.
pub fn given_up(answer: Withdrawal) -> u64 {
    match answer {
        Withdrawal::Withdrawn => 4,
        Withdrawal::TooLate => 5,
    }
}
