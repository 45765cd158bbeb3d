//! The proved calls, in the loop of the Rattle crate `meter`.

use crate::plan::{Plan, Setting};

extern "C" {
    fn meter_calls(plan: u8, n: u8, load: u8, calls: u64) -> u64;
}

pub fn run(plan: Plan, at: Setting, calls: u64) -> u64 {
    let number = match plan {
        Plan::Meeting => 0,
        Plan::Step => 1,
        Plan::StepSame => 2,
        Plan::Offer => 3,
        Plan::Collect => 4,
        Plan::Movers => 5,
        Plan::Withdraw => 6,
    };
    // SAFETY: the function takes any numbers, asks nothing of its caller and
    // touches no memory but its own stack.
    unsafe { meter_calls(number, at.n, at.load, calls) }
}
