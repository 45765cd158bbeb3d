//! What a call on a table in form shows of naps, and how often that was seen.

use crate::seen::Seen;
use model::{Call, Desk, Party, Place};

pub const WITHIN: &str = "a step within a nap";
pub const LAST_OF_ONE: &str = "the end of a nap of one step";
pub const LAST_OF_SOME: &str = "the end of a nap of 2 to 254 steps";
pub const LAST_OF_ALL: &str = "the end of a nap of 255 steps";
const PASSED_OVER: &str = "rule 3 at a sleeper within its nap";
const WITHDRAWN: &str = "an offer withdrawn within a nap";
const MOVER: &str = "movers with a sleeper within its nap";

pub const SHOWN: [&str; 7] = [
    WITHIN,
    LAST_OF_ONE,
    LAST_OF_SOME,
    LAST_OF_ALL,
    PASSED_OVER,
    WITHDRAWN,
    MOVER,
];

/// The naps of a table whose naps have two steps.
pub const SHOWN_BY_TWO: [&str; 5] = [WITHIN, LAST_OF_SOME, PASSED_OVER, WITHDRAWN, MOVER];

/// What a call shows of naps on this table, if it is not refused.
pub fn shown(desk: &Desk, call: &Call) -> Option<&'static str> {
    match *call {
        Call::Step { party } => shown_by_step(desk, desk.parties.get(party)?),
        Call::Withdraw { party } => is_within(desk.parties.get(party)?).then_some(WITHDRAWN),
        Call::Movers => {
            let mut parties = desk.parties.iter().take(desk.n);
            parties.any(is_within).then_some(MOVER)
        }
        Call::Offer { .. } | Call::Collect { .. } => None,
    }
}

fn shown_by_step(desk: &Desk, record: &Party) -> Option<&'static str> {
    match record.place {
        Place::Asleep(steps) if steps + 1 < desk.nap => Some(WITHIN),
        Place::Asleep(_) => Some(match desk.nap {
            1 => LAST_OF_ONE,
            255 => LAST_OF_ALL,
            _ => LAST_OF_SOME,
        }),
        Place::Scanning(own) => {
            let partner = desk.parties.get(record.guards.get(own)?.partner)?;
            is_within(partner).then_some(PASSED_OVER)
        }
        _ => None,
    }
}

/// True for a sleeper that has made a step at S.
fn is_within(record: &Party) -> bool {
    matches!(record.place, Place::Asleep(steps) if steps > 0)
}

/// How often each of these was seen.
#[derive(Default)]
pub struct Naps(Seen);

impl Naps {
    /// Notes a call on a desk in form as it is before.
    pub fn note(&mut self, desk: &Desk, call: &Call) {
        self.0.note(shown(desk, call));
    }

    /// The first of these that was never seen.
    pub fn missed(&self, wanted: &[&'static str]) -> Option<String> {
        self.0.missed(wanted)
    }

    pub fn told(&self) -> String {
        let count = |name| self.0.count(name);
        format!(
            "{} steps within naps, {} naps of one step, {} of 2 to 254 and {} of 255 slept through, {} ended by a withdrawal",
            count(WITHIN),
            count(LAST_OF_ONE),
            count(LAST_OF_SOME),
            count(LAST_OF_ALL),
            count(WITHDRAWN)
        )
    }
}

#[cfg(test)]
mod tests {
    use super::*;
    use crate::library::Start;
    use crate::plans::guard;

    /// Process 0 sleeps and has made so many steps; process 1 looks at it.
    fn sleeping(nap: u8, steps: u8) -> Desk {
        let mut desk = Start { n: 2, nap }.desk();
        desk.parties[0].place = Place::Asleep(steps);
        desk.parties[1].guards = vec![guard(0, true, true)];
        desk.parties[1].place = Place::Scanning(0);
        desk
    }

    #[test]
    fn steps_at_s_are_told_apart() {
        let step = Call::Step { party: 0 };
        for (nap, steps, name) in [
            (1, 0, LAST_OF_ONE),
            (2, 0, WITHIN),
            (2, 1, LAST_OF_SOME),
            (255, 253, WITHIN),
            (255, 254, LAST_OF_ALL),
        ] {
            assert_eq!(shown(&sleeping(nap, steps), &step), Some(name));
        }
        assert_eq!(shown(&sleeping(1, 0), &Call::Step { party: 2 }), None);
    }

    #[test]
    fn a_sleeper_counts_as_within_its_nap_from_its_first_step_there() {
        for (call, name) in [
            (Call::Movers, MOVER),
            (Call::Withdraw { party: 0 }, WITHDRAWN),
            (Call::Step { party: 1 }, PASSED_OVER),
        ] {
            assert_eq!(shown(&sleeping(3, 0), &call), None);
            assert_eq!(shown(&sleeping(3, 1), &call), Some(name));
        }
    }

    #[test]
    fn what_was_never_seen_is_told() {
        let mut naps = Naps::default();
        assert!(naps.missed(&[WITHIN]).is_some());
        naps.note(&sleeping(2, 0), &Call::Step { party: 0 });
        assert_eq!(naps.missed(&[WITHIN]), None);
    }
}
