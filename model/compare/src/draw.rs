//! Random messages, guards, lists and calls.

use crate::random::Random;
use model::{Action, Call, Guard, Message};

/// Ten patterns of NaNs: quiet and signalling, positive and negative.
pub const NANS: [u32; 10] = [
    0x7fc0_0000,
    0xffc0_0000,
    0x7f80_0001,
    0xff80_0001,
    0x7fbf_ffff,
    0xffbf_ffff,
    0x7fff_ffff,
    0xffff_ffff,
    0x7fe1_2345,
    0xffa5_a5a5,
];

/// Numbers at the edges: zeros, infinities, the smallest and the largest.
const EDGES: [u32; 9] = [
    0,
    0x8000_0000,
    0x7f80_0000,
    0xff80_0000,
    1,
    0x8000_0001,
    0x007f_ffff,
    0x7f7f_ffff,
    0x4097_0a3d,
];

/// Kinds at the edges of a byte and of its top bit.
const KINDS: [u8; 6] = [0, 1, 127, 128, 254, 255];

/// Ranks at the edges of a byte and of its top bit.
const HIGH_RANKS: [u8; 4] = [127, 128, 254, 255];

/// The longest nap.
pub const LONGEST_NAP: u8 = 255;

/// No float of a message is a NaN.
const NEVER: usize = usize::MAX;

/// One float in so many of a damaged desk is not a number.
pub const NAN_IN: usize = 4;

/// A byte of a guard that any value is good for.
pub type ByteOf = fn(&mut Guard) -> &mut u8;

pub const BYTES: [ByteOf; 2] = [kind_of, rank_of];

pub fn kind_of(guard: &mut Guard) -> &mut u8 {
    &mut guard.kind
}

pub fn rank_of(guard: &mut Guard) -> &mut u8 {
    &mut guard.rank
}

/// An f32 that is a number.
fn number(random: &mut Random) -> f32 {
    if random.one_in(3) {
        return f32::from_bits(random.pick(&EDGES));
    }
    let value = f32::from_bits(random.bits());
    if value.is_nan() {
        1.5
    } else {
        value
    }
}

/// An f32, now and then one that is not a number.
fn float(random: &mut Random, nan_in: usize) -> f32 {
    match nan_in != NEVER && random.one_in(nan_in) {
        true => f32::from_bits(random.pick(&NANS)),
        false => number(random),
    }
}

/// A message; one float in `nan_in` is not a number.
pub fn message(random: &mut Random, nan_in: usize) -> Message {
    match random.below(5) {
        0 => Message::Nothing,
        1 => Message::Whole(random.pick(&[0, 1, -1, i32::MIN, i32::MAX, 1000])),
        2 => Message::Whole(random.bits() as i32),
        3 => Message::Reading(float(random, nan_in)),
        _ => Message::Limit {
            low: float(random, nan_in),
            high: float(random, nan_in),
        },
    }
}

/// Another party than `party`, often a neighbour, so that offers match often
/// on a large desk too; `n` is at least 2.
fn partner(random: &mut Random, party: usize, n: usize) -> usize {
    if party ^ 1 < n && random.one_in(2) {
        return party ^ 1;
    }
    (party + 1 + random.below(n - 1)) % n
}

/// The kind that two processes have for each other most of the time.
fn common_kind(party: usize, partner: usize, n: usize) -> u8 {
    KINDS[(party + partner + n) % KINDS.len()]
}

/// Mostly the common kind, so that offers match often; else one that an error
/// might take for it: the next one, with 0 beside 255, or the same but for the
/// top bit; now and then any byte.
fn kind(random: &mut Random, party: usize, partner: usize, n: usize) -> u8 {
    let common = common_kind(party, partner, n);
    match random.below(16) {
        0 => common.wrapping_add(1),
        1 => common.wrapping_sub(1),
        2 => common ^ 0x80,
        3 => random.byte(),
        _ => common,
    }
}

/// A rank, mostly 0 or 1, so that many guards rank the same; now and then at an edge,
/// or any byte.
pub fn rank(random: &mut Random) -> u8 {
    match random.below(16) {
        0 => random.byte(),
        1..=3 => random.pick(&HIGH_RANKS),
        4..=8 => 1,
        _ => 0,
    }
}

/// Leaves a call without ranks.
pub fn forget_ranks(call: &mut Call) {
    if let Call::Offer { guards, .. } = call {
        guards.iter_mut().for_each(|guard| guard.rank = 0);
    }
}

/// A nap length: often 1, mostly short, and now and then the longest or any.
pub fn nap(random: &mut Random) -> u8 {
    match random.below(16) {
        0 => LONGEST_NAP,
        1 => random.byte().max(1),
        2..=6 => 1,
        _ => 2 + random.below(3) as u8,
    }
}

/// A guard that fits into the list of `party`.
fn guard(random: &mut Random, party: usize, n: usize, nan_in: usize) -> Guard {
    let partner = partner(random, party, n);
    Guard {
        enabled: !random.one_in(5),
        partner,
        kind: kind(random, party, partner, n),
        rank: rank(random),
        action: match random.one_in(2) {
            true => Action::Receive,
            false => Action::Send(message(random, nan_in)),
        },
    }
}

/// A list of up to eight guards that fits, mostly a short one.
pub fn list(random: &mut Random, party: usize, n: usize, nan_in: usize) -> Vec<Guard> {
    let count = match random.below(4) {
        0 => random.below(9),
        _ => random.below(4),
    };
    (0..count)
        .map(|_| guard(random, party, n, nan_in))
        .collect()
}

/// A good list in which a neighbour is always met in both directions, often by two
/// guards, of which the ranks choose one: a desk with such lists never runs dry.
pub fn sociable_list(random: &mut Random, party: usize, n: usize) -> Vec<Guard> {
    let mut guards = list(random, party, n, NEVER);
    guards.truncate(4);
    let partner = if party ^ 1 < n { party ^ 1 } else { 0 };
    for sends in [false, true] {
        for _ in 0..1 + random.below(2) {
            let guard = Guard {
                enabled: true,
                partner,
                kind: common_kind(party, partner, n),
                rank: rank(random),
                action: match sends {
                    true => Action::Send(message(random, NEVER)),
                    false => Action::Receive,
                },
            };
            guards.insert(random.below(guards.len() + 1), guard);
        }
    }
    guards
}

/// A call, accepted or refused in any way that a table in form allows.
pub fn call(random: &mut Random, n: usize) -> Call {
    let party = match random.below(40) {
        0 => random.pick(&[n, n + 1, 31, 32, 33, 254, 255]).min(255),
        _ => random.below(n),
    };
    match random.below(20) {
        0..=4 => offer(random, party, n),
        5..=6 => Call::Collect { party },
        7..=8 => Call::Withdraw { party },
        9 => Call::Movers,
        _ => Call::Step { party },
    }
}

/// An offer, in one case of five with something wrong in it.
pub fn offer(random: &mut Random, party: usize, n: usize) -> Call {
    let owner = party % n;
    let mut guards = list(random, owner, n, NEVER);
    if guards.is_empty() {
        guards.push(guard(random, owner, n, NEVER));
    }
    if random.one_in(5) {
        spoil(random, &mut guards, owner, n);
    }
    Call::Offer { party, guards }
}

fn spoil(random: &mut Random, guards: &mut Vec<Guard>, owner: usize, n: usize) {
    let at = random.below(guards.len());
    match random.below(6) {
        0 => guards.clear(),
        1 => {
            let count = random.pick(&[8, 9, 10, 17]);
            guards.resize_with(count, || guard(random, owner, n, 4));
        }
        2 => guards[at].partner = owner,
        3 => guards[at].partner = random.pick(&[n, n + 1, 32, 255]).min(255),
        4 => {
            let nan = f32::from_bits(random.pick(&NANS));
            let (low, high) = if random.one_in(2) {
                (nan, 0.0)
            } else {
                (0.0, nan)
            };
            guards[at].action = Action::Send(match random.one_in(2) {
                true => Message::Reading(nan),
                false => Message::Limit { low, high },
            });
        }
        _ => guards.iter_mut().for_each(|guard| guard.enabled = false),
    }
}

#[cfg(test)]
mod tests {
    use super::*;

    #[test]
    fn kinds_of_partners_are_often_equal_and_often_nearly_so() {
        let mut random = Random::new(1);
        let mut apart = [0; 256];
        for _ in 0..4000 {
            let n = 2 + random.below(31);
            let party = random.below(n);
            let partner = partner(&mut random, party, n);
            let own = kind(&mut random, party, partner, n);
            let other = kind(&mut random, partner, party, n);
            apart[usize::from(own.wrapping_sub(other))] += 1;
        }
        assert!(apart[0] > 2000);
        assert!([1, 128, 255].iter().all(|&near| apart[near] > 200));
    }

    #[test]
    fn ranks_are_often_equal_and_lie_on_both_sides_of_every_edge() {
        let mut random = Random::new(2);
        let mut counts = [0; 256];
        for _ in 0..4000 {
            counts[usize::from(rank(&mut random))] += 1;
        }
        assert!(counts[0] > 1000 && counts[1] > 1000);
        assert!(HIGH_RANKS
            .iter()
            .all(|&high| counts[usize::from(high)] > 100));
        assert!(counts[2..127].iter().sum::<u32>() > 20);
    }
}
