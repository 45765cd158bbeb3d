//! The next ticket and the two totals of damaged desks, drawn at random.

use crate::random::Random;
use crate::sum;
use model::{Desk, Ticket};

/// Totals too great for any next ticket, at the edges of 32 and 64 bits.
const TOO_GREAT: [u64; 7] = [
    1 << 32,
    1 << 33,
    (1 << 63) - 1,
    1 << 63,
    (1 << 63) + 1,
    u64::MAX - 1,
    u64::MAX,
];

/// Gives a desk a next ticket and totals with which it is in form. Often their sum is
/// the next ticket.
pub fn fit(random: &mut Random, desk: &mut Desk) {
    let open = desk.open_count() as u32;
    let next = match random.below(4) {
        0 => random.pick(&[u32::MAX, u32::MAX - 1]),
        1 => random.bits().max(open),
        _ => open + random.below(6) as u32,
    };
    desk.next_ticket = Ticket(next);
    let room = u64::from(next - open);
    desk.meetings = part_of(random, room / 2);
    desk.withdrawn = part_of(random, room - 2 * desk.meetings);
}

/// None of it, all of it or some of it.
fn part_of(random: &mut Random, room: u64) -> u64 {
    match random.below(4) {
        0 => 0,
        1 => room,
        _ => random.word() % (room + 1),
    }
}

/// Takes from the totals what no longer fits, so that a desk that was spoiled elsewhere is
/// out of form by that alone.
pub fn trim(desk: &mut Desk) {
    let open = desk.open_count() as u32;
    let next = desk.next_ticket.0.max(open);
    desk.next_ticket = Ticket(next);
    let room = u64::from(next - open);
    desk.withdrawn = desk.withdrawn.min(room);
    desk.meetings = desk.meetings.min((room - desk.withdrawn) / 2);
}

/// Brings the sum of a desk in form above the next ticket, often by 1.
pub fn exceed(random: &mut Random, desk: &mut Desk) {
    let open = desk.open_count() as u64;
    let room = u64::from(desk.next_ticket.0) - open;
    let great = random.pick(&TOO_GREAT);
    match random.below(6) {
        0 => desk.withdrawn = room - 2 * desk.meetings + 1,
        1 => desk.meetings = (room - desk.withdrawn) / 2 + 1,
        2 => desk.meetings = great,
        3 => desk.withdrawn = great,
        4 if sum::of_desk(desk) > 0 => desk.next_ticket = Ticket(sum::of_desk(desk) as u32 - 1),
        _ => {
            desk.meetings = great;
            // In 64 bits the sum would be 0, 1 or 2.
            let others = great.wrapping_mul(2).wrapping_add(open);
            desk.withdrawn = (random.below(3) as u64).wrapping_sub(others);
        }
    }
}

/// Does something to the totals of a desk that was reached and then changed, so that its
/// sum need not be the next ticket: mostly it leaves room.
pub fn loosen(random: &mut Random, desk: &mut Desk) {
    let total = match random.one_in(2) {
        true => &mut desk.meetings,
        false => &mut desk.withdrawn,
    };
    match random.below(12) {
        0 => {}
        1 => *total += 1,
        2 => *total = total.saturating_sub(1),
        3 => *total = random.pick(&TOO_GREAT),
        _ => desk.next_ticket.0 += 1 + random.below(40) as u32,
    }
}

/// Any total, often a small one.
pub fn any(random: &mut Random) -> u64 {
    match random.below(8) {
        0 => random.pick(&TOO_GREAT),
        1 => random.word(),
        2 => u64::from(random.bits()),
        _ => random.below(300) as u64,
    }
}

#[cfg(test)]
mod tests {
    use super::*;
    use crate::damage::{any_desk, odd_desk};

    fn fits(desk: &Desk) -> bool {
        sum::of_desk(desk) <= u128::from(desk.next_ticket.0)
    }

    #[test]
    fn totals_fit_as_they_are_drawn_and_as_they_are_trimmed() {
        let mut random = Random::new(9);
        for _ in 0..2000 {
            assert!(fits(&odd_desk(&mut random)));
            let mut desk = any_desk(&mut random);
            trim(&mut desk);
            assert!(fits(&desk));
        }
    }

    #[test]
    fn totals_are_exceeded_and_often_by_one() {
        let mut random = Random::new(9);
        let mut by_one = 0;
        for _ in 0..2000 {
            let mut desk = odd_desk(&mut random);
            exceed(&mut random, &mut desk);
            assert!(!fits(&desk));
            by_one += u64::from(sum::of_desk(&desk) == u128::from(desk.next_ticket.0) + 1);
        }
        assert!(by_one > 500);
    }
}
