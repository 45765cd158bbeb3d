//! Desks with any number of open offers that are in form but for their totals, and next
//! tickets and totals around every edge of 2 × meetings + withdrawn + open.

use crate::library::Start;
use crate::plans::guard;
use crate::random::Random;
use crate::rendezvous::PROCESSES;
use model::{Desk, Guard, IndexedMessage, Message, Party, Place, Ticket};
use std::collections::BTreeSet;

/// How many processes a desk has, and how many of them have an open offer.
#[derive(Clone, Copy, Debug, PartialEq, Eq)]
pub struct Shape {
    pub n: usize,
    pub open: usize,
}

/// With 0 to n open offers, for these n.
pub fn shapes() -> Vec<Shape> {
    let sizes = [2, 3, 4, PROCESSES].into_iter();
    sizes
        .flat_map(|n| (0..=n).map(move |open| Shape { n, open }))
        .collect()
}

/// A desk without totals. Neighbours have guards that match, posted ones too; records
/// that are no party's look as if their offers were open.
pub fn layout(random: &mut Random, shape: Shape) -> Desk {
    let Shape { n, open } = shape;
    let nap = 1 + random.below(3) as u8;
    let mut desk = Start { n, nap }.desk();
    let mut order: Vec<usize> = (0..n).collect();
    random.shuffle(&mut order);
    for (at, party) in order.into_iter().enumerate() {
        desk.parties[party] = record(random, party, n, at < open);
    }
    let nobodys = Party {
        place: Place::Entering,
        ..Party::fresh()
    };
    desk.parties.resize(PROCESSES, nobodys);
    desk
}

fn record(random: &mut Random, party: usize, n: usize, open: bool) -> Party {
    let guards = neighbours(party, n);
    let place = match open {
        true => open_place(random),
        false => closed_place(random),
    };
    let wake_count = match place {
        Place::Showing | Place::Waiting => u8::from(!open),
        _ => random.below(2) as u8,
    };
    Party {
        ticket: Ticket(random.below(4) as u32),
        posted: guards.clone(),
        wake_count,
        signal: random.one_in(2).then_some(AT_0),
        place,
        guards,
    }
}

const AT_0: IndexedMessage = IndexedMessage {
    index: 0,
    message: Message::Nothing,
};

/// One guard for each neighbour in a ring: who has the lower number sends.
fn neighbours(party: usize, n: usize) -> Vec<Guard> {
    let both = [(party + 1) % n, (party + n - 1) % n];
    both.map(|partner| guard(partner, party < partner, true))
        .to_vec()
}

fn open_place(random: &mut Random) -> Place {
    random.pick(&[
        Place::Entering,
        Place::Scanning(0),
        Place::Trying(0),
        Place::Trying(1),
        Place::Posting,
        Place::Opening,
        Place::Showing,
        Place::Asleep(0),
        Place::Waiting,
    ])
}

fn closed_place(random: &mut Random) -> Place {
    random.pick(&[
        Place::Idle,
        Place::Committed { own: 0, kept: 0 },
        Place::Met(AT_0),
        Place::Showing,
        Place::Waiting,
    ])
}

/// Next tickets at the edges, and about the number of open offers.
pub fn nexts(open: usize) -> BTreeSet<u32> {
    let open = open as u32;
    let about = (open.saturating_sub(1)..=open + 2).chain([2 * open]);
    let edges = [0, 1, 600, (1 << 31) - 1, 1 << 31, u32::MAX - 1, u32::MAX];
    about.chain(edges).collect()
}

/// Meetings and withdrawn around every edge, for such a next ticket.
pub fn totals(next: u32, open: usize) -> impl Iterator<Item = (u64, u64)> {
    meetings(next, open).into_iter().flat_map(move |meetings| {
        let all = withdrawn(next, open, meetings).into_iter();
        all.map(move |withdrawn| (meetings, withdrawn))
    })
}

fn meetings(next: u32, open: usize) -> BTreeSet<u64> {
    let (half, room) = (next / 2, next.saturating_sub(open as u32) / 2);
    let about = [half, room].map(u64::from).into_iter();
    let about = about.flat_map(|edge| edge.saturating_sub(1)..=edge + 1);
    let carries = [0, 1, 255, 0xffff, 0xff_ffff];
    let word = [(1 << 31) - 1, 1 << 31, (1 << 31) + 1, 1 << 32];
    let long = [
        (1 << 62) - 1,
        1 << 62,
        (1 << 63) - 1,
        1 << 63,
        (1 << 63) + 1,
        u64::MAX,
    ];
    about.chain(carries).chain(word).chain(long).collect()
}

/// So many that the sum is about the next ticket, over the integers and in 64 bits; that
/// it is 0 and 1 in 64 bits, with the open offers and without; and edges.
fn withdrawn(next: u32, open: usize, meetings: u64) -> BTreeSet<u64> {
    let next = u64::from(next);
    let others = 2 * i128::from(meetings) + open as i128;
    let exact = (-2..=2).map(|more| i128::from(next) + more - others);
    let exact = exact.filter_map(|number| u64::try_from(number).ok());
    let twice = meetings.wrapping_mul(2);
    let wrapped = [0, 1, next, next.wrapping_add(1)].into_iter();
    let wrapped = wrapped.flat_map(|sum| {
        let with_open = sum.wrapping_sub(twice).wrapping_sub(open as u64);
        [sum.wrapping_sub(twice), with_open]
    });
    let edges = [0, 1, 255, 0xffff, 1 << 31, 0xffff_ffff, 1 << 32, 1 << 63];
    let last = [u64::MAX - 1, u64::MAX];
    exact.chain(wrapped).chain(edges).chain(last).collect()
}

#[cfg(test)]
mod tests {
    use super::*;

    #[test]
    fn layouts_have_the_open_offers_that_they_should() {
        let mut random = Random::new(2);
        for shape in shapes() {
            let mut desk = layout(&mut random, shape);
            assert_eq!(desk.open_count(), shape.open);
            assert!(shape.open == 0 || desk.movers().is_err());
            desk.next_ticket = Ticket(shape.open as u32);
            assert!(desk.movers().is_ok());
        }
    }

    #[test]
    fn the_edges_are_there() {
        let all: BTreeSet<(u64, u64)> = totals(1000, 3).collect();
        for wanted in [
            (498, 1),
            (500, 0),
            (501, 0),
            (0, 997),
            (0, 998),
            (1 << 63, 0),
            (1 << 63, u64::MAX - 2),
            ((1 << 63) + 1, u64::MAX - 1),
            (u64::MAX, 2),
            (u64::MAX, u64::MAX),
        ] {
            assert!(all.contains(&wanted), "{wanted:?}");
        }
    }
}
