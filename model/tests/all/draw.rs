//! Random desks, damaged ones among them.

use crate::tools::{indexed, Xorshift};
use model::{Action, Desk, Guard, Message, Party, Place, Ticket};

/// Draws desks. A draw is wild once in `wild`; never if that is 0.
pub struct Draw {
    pub random: Xorshift,
    wild: usize,
}

impl Draw {
    pub fn new(seed: u64, wild: usize) -> Draw {
        let random = Xorshift::new(seed);
        Draw { random, wild }
    }

    fn is_wild(&mut self) -> bool {
        self.wild > 0 && self.random.one_in(self.wild)
    }

    /// An index into a list of this length, or anything.
    fn index(&mut self, length: usize) -> usize {
        match self.is_wild() || length == 0 {
            true if self.random.one_in(8) => usize::MAX,
            true => self.random.below(256),
            false => self.random.below(length),
        }
    }

    /// NaNs of every payload come up: a quarter have all exponent bits set.
    fn float(&mut self) -> f32 {
        let bits = self.random.bits();
        match self.random.one_in(4) {
            true => f32::from_bits(bits | 0x7f80_0000),
            false => f32::from_bits(bits),
        }
    }

    fn message(&mut self) -> Message {
        match self.random.below(4) {
            0 => Message::Nothing,
            1 => Message::Whole(self.random.bits() as i32),
            2 => Message::Reading(self.float()),
            _ => Message::Limit {
                low: self.float(),
                high: self.float(),
            },
        }
    }

    fn guard(&mut self, party: usize, n: usize) -> Guard {
        let partner = match self.is_wild() || n < 2 {
            true => self.random.below(256),
            false => (party + 1 + self.random.below(n - 1)) % n,
        };
        let action = match self.random.one_in(2) {
            true => Action::Receive,
            false => Action::Send(self.message()),
        };
        let enabled = !self.random.one_in(3);
        Guard {
            enabled,
            partner,
            // Few different kinds, so that many are equal.
            kind: [0, 0, 1, 255][self.random.below(4)],
            rank: self.rank(),
            action,
        }
    }

    /// A rank: few different ones, so that many are equal, or any.
    fn rank(&mut self) -> u8 {
        match self.random.one_in(8) {
            true => self.random.below(256) as u8,
            false => [0, 0, 1, 255][self.random.below(4)],
        }
    }

    pub fn list(&mut self, party: usize, n: usize) -> Vec<Guard> {
        let length = match self.is_wild() {
            true => self.random.below(20),
            false => 1 + self.random.below(8),
        };
        (0..length).map(|_| self.guard(party, n)).collect()
    }

    fn party(&mut self, party: usize, n: usize) -> Party {
        let guards = self.list(party, n);
        let signal = match self.random.one_in(3) {
            true => Some(indexed(self.index(guards.len()), self.message())),
            false => None,
        };
        Party {
            // Few different tickets, so that many are equal.
            ticket: Ticket(self.random.below(3) as u32),
            posted: self.list(party, n),
            wake_count: self.random.below(2) as u8,
            signal,
            place: Place::Idle,
            guards,
        }
    }

    /// A nap length: short ones and the longest, or none, or anything.
    fn nap(&mut self) -> u8 {
        match self.is_wild() {
            true if self.random.one_in(2) => 0,
            true => self.random.below(256) as u8,
            false => [1, 2, 3, 255][self.random.below(4)],
        }
    }

    /// Steps made in a nap of this length, often the first or the last count
    /// of it, or anything.
    fn steps_made(&mut self, nap: u8) -> u8 {
        match self.is_wild() || nap == 0 {
            true => self.random.below(256) as u8,
            false => [0, nap - 1, self.random.below(nap.into()) as u8][self.random.below(3)],
        }
    }

    fn place(&mut self, desk: &Desk, party: usize) -> Place {
        let guards = &desk.parties[party].guards;
        let own = self.index(guards.len());
        match self.random.below(11) {
            0 => Place::Idle,
            1 => Place::Entering,
            2 => Place::Scanning(own),
            3 => Place::Trying(own),
            4 => {
                let partner = guards.get(own).and_then(|g| desk.parties.get(g.partner));
                let length = partner.map_or(0, |record| record.posted.len());
                let kept = self.index(length);
                Place::Committed { own, kept }
            }
            5 => Place::Posting,
            6 => Place::Opening,
            7 => Place::Showing,
            8 => Place::Asleep(self.steps_made(desk.nap)),
            9 => Place::Waiting,
            _ => Place::Met(indexed(own, self.message())),
        }
    }

    pub fn desk(&mut self) -> Desk {
        let n = match self.is_wild() {
            true => self.random.below(256),
            false => 2 + self.random.below(4),
        };
        let records = match self.is_wild() {
            true => self.random.below(40),
            false => n + self.random.below(2),
        };
        let mut desk = Desk {
            n,
            nap: self.nap(),
            next_ticket: Ticket(0),
            meetings: 0,
            withdrawn: 0,
            parties: (0..records).map(|party| self.party(party, n)).collect(),
        };
        for party in 0..records {
            desk.parties[party].place = self.place(&desk, party);
        }
        self.totals(&mut desk);
        desk
    }

    /// A next ticket and counters that leave room for the open offers, often
    /// none for one more; or counters of any size.
    fn totals(&mut self, desk: &mut Desk) {
        let open = desk.open_count() as u32;
        let next = [u32::MAX, self.random.bits(), open, open + 1, 40][self.random.below(5)];
        desk.next_ticket = Ticket(next.max(open));
        let room = desk.next_ticket.0 - open;
        desk.meetings = self.count(room / 2);
        let met = 2 * desk.meetings.min(u64::from(room / 2)) as u32;
        desk.withdrawn = self.count(room - met);
    }

    /// A count up to this one, often the first or the last, or anything.
    fn count(&mut self, most: u32) -> u64 {
        let most = u64::from(most);
        match self.is_wild() {
            true => [most + 1, 1 << 63, u64::MAX, self.random.word()][self.random.below(4)],
            false => [0, most, self.random.word() % (most + 1)][self.random.below(3)],
        }
    }
}
