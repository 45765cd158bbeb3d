//! Libraries that err, in withdrawals, in kinds, in ranks or in naps, to try whether the
//! parts find it.

use crate::library::{in_model, Library, Modelled, Reply};
use crate::rendezvous::HEAD_NAP;
use crate::wire::{decode, encode, normal, Table};
use model::{Call, Given, Guard, Place, Withdrawal};

type Said = Result<Given, u8>;

const WITHDRAWN: Said = Ok(Given::Withdrawal(Withdrawal::Withdrawn));
const TOO_LATE: Said = Ok(Given::Withdrawal(Withdrawal::TooLate));

/// What is right, and what an erring library says: it leaves a wake count at 0,
/// moves one that is too late, withdraws what was committed, and what has met.
pub const ERRORS: [(Said, Said); 4] = [
    (WITHDRAWN, WITHDRAWN),
    (TOO_LATE, TOO_LATE),
    (TOO_LATE, WITHDRAWN),
    (Err(14), WITHDRAWN),
];

/// The model, but where a withdrawal's right answer is this one, it says the
/// wrong one, puts the process to I and counts what it says, no more.
pub struct Erring {
    pub right: Said,
    pub wrong: Said,
}

impl Library for Erring {
    fn create(&self, n: u8, nap: u8) -> Result<Table, u8> {
        Modelled.create(n, nap)
    }

    fn call(&self, table: &Table, call: &Call) -> Reply {
        let reply = Modelled.call(table, call);
        match call {
            Call::Withdraw { party } if reply.answer == self.right => Reply {
                answer: self.wrong,
                table: put_to_idle(table, *party, &self.wrong),
            },
            _ => reply,
        }
    }
}

fn put_to_idle(table: &Table, party: usize, said: &Said) -> Table {
    let mut desk = decode(table);
    desk.withdrawn += u64::from(*said == WITHDRAWN);
    desk.parties[party].place = Place::Idle;
    encode(&desk)
}

/// What an erring search makes of the partner's posted list, for this own guard,
/// before it looks for the best match there.
type OtherList = fn(&Guard, &mut [Guard]);

/// It does not look at kinds.
pub const KIND_BLIND: OtherSearch = OtherSearch(|own, posted| {
    posted.iter_mut().for_each(|guard| guard.kind = own.kind);
});

/// It keeps the first match, the last among equals, one of the least rank, one that
/// ranks as the own guard, one of the greatest rank of the whole list, of the greatest
/// modulo 128, and of the greatest as a signed byte.
pub const RANK_ERRORS: [OtherSearch; 7] = [
    OtherSearch(|_, posted| rank_by(posted, |_| 0)),
    OtherSearch(|_, posted| rank_by_place(posted)),
    OtherSearch(|_, posted| rank_by(posted, |rank| !rank)),
    OtherSearch(|own, posted| only(posted, |guard| guard.rank == own.rank)),
    OtherSearch(|_, posted| {
        let greatest = posted.iter().map(|guard| guard.rank).max();
        only(posted, |guard| Some(guard.rank) == greatest);
    }),
    OtherSearch(|_, posted| rank_by(posted, |rank| rank % 128)),
    OtherSearch(|_, posted| rank_by(posted, |rank| rank ^ 0x80)),
];

fn rank_by(posted: &mut [Guard], rank: fn(u8) -> u8) {
    posted
        .iter_mut()
        .for_each(|guard| guard.rank = rank(guard.rank));
}

/// Ranks each guard by its rank and then by its index, so that no two are equal.
fn rank_by_place(posted: &mut [Guard]) {
    let mut order: Vec<usize> = (0..posted.len()).collect();
    order.sort_by_key(|&at| (posted[at].rank, at));
    for (rank, at) in (0..).zip(order) {
        posted[at].rank = rank;
    }
}

fn only(posted: &mut [Guard], matching: impl Fn(&Guard) -> bool) {
    posted
        .iter_mut()
        .for_each(|guard| guard.enabled &= matching(guard));
}

/// The model, but rule 7 searches a list that this has changed.
pub struct OtherSearch(pub OtherList);

impl Library for OtherSearch {
    fn create(&self, n: u8, nap: u8) -> Result<Table, u8> {
        Modelled.create(n, nap)
    }

    fn call(&self, table: &Table, call: &Call) -> Reply {
        let right = Modelled.call(table, call);
        let mut desk = decode(table);
        let (Call::Step { party }, Ok(_)) = (call, &right.answer) else {
            return right;
        };
        let Place::Trying(own) = desk.parties[*party].place else {
            return right;
        };
        let own = desk.parties[*party].guards[own];
        let posted = desk.parties[own.partner].posted.clone();
        self.0(&own, &mut desk.parties[own.partner].posted);
        let answer = in_model(&mut desk, call);
        desk.parties[own.partner].posted = posted;
        let table = normal(&encode(&desk));
        Reply { answer, table }
    }
}

/// The model, but a process begins its scan at the enabled guard of greatest rank.
pub struct ScansByRank;

impl Library for ScansByRank {
    fn create(&self, n: u8, nap: u8) -> Result<Table, u8> {
        Modelled.create(n, nap)
    }

    fn call(&self, table: &Table, call: &Call) -> Reply {
        let right = Modelled.call(table, call);
        let mut desk = decode(&right.table);
        let (Call::Step { party }, Ok(Given::Place(Some(_)))) = (call, &right.answer) else {
            return right;
        };
        let begins = decode(table).parties[*party].place == Place::Entering;
        let record = &mut desk.parties[*party];
        let enabled = (0..record.guards.len()).filter(|&at| record.guards[at].enabled);
        match enabled.min_by_key(|&at| !record.guards[at].rank) {
            Some(at) if begins => record.place = Place::Scanning(at),
            _ => return right,
        }
        Reply {
            answer: Ok(Given::Place(Some(record.place.answer()))),
            table: normal(&encode(&desk)),
        }
    }
}

/// What an erring library takes a nap length for: one step less, one more, and 1
/// whatever it is.
pub const NAP_ERRORS: [fn(u8) -> u8; 3] = [
    |nap| nap.saturating_sub(1).max(1),
    |nap| nap.saturating_add(1),
    |_| 1,
];

/// The model, but it takes a nap length for another one. A nap of 0 is out of form for
/// it too.
pub struct OtherNap(pub fn(u8) -> u8);

impl Library for OtherNap {
    fn create(&self, n: u8, nap: u8) -> Result<Table, u8> {
        Modelled.create(n, nap)
    }

    fn call(&self, table: &Table, call: &Call) -> Reply {
        let nap = table.bytes()[HEAD_NAP];
        let mut other = table.clone();
        other.bytes_mut()[HEAD_NAP] = if nap == 0 { 0 } else { self.0(nap) };
        let mut reply = Modelled.call(&other, call);
        reply.table.bytes_mut()[HEAD_NAP] = nap;
        reply
    }
}
