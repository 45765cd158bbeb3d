//! What the processes of a damaged desk have posted: guards that answer one at T, or
//! nearly do, something to keep for one at C, and lists nearly as the own ones.

use crate::draw::{self, message, ByteOf, NAN_IN};
use crate::random::Random;
use crate::rendezvous::GUARDS;
use model::{Action, Guard, Party, Place};

/// Lets some partners of parties at T accept, with guards that match, and with such
/// as do but for one thing.
pub fn answer_some(random: &mut Random, parties: &mut [Party]) {
    for party in 0..parties.len() {
        let Place::Trying(own) = parties[party].place else {
            continue;
        };
        let own = parties[party].guards[own];
        let answers = answers(random, party, &own, parties.len());
        let partner = &mut parties[own.partner];
        for answer in answers {
            let count = partner.posted.len();
            if count < GUARDS && random.one_in(3) {
                partner.posted.insert(random.below(count + 1), answer);
                partner.wake_count = 0;
            }
        }
    }
}

/// Three guards that match the own one of a party, and one each that does but for its
/// kind, for being disabled, for its partner and for what it does.
fn answers(random: &mut Random, party: usize, own: &Guard, n: usize) -> [Guard; 7] {
    let mut others = (0..n).filter(|&other| other != party && other != own.partner);
    let (sent, received) = (Action::Send(message(random, NAN_IN)), Action::Receive);
    let (opposite, same) = match own.sends() {
        true => (received, sent),
        false => (sent, received),
    };
    let answer = Guard {
        enabled: true,
        partner: party,
        kind: own.kind,
        rank: 0,
        action: opposite,
    };
    let mut answers = [answer; 7];
    answers[3].kind = own.kind.wrapping_add(1);
    answers[4].enabled = false;
    // Of two parties there is no other.
    answers[5].partner = others.next().unwrap_or(party);
    answers[6].action = same;
    for guard in &mut answers {
        guard.rank = draw::rank(random);
    }
    answers
}

/// Puts some parties to C whose partner has posted something to keep.
pub fn commit_some(random: &mut Random, parties: &mut [Party]) {
    for party in 0..parties.len() {
        let Place::Trying(own) = parties[party].place else {
            continue;
        };
        let count = parties[parties[party].guards[own].partner].posted.len();
        if count > 0 && random.one_in(2) {
            let kept = random.below(count);
            parties[party].place = Place::Committed { own, kept };
        }
    }
}

/// The same list but for one byte of some guards.
pub fn with_others(random: &mut Random, list: &[Guard], byte: ByteOf) -> Vec<Guard> {
    let mut list = list.to_vec();
    for guard in &mut list {
        let byte = byte(guard);
        *byte = match random.below(4) {
            0 => byte.wrapping_add(1),
            1 => *byte ^ 0x80,
            2 => random.byte(),
            _ => *byte,
        };
    }
    list
}
