//! The model's desk by value: each call takes it and hands it back.

use crate::plan::{given_up, moved, Call, Plan, Setting, MEETING, NAP, NEXT_TICKET, REFUSED};
use model::by_value::{Desk, Guard, GuardList, IndexedMessage, Party, Place};
use model::by_value::{MOST_GUARDS, MOST_PARTIES};
use model::{Action, Message, Ticket};

pub fn run(plan: Plan, at: Setting, calls: u64) -> u64 {
    let mut desk = start(plan, at);
    let first = desk.parties[0];
    let mut sum: u64 = 0;
    let mut turn = 0;
    for _ in 0..calls {
        let number = match plan.call(turn) {
            Call::Offer(party) => {
                let (answer, after) = desk.offer(party, &[guard_of(party)]);
                desk = after;
                answer.map_or(REFUSED, |ticket| u64::from(ticket.0))
            }
            Call::Step(party) => {
                let (answer, after) = desk.step(party);
                desk = after;
                answer.map_or(REFUSED, |place| moved(place.is_some()))
            }
            Call::Collect(party) => {
                let (answer, after) = desk.collect(party);
                desk = after;
                answer.map_or(REFUSED, |outcome| u64::from(outcome.partner))
            }
            Call::Withdraw(party) => {
                let (answer, after) = desk.withdraw(party);
                desk = after;
                answer.map_or(REFUSED, given_up)
            }
            Call::Movers => {
                let (answer, after) = desk.movers();
                desk = after;
                answer.map_or(REFUSED, u64::from)
            }
        };
        sum = sum.wrapping_add(number);
        if plan.resets() {
            desk.parties[0] = first;
        }
        turn = (turn + 1) % MEETING;
    }
    sum
}

fn guard_of(party: u8) -> Guard {
    let (partner, action) = match party {
        0 => (1, Action::Send(Message::Reading(4.72))),
        _ => (0, Action::Receive),
    };
    Guard {
        enabled: true,
        partner,
        kind: 0,
        rank: 0,
        action,
    }
}

fn start(plan: Plan, at: Setting) -> Desk {
    let waiting = GuardList {
        count: at.load,
        slots: [guard_of(1); MOST_GUARDS],
    };
    let waiter = Party {
        guards: waiting,
        posted: waiting,
        wake_count: 0,
        place: Place::Waiting,
        ..Party::FRESH
    };
    let mut desk = Desk::new(at.n, NAP).expect("2 to 32 parties are made");
    desk.next_ticket = Ticket(NEXT_TICKET);
    desk.parties = [waiter; MOST_PARTIES];
    desk.parties[0] = starter(plan, 0);
    desk.parties[1] = starter(plan, 1);
    desk
}

fn starter(plan: Plan, party: u8) -> Party {
    let place = match plan {
        Plan::Meeting | Plan::Offer => return Party::FRESH,
        Plan::Collect => Place::Met(IndexedMessage {
            index: 0,
            message: Message::Nothing,
        }),
        Plan::Step | Plan::StepSame | Plan::Movers | Plan::Withdraw => Place::Scanning(0),
    };
    Party {
        guards: GuardList::copied(&[guard_of(party)]),
        ticket: Ticket(u32::from(party)),
        place,
        ..Party::FRESH
    }
}
