//! The model's desk that is changed in place.

use crate::plan::{given_up, moved, Call, Plan, Setting, MEETING, NAP, NEXT_TICKET, REFUSED};
use model::{Action, Desk, Guard, IndexedMessage, Message, Party, Place, Ticket};

pub fn run(plan: Plan, at: Setting, calls: u64) -> u64 {
    let mut desk = start(plan, at);
    let first = desk.parties[0].place;
    let mut sum: u64 = 0;
    let mut turn = 0;
    for _ in 0..calls {
        let number = match plan.call(turn) {
            Call::Offer(party) => {
                let party = usize::from(party);
                let answer = desk.offer(party, &[guard_of(party)]);
                answer.map_or(REFUSED, |ticket| u64::from(ticket.0))
            }
            Call::Step(party) => {
                let answer = desk.step(usize::from(party));
                answer.map_or(REFUSED, |place| moved(place.is_some()))
            }
            Call::Collect(party) => {
                let answer = desk.collect(usize::from(party));
                answer.map_or(REFUSED, |outcome| outcome.partner as u64)
            }
            Call::Withdraw(party) => {
                let answer = desk.withdraw(usize::from(party));
                answer.map_or(REFUSED, given_up)
            }
            Call::Movers => desk.movers_by_rule().map_or(REFUSED, u64::from),
        };
        sum = sum.wrapping_add(number);
        if plan.resets() {
            desk.parties[0].place = first;
        }
        turn = (turn + 1) % MEETING;
    }
    sum
}

fn guard_of(party: usize) -> Guard {
    let (partner, action) = match party {
        0 => (1, Action::Send(Message::Reading(4.72))),
        _ => (0, Action::Receive),
    };
    Guard {
        enabled: true,
        partner,
        kind: 0,
        rank: 0,
        action,
    }
}

fn start(plan: Plan, at: Setting) -> Desk {
    let waiting = vec![guard_of(1); usize::from(at.load)];
    let waiter = Party {
        guards: waiting.clone(),
        posted: waiting,
        wake_count: 0,
        place: Place::Waiting,
        ..Party::fresh()
    };
    let mut desk = Desk::new(usize::from(at.n), NAP).expect("2 to 32 parties are made");
    desk.next_ticket = Ticket(NEXT_TICKET);
    desk.parties = vec![waiter; usize::from(at.n)];
    desk.parties[0] = starter(plan, 0);
    desk.parties[1] = starter(plan, 1);
    desk
}

fn starter(plan: Plan, party: usize) -> Party {
    let place = match plan {
        Plan::Meeting | Plan::Offer => return Party::fresh(),
        Plan::Collect => Place::Met(IndexedMessage {
            index: 0,
            message: Message::Nothing,
        }),
        Plan::Step | Plan::StepSame | Plan::Movers | Plan::Withdraw => Place::Scanning(0),
    };
    Party {
        guards: vec![guard_of(party)],
        ticket: Ticket(party as u32),
        place,
        ..Party::fresh()
    }
}
