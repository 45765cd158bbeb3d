//! Refusal 7: what it looks at, and what it leaves alone.

use crate::tools::{disabled, fresh, indexed, of_kind, of_rank, receive, send, with_tickets_given};
use model::{Desk, Message, Party, Place, Refusal, Ticket};

/// Three idle parties in form, all with lists; each may be given an open offer.
fn desk() -> Desk {
    let mut desk = with_tickets_given(3, fresh(3));
    desk.parties[0].guards = vec![receive(1), receive(2)];
    desk.parties[0].posted = vec![receive(2), receive(1), receive(1)];
    desk.parties[1].guards = vec![receive(0)];
    desk.parties[1].posted = vec![receive(2), receive(0)];
    desk.parties[2].guards = vec![receive(0), receive(1), receive(0)];
    desk.parties[2].posted = vec![receive(0)];
    desk
}

/// Every call is refused by 7, whatever else is wrong, and changes nothing.
fn check_out_of_form(what: &str, damage: impl Fn(&mut Desk)) {
    let mut damaged = desk();
    damage(&mut damaged);
    let before = damaged.clone();
    for party in [0, 1, 2, 3, 255, usize::MAX] {
        let refused = Refusal::OutOfForm;
        assert_eq!(damaged.offer(party, &[]), Err(refused), "{what}");
        let offered = damaged.offer(party, &[receive(1)]);
        assert_eq!(offered, Err(refused), "{what}");
        assert_eq!(damaged.step(party), Err(refused), "{what}");
        assert_eq!(damaged.collect(party), Err(refused), "{what}");
        assert_eq!(damaged.withdraw(party), Err(refused), "{what}");
    }
    assert_eq!(damaged.movers(), Err(Refusal::OutOfForm), "{what}");
    assert!(!damaged.at_rest(), "{what}: no set is given");
    assert_eq!(damaged, before, "{what}");
}

fn check_in_form(what: &str, change: impl Fn(&mut Desk)) {
    let mut changed = desk();
    change(&mut changed);
    assert!(changed.movers().is_ok(), "{what}");
    assert!(changed.step(2).is_ok(), "{what}");
}

#[test]
fn party_count_out_of_form() {
    for n in [0, 1, 33, 200, usize::MAX] {
        check_out_of_form("n", |d| d.n = n);
    }
    // With 33 records a count of 33 is still out of form.
    check_out_of_form("n with records", |d| {
        d.n = 33;
        d.parties = vec![Party::fresh(); 33];
    });
    check_out_of_form("too few records", |d| d.n = 4);
    check_out_of_form("no records", |d| d.parties.clear());
}

#[test]
fn lists_out_of_form() {
    check_out_of_form("nine", |d| d.parties[1].guards = vec![receive(0); 9]);
    check_out_of_form("nine", |d| d.parties[1].posted = vec![receive(0); 9]);
    check_out_of_form("many", |d| d.parties[2].guards = vec![receive(0); 300]);
    for partner in [1, 3, 255, usize::MAX] {
        let wrong = disabled(send(partner, Message::Nothing));
        check_out_of_form("partner", |d| d.parties[1].guards.push(wrong));
        check_out_of_form("partner", |d| d.parties[1].posted.push(wrong));
    }
}

#[test]
fn indexes_out_of_form() {
    // Party 1 has one own guard and two posted ones: 1 is out of its own list.
    for index in [1, 2, 255, usize::MAX] {
        let pair = indexed(index, Message::Nothing);
        for place in [
            Place::Scanning(index),
            Place::Trying(index),
            Place::Committed {
                own: index,
                kept: 0,
            },
            Place::Met(pair),
        ] {
            check_out_of_form("place", |d| d.parties[1].place = place);
        }
        check_out_of_form("signal", |d| d.parties[1].signal = Some(pair));
    }
    // An empty own list has no index at all.
    check_out_of_form("no guards", |d| {
        d.parties[1].guards.clear();
        d.parties[1].place = Place::Scanning(0);
    });
}

#[test]
fn kept_indexes_out_of_form() {
    // Party 2's guard 0 names party 0, whose posted list has three guards and
    // whose own list has two; its guard 1 names party 1 with two posted.
    for (own, kept) in [(0, 3), (1, 2), (2, 3), (0, usize::MAX)] {
        let place = Place::Committed { own, kept };
        check_out_of_form("kept", |d| d.parties[2].place = place);
    }
    for (own, kept) in [(0, 2), (1, 1), (2, 2)] {
        let place = Place::Committed { own, kept };
        check_in_form("kept", |d| d.parties[2].place = place);
    }
}

#[test]
fn what_the_form_leaves_alone() {
    check_in_form("nothing", |_| ());
    check_in_form("eight", |d| d.parties[1].guards = vec![receive(0); 8]);
    check_in_form("eight", |d| d.parties[1].posted = vec![receive(0); 8]);
    let nan = send(0, Message::Reading(f32::NAN));
    check_in_form("NaN", |d| d.parties[1].guards = vec![nan; 2]);
    check_in_form("NaN", |d| d.parties[1].posted = vec![nan]);
    let kinds = vec![of_kind(1, receive(0)), of_kind(255, receive(0))];
    check_in_form("kinds", |d| d.parties[1].guards = kinds.clone());
    check_in_form("kinds", |d| d.parties[1].posted = kinds.clone());
    let ranks = vec![of_rank(1, receive(0)), of_rank(255, receive(0))];
    check_in_form("ranks", |d| d.parties[1].guards = ranks.clone());
    check_in_form("ranks", |d| d.parties[1].posted = ranks.clone());
    check_in_form("equal tickets", |d| {
        d.parties[1].ticket = d.parties[0].ticket
    });
    check_in_form("a later ticket than the next", |d| {
        d.parties[1].ticket = Ticket(u32::MAX);
    });
    check_in_form("wake count", |d| d.parties[0].wake_count = 0);
    // Index 2 is in party 2's own list, though not in its posted one.
    let pair = indexed(2, Message::Whole(1));
    check_in_form("signal", |d| d.parties[2].signal = Some(pair));
    check_in_form("outcome", |d| d.parties[2].place = Place::Met(pair));
    check_in_form("A, disabled", |d| {
        d.parties[2].guards[2] = disabled(receive(0));
        d.parties[2].place = Place::Scanning(2);
    });
    // A record beyond n is no party's.
    check_in_form("beyond n", |d| {
        d.parties.push(Party::fresh());
        d.parties[3].guards = vec![receive(99); 12];
        d.parties[3].place = Place::Scanning(50);
    });
}
