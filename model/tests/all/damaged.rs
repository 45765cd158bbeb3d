//! Every call on random damaged desks: nothing panics, each call is refused
//! only by its own refusals, and a refused call leaves the desk bit for bit.

use crate::draw::Draw;
use model::{Desk, Withdrawal};

/// Makes one call on a copy; gives the refusal's number, or 0.
fn refused<T>(
    desk: &Desk,
    known: &[u8],
    call: impl FnOnce(&mut Desk) -> Result<T, model::Refusal>,
) -> u8 {
    let mut copy = desk.clone();
    let Err(refusal) = call(&mut copy) else {
        return 0;
    };
    assert_eq!(copy, *desk, "a refused call leaves the desk");
    assert!(known.contains(&refusal.number()), "{refusal:?}");
    refusal.number()
}

/// Makes every call. On a desk out of form each gives 7, otherwise none does.
fn check_calls(draw: &mut Draw, desk: &Desk) -> bool {
    let movers = desk.movers();
    let out_of_form = refused(desk, &[7], |d| d.movers()) == 7;
    let open = desk.open_offers();
    assert!(open.iter().all(|offer| offer.party < desk.n));
    assert_eq!(desk.open_count(), open.len());
    assert_eq!(desk.at_rest(), movers == Ok(0));
    for party in [0, 1, 2, 3, 4, 5, 31, 32, 255, usize::MAX] {
        let guards = draw.list(party.min(255), desk.n.min(255));
        let offer = [2, 3, 4, 5, 6, 7, 11, 12];
        for number in [
            refused(desk, &[2, 7], |d| d.step(party)),
            refused(desk, &[2, 7, 13], |d| d.collect(party)),
            refused(desk, &[2, 7, 14], |d| d.withdraw(party)),
            refused(desk, &offer, |d| d.offer(party, &guards)),
        ] {
            assert_eq!(number == 7, out_of_form);
            assert!(out_of_form || (number == 2) == (party >= desk.n));
        }
        check_step(desk, party, movers.unwrap_or(0));
        check_withdrawal(desk, party);
    }
    out_of_form
}

/// A step says a place exactly if it changes the desk, which is the party's
/// bit among the movers; and it names the place where the party then stands.
fn check_step(desk: &Desk, party: usize, movers: u32) {
    let mut stepped = desk.clone();
    let Ok(answer) = stepped.step(party) else {
        return;
    };
    assert_eq!(answer.is_some(), stepped != *desk);
    assert_eq!(answer.is_some(), movers >> party & 1 == 1);
    if let Some(answer) = answer {
        assert_eq!(answer, stepped.parties[party].place.answer());
    }
}

/// A withdrawal is answered "withdrawn" exactly if the party's offer was open,
/// and then that offer is open no more; "too late" changes nothing.
fn check_withdrawal(desk: &Desk, party: usize) {
    let mut after = desk.clone();
    let Ok(answer) = after.withdraw(party) else {
        return;
    };
    let mut open = desk.open_offers();
    let was_open = open.iter().any(|offer| offer.party == party);
    assert_eq!(answer == Withdrawal::Withdrawn, was_open);
    assert_eq!(answer == Withdrawal::TooLate, after == *desk);
    open.retain(|offer| offer.party != party);
    assert_eq!(after.open_offers(), open);
}

/// Checks so many desks and gives how many of them were out of form.
fn count_out_of_form(seed: u64, wild: usize, desks: usize) -> usize {
    let mut draw = Draw::new(seed, wild);
    let mut count = 0;
    for _ in 0..desks {
        let desk = draw.desk();
        count += usize::from(check_calls(&mut draw, &desk));
    }
    count
}

#[test]
fn desks_without_wild_draws_are_in_form() {
    assert_eq!(count_out_of_form(0x1234_5678_9abc_def1, 0, 1000), 0);
}

#[test]
fn rarely_wild_desks() {
    // About 100 draws make a desk: one wild one in 200 leaves many of both.
    let count = count_out_of_form(0x2234_5678_9abc_def1, 200, 1000);
    assert!((100..900).contains(&count), "{count}");
}

#[test]
fn often_wild_desks() {
    let count = count_out_of_form(0x3234_5678_9abc_def1, 5, 500);
    assert!(count > 400, "{count}");
}
