//! Ranks: which of several matching guards rule 7 and the book keep, and what
//! does not look at ranks.

use crate::by_value::compare_step;
use crate::tools::{
    about_to_try, disabled, enter_commit, enter_offer, fresh, indexed, of_kind, of_rank, outcome,
    receive, send, steps, with_tickets_given, Xorshift,
};
use model::guard::{best_match, guards_match, lists_match};
use model::{Book, Desk, Entry, Guard, Meeting, Message, Place, Stuck, Ticket};

/// What one task sends: the alarm is to beat the trend line.
const TREND: Message = Message::Whole(18);
const ALARM: Message = Message::Whole(-1);

/// Few ranks, so that many guards of a list are equal in rank.
const RANKS: [u8; 3] = [0, 1, 255];

/// A guard of party 1's list, and whether it matches party 0's `receive(1)`.
#[derive(Clone, Copy, Debug)]
struct Choice {
    matches: bool,
    guard: Guard,
}

/// Those that match come first. Each of the others lacks one thing.
fn choices() -> Vec<Choice> {
    let alike = send(0, TREND);
    let forms = [
        (true, alike),
        (false, disabled(alike)),
        (false, of_kind(1, alike)),
        (false, send(2, TREND)),
        (false, receive(0)),
    ];
    let with_ranks = |(matches, guard)| {
        RANKS.map(|rank| Choice {
            matches,
            guard: of_rank(rank, guard),
        })
    };
    forms.into_iter().flat_map(with_ranks).collect()
}

/// Guards that match, with these ranks.
fn matching(ranks: &[u8]) -> Vec<Choice> {
    let choice = |&rank| Choice {
        matches: true,
        guard: of_rank(rank, send(0, TREND)),
    };
    ranks.iter().map(choice).collect()
}

fn guards(list: &[Choice]) -> Vec<Guard> {
    list.iter().map(|choice| choice.guard).collect()
}

/// Every list of so many choices: the choices are the digits of a number.
fn lists(length: u32) -> impl Iterator<Item = Vec<Choice>> {
    let choices = choices();
    let base = choices.len();
    (0..base.pow(length)).map(move |number| {
        let digit = |place| number / base.pow(place) % base;
        (0..length).map(|place| choices[digit(place)]).collect()
    })
}

/// Request 5's sentence about one guard of a list: it matches, and each other
/// matching one is of less rank, or of the same rank and later.
fn is_kept(list: &[Choice], index: usize) -> bool {
    let rank = list[index].guard.rank;
    let is_beaten = |other: usize| {
        let other_rank = list[other].guard.rank;
        other_rank < rank || (other_rank == rank && other > index)
    };
    list[index].matches
        && (0..list.len())
            .filter(|&other| other != index && list[other].matches)
            .all(is_beaten)
}

/// The one index of which the sentence holds; none if no guard matches.
fn kept(list: &[Choice]) -> Option<usize> {
    let indexes = (0..list.len()).filter(|&index| is_kept(list, index));
    let indexes: Vec<usize> = indexes.collect();
    let any_matches = list.iter().any(|choice| choice.matches);
    assert_eq!(indexes.len(), usize::from(any_matches), "{list:?}");
    indexes.first().copied()
}

fn check_search(list: &[Choice]) {
    let found = best_match(0, &receive(1), &guards(list));
    assert_eq!(found, kept(list), "{list:?}");
}

/// Party 0 commits in the book to party 1, whose open offer is the list.
fn check_book(list: &[Choice]) {
    let mut book = Book::default();
    enter_offer(&mut book, 1, &guards(list));
    enter_offer(&mut book, 0, &[receive(1)]);
    let entry = enter_commit(&mut book, 0, 0);
    let met = match entry {
        Ok(Entry::Met(meeting)) => Some(meeting.j),
        _ => None,
    };
    assert_eq!(met, kept(list), "{list:?}");
    assert_eq!(book.due(1).map(|due| due.index), met);
}

/// Party 0 tries party 1, which has posted the list, on both desks.
fn check_desks(list: &[Choice]) {
    let mut desk = with_tickets_given(2, fresh(3));
    desk.parties[0].guards = vec![receive(1)];
    desk.parties[0].place = Place::Trying(0);
    desk.parties[1].posted = guards(list);
    desk.parties[1].wake_count = 0;
    compare_step(&mut desk, 0);
    let place = match kept(list) {
        Some(kept) => Place::Committed { own: 0, kept },
        None => Place::Posting,
    };
    assert_eq!(desk.parties[0].place, place, "{list:?}");
}

#[test]
fn short_lists() {
    for list in (0..=4).flat_map(lists) {
        check_search(&list);
        check_book(&list);
    }
    for list in (0..=3).flat_map(lists) {
        check_desks(&list);
    }
}

#[test]
fn long_lists() {
    let mut random = Xorshift::new(0x5555_5678_9abc_def1);
    let choices = choices();
    // At least every second guard matches, so that ranks often decide.
    let mut choice = |_| match random.one_in(2) {
        true => choices[random.below(RANKS.len())],
        false => choices[random.below(choices.len())],
    };
    for _ in 0..2000 {
        let list: Vec<Choice> = (0..8).map(&mut choice).collect();
        check_search(&list);
        check_book(&list);
        check_desks(&list);
    }
}

#[test]
fn every_two_ranks() {
    for a in 0..=255 {
        for b in 0..=255 {
            let list = guards(&matching(&[a, b]));
            // The second one has to be greater.
            let kept = usize::from(b > a);
            assert_eq!(best_match(0, &receive(1), &list), Some(kept), "{a} {b}");
        }
    }
}

#[test]
fn both_desks_tell_every_rank_from_the_next() {
    for rank in 0..255 {
        check_desks(&matching(&[rank, rank + 1]));
        check_desks(&matching(&[rank + 1, rank]));
        check_desks(&matching(&[rank, rank]));
    }
    check_desks(&matching(&[255, 255]));
    // The two halves of the range, and ranks that agree in some of their bits.
    for ranks in [[127, 128], [0, 255], [1, 129], [16, 15], [85, 170]] {
        check_desks(&matching(&ranks));
    }
}

#[test]
fn equal_ranks_keep_the_first() {
    for rank in 0..=255 {
        let list = matching(&[rank; 8]);
        assert_eq!(kept(&list), Some(0));
        check_search(&list);
    }
    // Two greatest ones, neither first nor last in the list.
    let list = guards(&matching(&[3, 9, 4, 9, 1]));
    assert_eq!(best_match(0, &receive(1), &list), Some(1));
}

#[test]
fn a_greater_rank_that_does_not_match_is_passed_over() {
    let highest = |guard| of_rank(255, guard);
    let (low, high) = (of_rank(1, send(0, TREND)), of_rank(2, send(0, ALARM)));
    let passed_over = [
        disabled(highest(high)),
        of_kind(1, highest(high)),
        highest(send(2, ALARM)),
        highest(receive(0)),
    ];
    let search = |list: &[Guard]| best_match(0, &receive(1), list);
    for guard in passed_over {
        assert_eq!(search(&[guard]), None, "{guard:?}");
        assert_eq!(search(&[guard, low, high]), Some(2), "{guard:?}");
        assert_eq!(search(&[low, guard, high]), Some(2), "{guard:?}");
        assert_eq!(search(&[low, high, guard]), Some(1), "{guard:?}");
        assert_eq!(search(&[high, low, guard]), Some(0), "{guard:?}");
    }
}

#[test]
fn receiving_guards_are_kept_by_rank_too() {
    let list = [0, 7, 7, 5].map(|rank| of_rank(rank, receive(0)));
    assert_eq!(best_match(0, &send(1, TREND), &list), Some(1));
    let mut desk = about_to_try(send(1, TREND), &list);
    assert_eq!(steps(&mut desk, 0, 2), ["C0", "M"]);
    assert_eq!(desk.parties[1].signal, Some(indexed(1, TREND)));
}

#[test]
fn the_own_rank_does_not_matter() {
    let list = guards(&matching(&[3, 9, 4, 9]));
    for rank in 0..=255 {
        let own = of_rank(rank, receive(1));
        assert_eq!(best_match(0, &own, &list), Some(1), "{rank}");
    }
}

#[test]
fn matching_does_not_look_at_ranks() {
    for a in 0..=255 {
        for b in 0..=255 {
            let sender = of_rank(a, send(7, TREND));
            let receiver = of_rank(b, receive(3));
            assert!(guards_match(3, &sender, 7, &receiver), "{a} {b}");
            assert!(lists_match(7, &[receiver], 3, &[sender]), "{a} {b}");
            let other = of_kind(1, receiver);
            assert!(!guards_match(3, &sender, 7, &other), "{a} {b}");
        }
    }
}

fn trend() -> Guard {
    send(0, TREND)
}

fn alarm() -> Guard {
    of_rank(1, send(0, ALARM))
}

/// Party 1 waits with this list; party 0, which has one guard, gets the alarm
/// from the guard at this index.
fn check_alarm(posted: &[Guard], kept: usize) {
    let mut desk = about_to_try(receive(1), posted);
    assert_eq!(steps(&mut desk, 0, 1), ["C0"]);
    assert_eq!(desk.parties[0].place, Place::Committed { own: 0, kept });
    assert_eq!(desk.parties[1].wake_count, 1);
    assert_eq!(steps(&mut desk, 0, 1), ["M"]);
    assert_eq!(steps(&mut desk, 1, 1), ["M"]);
    assert_eq!(desk.collect(0), Ok(outcome(0, 1, ALARM)));
    assert_eq!(desk.collect(1), Ok(outcome(kept, 0, Message::Nothing)));
}

#[test]
fn the_alarm_beats_the_trend_line() {
    check_alarm(&[alarm(), trend()], 0);
    check_alarm(&[trend(), alarm()], 1);
    check_alarm(&[trend(), trend(), alarm(), trend(), alarm()], 2);
    let greater = of_rank(255, trend());
    check_alarm(&[disabled(greater), of_kind(1, greater), alarm()], 2);
}

/// Parties 1 and 2 wait, each with the trend line for party 0; party 0 offers.
fn about_to_scan(own: &[Guard]) -> Desk {
    let mut desk = fresh(3);
    for party in [1, 2] {
        desk.offer(party, &[trend()]).unwrap();
        assert_eq!(steps(&mut desk, party, 5), ["A0", "P", "O", "H", "W"]);
    }
    desk.offer(0, own).unwrap();
    desk
}

#[test]
fn the_scanning_side_goes_by_list_order() {
    for a in RANKS {
        for b in RANKS {
            let (first, second) = (of_rank(a, receive(1)), of_rank(b, receive(2)));
            let mut desk = about_to_scan(&[first, second]);
            assert_eq!(steps(&mut desk, 0, 4), ["A0", "T0", "C0", "M"]);
            // Guard 0 is of a kind that nobody sends, guard 1 is disabled.
            let passed = [of_kind(1, second), disabled(second)];
            let mut desk = about_to_scan(&[passed[0], passed[1], first, second]);
            let places = ["A0", "T0", "A2", "T2", "C2", "M"];
            assert_eq!(steps(&mut desk, 0, 6), places);
        }
    }
}

#[test]
fn two_own_guards_for_one_partner_go_by_list_order() {
    // Both match all that is posted: the own one is the first, whatever its
    // rank, and the kept one goes by the posted ranks.
    for ranks in [[0, 255], [255, 0], [1, 1]] {
        let mut desk = fresh(2);
        desk.offer(1, &[trend(), alarm()]).unwrap();
        assert_eq!(steps(&mut desk, 1, 6), ["A0", "A1", "P", "O", "H", "W"]);
        desk.offer(0, &ranks.map(|rank| of_rank(rank, receive(1))))
            .unwrap();
        assert_eq!(steps(&mut desk, 0, 3), ["A0", "T0", "C0"]);
        let place = Place::Committed { own: 0, kept: 1 };
        assert_eq!(desk.parties[0].place, place);
    }
}

#[test]
fn lists_keep_the_ranks_of_all_guards() {
    let list = [
        disabled(of_rank(7, receive(1))),
        of_rank(255, send(1, TREND)),
        disabled(receive(1)),
        disabled(of_rank(128, send(1, TREND))),
    ];
    let ranks = |list: &[Guard]| -> Vec<u8> { list.iter().map(|guard| guard.rank).collect() };
    let mut desk = fresh(2);
    desk.offer(0, &list).unwrap();
    assert_eq!(ranks(&desk.parties[0].guards), [7, 255, 0, 128]);
    assert_eq!(steps(&mut desk, 0, 3), ["A1", "P", "O"]);
    assert_eq!(ranks(&desk.parties[0].posted), [7, 255, 0, 128]);
    assert_eq!(ranks(&desk.open_offers()[0].guards), [7, 255, 0, 128]);
    let mut book = Book::default();
    enter_offer(&mut book, 0, &list);
    assert_eq!(ranks(&book.open_offers()[0].guards), [7, 255, 0, 128]);
}

#[test]
fn rule_9_hands_over_the_kept_guard_whatever_the_ranks() {
    // Only a damaged desk has kept a guard that another one beats.
    let mut desk = about_to_try(receive(1), &[trend(), alarm()]);
    desk.parties[0].place = Place::Committed { own: 0, kept: 0 };
    assert_eq!(steps(&mut desk, 0, 1), ["M"]);
    assert_eq!(desk.parties[0].place, Place::Met(indexed(0, TREND)));
    let signal = Some(indexed(0, Message::Nothing));
    assert_eq!(desk.parties[1].signal, signal);
}

#[test]
fn the_book_keeps_the_alarm() {
    let mut book = Book::default();
    enter_offer(&mut book, 1, &[trend(), alarm()]);
    enter_offer(&mut book, 0, &[receive(1)]);
    let meeting = Meeting {
        p_ticket: Ticket(1),
        q_ticket: Ticket(0),
        p: 0,
        i: 0,
        q: 1,
        j: 1,
        message: ALARM,
    };
    assert_eq!(enter_commit(&mut book, 0, 0), Ok(Entry::Met(meeting)));
    assert_eq!(book.due(0), Some(outcome(0, 1, ALARM)));
    assert_eq!(book.due(1), Some(outcome(1, 0, Message::Nothing)));
}

#[test]
fn the_book_takes_the_committers_guard_as_named() {
    // The alarm's task commits with its trend line; of the receiver's guards
    // two share the greatest rank.
    let receivers = [0, 3, 3].map(|rank| of_rank(rank, receive(1)));
    let mut book = Book::default();
    enter_offer(&mut book, 0, &receivers);
    enter_offer(&mut book, 1, &[trend(), alarm()]);
    let meeting = Meeting {
        p_ticket: Ticket(1),
        q_ticket: Ticket(0),
        p: 1,
        i: 0,
        q: 0,
        j: 1,
        message: TREND,
    };
    assert_eq!(enter_commit(&mut book, 1, 0), Ok(Entry::Met(meeting)));
    assert_eq!(book.due(0), Some(outcome(1, 1, TREND)));
    assert_eq!(book.due(1), Some(outcome(0, 0, Message::Nothing)));
}

#[test]
fn no_rank_makes_the_book_find_a_match() {
    let mut book = Book::default();
    enter_offer(&mut book, 1, &[of_rank(255, of_kind(1, trend()))]);
    enter_offer(&mut book, 0, &[of_rank(255, receive(1))]);
    let stuck = Stuck::NoMatch { party: 0, index: 0 };
    assert_eq!(enter_commit(&mut book, 0, 0), Err(stuck));
}
