//! Naps: how long a sleeper stays, what it shows meanwhile, which desks are
//! made, and what refusal 7 says. Both models make every step here.

use crate::by_value::{check_out_of_form, compare_each, compare_movers, compare_withdraw};
use crate::tools::{
    check_script, disabled, fresh_with_nap, outcome, receive, send, steps, with_tickets_given,
};
use model::script::run;
use model::{by_value, Desk, Guard, Message, Place, Refusal, Ticket, Withdrawal, Word};

const SEVEN: Message = Message::Whole(7);

/// Steps one party in both models and gives the answers as the script writes
/// them.
fn step_both(desk: &mut Desk, party: u8, count: usize) -> Vec<String> {
    let step = |_| {
        compare_each(desk, party);
        steps(desk, party.into(), 1)
    };
    (0..count).flat_map(step).collect()
}

/// Each of two parties stands at A on the other; party 0 is older.
fn crossed(nap: u8) -> Desk {
    let mut desk = fresh_with_nap(2, nap);
    desk.offer(0, &[send(1, SEVEN)]).unwrap();
    desk.offer(1, &[receive(0)]).unwrap();
    assert_eq!(step_both(&mut desk, 0, 1), ["A0"]);
    assert_eq!(step_both(&mut desk, 1, 1), ["A0"]);
    desk
}

/// Party 0 stays at A; party 1 has fallen asleep by rule 5.
fn asleep(nap: u8) -> Desk {
    let mut desk = crossed(nap);
    assert_eq!(step_both(&mut desk, 1, 1), ["S"]);
    assert_eq!(desk.parties[1].place, Place::Asleep(0));
    desk
}

/// As `asleep`, where party 1 has made so many steps at S.
fn asleep_after(made: u8, nap: u8) -> Desk {
    let mut desk = asleep(nap);
    desk.parties[1].place = Place::Asleep(made);
    desk
}

#[test]
fn a_short_nap_ends_at_its_last_step() {
    assert_eq!(step_both(&mut asleep(1), 1, 1), ["A0"]);
    assert_eq!(step_both(&mut asleep(2), 1, 2), ["S", "A0"]);
    assert_eq!(step_both(&mut asleep(3), 1, 3), ["S", "S", "A0"]);
}

#[test]
fn the_longest_nap_ends_at_its_last_step() {
    let mut desk = asleep(255);
    assert_eq!(step_both(&mut desk, 1, 254), ["S"; 254]);
    assert_eq!(desk.parties[1].place, Place::Asleep(254));
    assert_eq!(step_both(&mut desk, 1, 1), ["A0"]);
}

#[test]
fn a_second_sleep_counts_from_0_again() {
    let mut desk = asleep(3);
    // Party 0 still stands at A, so party 1 falls asleep on it once more.
    assert_eq!(step_both(&mut desk, 1, 4), ["S", "S", "A0", "S"]);
    assert_eq!(desk.parties[1].place, Place::Asleep(0));
    assert_eq!(step_both(&mut desk, 1, 3), ["S", "S", "A0"]);
}

#[test]
fn an_earlier_step_counts_and_changes_nothing_else() {
    let mut desk = asleep(3);
    for made in [1, 2] {
        let mut expected = desk.clone();
        expected.parties[1].place = Place::Asleep(made);
        assert_eq!(step_both(&mut desk, 1, 1), ["S"]);
        assert_eq!(desk, expected);
    }
}

#[test]
fn an_earlier_step_does_not_look_at_the_list() {
    // Only a damaged desk has a sleeper without an enabled guard.
    for guards in [vec![], vec![disabled(receive(0))]] {
        let mut desk = asleep(2);
        desk.parties[1].guards = guards;
        assert_eq!(step_both(&mut desk, 1, 2), ["S", "P"]);
    }
}

/// Party 1 wakes with this list; the place alone changes, so the ticket stays.
fn check_waking(guards: &[Guard], answer: &str, place: Place) {
    for nap in [1, 2, 3, 255] {
        let mut desk = asleep_after(nap - 1, nap);
        desk.parties[1].guards = guards.to_vec();
        let mut expected = desk.clone();
        expected.parties[1].place = place;
        assert_eq!(step_both(&mut desk, 1, 1), [answer]);
        assert_eq!(desk, expected);
    }
}

#[test]
fn the_last_step_goes_to_the_first_enabled_guard_or_to_posting() {
    let (on, off) = (receive(0), disabled(receive(0)));
    check_waking(&[on, on], "A0", Place::Scanning(0));
    check_waking(&[off, on, on], "A1", Place::Scanning(1));
    check_waking(&[off, off], "P", Place::Posting);
}

#[test]
fn a_sleeper_is_a_mover_at_every_step() {
    for (made, nap) in [(0, 1), (0, 2), (1, 2), (0, 3), (2, 3), (0, 255), (254, 255)] {
        let mut desk = asleep_after(made, nap);
        // Rule 3 moves party 0, whose partner sleeps.
        assert_eq!(desk.movers(), Ok(0b11));
        compare_movers(&desk);
        desk.parties[0].place = Place::Idle;
        assert_eq!(desk.movers(), Ok(0b10));
        compare_movers(&desk);
    }
}

#[test]
fn the_word_is_sleeping_through_the_whole_nap() {
    for made in [0, 1, 2] {
        let mut desk = asleep_after(made, 3);
        assert_eq!(desk.parties[1].place.word(), Word::Sleeping);
        assert_eq!(by_value::Place::Asleep(made).word(), Word::Sleeping);
        // Rule 3, and party 0 has no guard after this one.
        assert_eq!(step_both(&mut desk, 0, 1), ["P"]);
    }
}

#[test]
fn the_offer_is_open_through_the_whole_nap() {
    for made in [0, 1, 2] {
        let mut desk = asleep_after(made, 3);
        let open = desk.open_offers();
        let tickets: Vec<Ticket> = open.iter().map(|offer| offer.ticket).collect();
        assert_eq!(tickets, [Ticket(0), Ticket(1)]);
        assert_eq!(desk.offer(1, &[receive(0)]), Err(Refusal::NotIdle));
        assert_eq!(desk.collect(1), Err(Refusal::NotMet));
    }
}

#[test]
fn a_sleeper_withdraws_through_the_whole_nap() {
    for made in [0, 1, 2] {
        let mut desk = asleep_after(made, 3);
        // Only a damaged desk has wake count 0 here, which becomes 1.
        desk.parties[1].wake_count = 0;
        compare_withdraw(&mut desk.clone(), 1);
        let mut expected = desk.clone();
        expected.parties[1].wake_count = 1;
        expected.parties[1].place = Place::Idle;
        expected.withdrawn = 1;
        assert_eq!(desk.withdraw(1), Ok(Withdrawal::Withdrawn));
        assert_eq!(desk, expected);
    }
}

#[test]
fn a_nap_after_a_withdrawn_one_counts_from_0() {
    let mut desk = asleep(3);
    assert_eq!(step_both(&mut desk, 1, 2), ["S", "S"]);
    desk.withdraw(1).unwrap();
    desk.offer(1, &[receive(0)]).unwrap();
    let nap = ["A0", "S", "S", "S", "A0"];
    assert_eq!(step_both(&mut desk, 1, 5), nap);
}

#[test]
fn steps_of_others_do_not_count() {
    let mut desk = asleep(2);
    assert_eq!(step_both(&mut desk, 0, 5), ["P", "O", "H", "W", "="]);
    assert_eq!(desk.parties[1].place, Place::Asleep(0));
    assert_eq!(step_both(&mut desk, 1, 3), ["S", "A0", "T0"]);
}

#[test]
fn two_sleepers_count_apart() {
    let mut desk = fresh_with_nap(3, 3);
    desk.offer(0, &[receive(1)]).unwrap();
    assert_eq!(step_both(&mut desk, 0, 1), ["A0"]);
    for party in [1, 2] {
        desk.offer(party.into(), &[receive(0)]).unwrap();
        assert_eq!(step_both(&mut desk, party, 2), ["A0", "S"]);
    }
    assert_eq!(step_both(&mut desk, 1, 2), ["S", "S"]);
    assert_eq!(step_both(&mut desk, 2, 1), ["S"]);
    assert_eq!(step_both(&mut desk, 1, 1), ["A0"]);
    assert_eq!(step_both(&mut desk, 2, 2), ["S", "A0"]);
}

/// A round: so many steps of party 1, then one of party 0.
fn round(desk: &mut Desk, count: usize) -> String {
    let mut answers = step_both(desk, 1, count);
    answers.extend(step_both(desk, 0, 1));
    answers.join(" ")
}

#[test]
fn a_round_that_fits_the_nap_is_endless() {
    // Party 0 finds party 1 at A each time. The desk is the one before the
    // round, so that the same round can follow for ever.
    for (nap, answers) in [(1, "S A0 ="), (2, "S S A0 ="), (3, "S S S A0 =")] {
        let mut desk = crossed(nap);
        let before = desk.clone();
        assert_eq!(round(&mut desk, usize::from(nap) + 1), answers);
        assert_eq!(desk, before);
    }
}

/// Rounds of two steps of party 1, after which the seven has gone over.
fn check_rounds(nap: u8, rounds: [&str; 6]) {
    let mut desk = crossed(nap);
    for answers in rounds {
        assert_eq!(round(&mut desk, 2), answers);
    }
    assert_eq!(desk.collect(0), Ok(outcome(0, 1, Message::Nothing)));
    assert_eq!(desk.collect(1), Ok(outcome(0, 0, SEVEN)));
    assert!(desk.at_rest());
}

#[test]
fn the_endless_round_of_the_shortest_nap_ends_with_a_longer_one() {
    // Party 0 finds party 1 asleep in round 1, and so gets past A. Party 1
    // falls asleep again while 0 is on its way to W, and then tries it.
    let rounds = ["S S P", "A0 S O", "S A0 H", "S S W", "A0 T0 =", "C0 M M"];
    check_rounds(2, rounds);
    // Here the third step of a nap falls into the round after it.
    let rounds = ["S S P", "S A0 O", "S S H", "S A0 W", "T0 C0 =", "M = M"];
    check_rounds(3, rounds);
}

/// The refusal that both models give, if any.
fn refusal(n: u8, nap: u8) -> Option<Refusal> {
    let refusal = Desk::new(n.into(), nap).err();
    assert_eq!(by_value::Desk::new(n, nap).err(), refusal);
    refusal
}

#[test]
fn the_party_count_is_tested_before_the_nap_length() {
    for n in [0, 1, 33, 255] {
        for nap in [0, 1, 255] {
            assert_eq!(refusal(n, nap), Some(Refusal::PartyCount));
        }
    }
    for n in [2, 32] {
        assert_eq!(refusal(n, 0), Some(Refusal::Nap));
        for nap in [1, 2, 254, 255] {
            assert_eq!(refusal(n, nap), None);
        }
    }
}

#[test]
fn a_fresh_desk_has_its_nap_length() {
    for nap in [1, 2, 255] {
        assert_eq!(Desk::new(2, nap).unwrap().nap, nap);
        assert_eq!(by_value::Desk::new(2, nap).unwrap().nap, nap);
    }
}

#[test]
fn a_line_is_tested_for_8_then_1_then_15() {
    check_script(&[
        ("n 1 256", "x 8"),
        ("n 33 00", "x 8"),
        ("n 256 0", "x 8"),
        ("n 2 0 0", "x 8"),
        ("n 1 0 0", "x 8"),
        ("n 0 0", "x 1"),
        ("n 1 0", "x 1"),
        ("n 33 0", "x 1"),
        ("n 255 255", "x 1"),
        ("n 2 0", "x 15"),
        ("n 32 0", "x 15"),
        // None of these has made a desk.
        ("m", "x 8"),
        ("n 2 1", "n 2"),
        ("n 32 255", "n 32"),
        ("m", "m 00000000"),
    ]);
}

/// Party 1 has just fallen asleep, where the line makes a desk of two.
fn sleep_in_script(line: &str) -> [(&str, &str); 6] {
    [
        (line, "n 2"),
        ("o 0 1!w7", "o 0 t0"),
        ("o 1 0?", "o 1 t1"),
        ("s 0", "s 0 A0"),
        ("s 1", "s 1 A0"),
        ("s 1", "s 1 S"),
    ]
}

fn check_sleep(line: &str, pairs: &[(&str, &str)]) {
    check_script(&[&sleep_in_script(line), pairs].concat());
}

#[test]
fn a_nap_length_left_out_is_1() {
    for line in ["n 2", "n 2 1"] {
        check_sleep(line, &[("s 1", "s 1 A0"), ("s 1", "s 1 S")]);
    }
}

#[test]
fn a_refused_line_keeps_the_desk_with_its_nap() {
    check_sleep(
        "n 2 2",
        &[
            ("n 2 0", "x 15"),
            ("n 1 3", "x 1"),
            ("n 2 256", "x 8"),
            ("s 1", "s 1 S"),
            ("s 1", "s 1 A0"),
        ],
    );
}

#[test]
fn an_accepted_line_replaces_the_nap_length() {
    let naps = [("s 1", "s 1 S"), ("s 1", "s 1 S"), ("s 1", "s 1 A0")];
    let second = [sleep_in_script("n 2 3").as_slice(), &naps].concat();
    check_sleep("n 2 2", &second);
    check_sleep("n 2 3", &[&naps[..2], &sleep_in_script("n 2")].concat());
    check_sleep("n 2", &second);
}

#[test]
fn a_sleeper_in_a_script() {
    check_sleep(
        "n 2 3",
        &[
            ("s 1", "s 1 S"),
            ("m", "m 00000003"),
            ("w 0", "w 0 ok"),
            ("m", "m 00000002"),
            ("s 1", "s 1 S"),
            ("m", "m 00000002"),
            ("o 1 0?", "x 11"),
            ("c 1", "x 13"),
            ("s 1", "s 1 A0"),
            ("w 1", "w 1 ok"),
            ("m", "m 00000000"),
        ],
    );
}

#[test]
fn every_nap_length_is_read_as_written() {
    for nap in 1..=255 {
        let input = format!("n 2 {nap}\no 0 1?\no 1 0?\ns 0\ns 1\ns 1\n");
        let output = "n 2\no 0 t0\no 1 t1\ns 0 A0\ns 1 A0\ns 1 S\n";
        let input = input + &"s 1\n".repeat(nap);
        let output = output.to_string() + &"s 1 S\n".repeat(nap - 1) + "s 1 A0\n";
        assert_eq!(String::from_utf8_lossy(&run(input.as_bytes())), output);
    }
}

#[test]
fn a_desk_without_a_nap_length_is_out_of_form() {
    let mut desk = fresh_with_nap(2, 1);
    desk.nap = 0;
    check_out_of_form(&desk);
    let mut desk = asleep(1);
    desk.nap = 0;
    check_out_of_form(&desk);
}

#[test]
fn a_sleeper_past_its_nap_is_out_of_form() {
    for nap in [1, 2, 3, 254, 255] {
        check_out_of_form(&asleep_after(nap, nap));
        check_out_of_form(&asleep_after(nap.saturating_add(1), nap));
        check_out_of_form(&asleep_after(255, nap));
        let last = asleep_after(nap - 1, nap);
        assert!(last.movers().is_ok());
        compare_each(&last, 1);
    }
}

#[test]
fn every_party_below_n_is_looked_at_and_no_other_record() {
    for party in [0, 1, 30, 31] {
        let mut desk = with_tickets_given(1, fresh_with_nap(32, 2));
        desk.parties[party].place = Place::Asleep(2);
        check_out_of_form(&desk);
        desk.parties[party].place = Place::Asleep(1);
        assert_eq!(desk.movers(), Ok(1 << party));
        compare_movers(&desk);
    }
    let mut desk = fresh_with_nap(32, 2);
    desk.parties[31].place = Place::Asleep(255);
    desk.n = 31;
    assert_eq!(desk.movers(), Ok(0));
    compare_each(&desk, 1);
}
