//! What a call on a desk with these totals shows of 2 × meetings + withdrawn + open.

use crate::sum;
use model::{Call, Desk, Given, Party, Place, Withdrawal};

const BELOW_BY_1: &str = "a sum 1 below the next ticket is taken";
const EQUAL: &str = "a sum equal to the next ticket is taken";
const EQUAL_ALL_OPEN: &str = "such a sum with every offer open";
const EQUAL_NONE_OPEN: &str = "such a sum with none open";
const ABOVE_BY_1: &str = "a sum 1 above the next ticket is refused by 7";
const WRAPS_TO_0: &str = "a sum that is 0 in 64 bits is refused by 7";
const WRAPS_TO_1: &str = "a sum that is 1 in 64 bits is refused by 7";
const WRAPS_TO_NEXT: &str = "a sum that is the next ticket in 64 bits is refused by 7";
const TWICE_WRAPS: &str = "meetings that are 0 twice in 64 bits are refused by 7";
const WRAPS_IN_32: &str = "a sum that fits in 32 bits alone is refused by 7";
const H_COUNTED: &str = "one at H with wake count 0 is counted";
const W_COUNTED: &str = "one at W with wake count 0 is counted";
const H_LEFT_OUT: &str = "one at H with wake count 1 is not counted";
const W_LEFT_OUT: &str = "one at W with wake count 1 is not counted";
const PAST_LEFT_OUT: &str = "a record past the last process is not counted";
const COMMIT_EVEN: &str = "a commit that leaves the sum as it was";
const COMMIT_OVER: &str = "a commit that leaves the sum above the next ticket";
const COMMIT_OVER_ALL: &str = "a commit that leaves the sum above the last ticket";
const COMMIT_CARRIES: &str = "a commit with 255 meetings before it";
const ABSORBED: &str = "an absorption that leaves the sum as it was";
const ABSORBED_OPEN: &str = "an absorption that lowers the sum";
const OFFERED: &str = "an offer where the sum is the next ticket";
const WITHDRAWN: &str = "a withdrawal where the sum is the next ticket";
const WITHDRAWN_CARRIES: &str = "a withdrawal with 255 withdrawn before it";
const LATE: &str = "a withdrawal that is too late where the sum is the next ticket";
const NO_TICKET: &str = "12 where the sum is the last ticket";
/// For the call after a commit that leaves the sum above the next ticket.
pub const THEN_7: &str = "7 after a commit that leaves the sum above the next ticket";

pub const SHOWN: [&str; 27] = [
    BELOW_BY_1,
    EQUAL,
    EQUAL_ALL_OPEN,
    EQUAL_NONE_OPEN,
    ABOVE_BY_1,
    WRAPS_TO_0,
    WRAPS_TO_1,
    WRAPS_TO_NEXT,
    TWICE_WRAPS,
    WRAPS_IN_32,
    H_COUNTED,
    W_COUNTED,
    H_LEFT_OUT,
    W_LEFT_OUT,
    PAST_LEFT_OUT,
    COMMIT_EVEN,
    COMMIT_OVER,
    COMMIT_OVER_ALL,
    COMMIT_CARRIES,
    ABSORBED,
    ABSORBED_OPEN,
    OFFERED,
    WITHDRAWN,
    WITHDRAWN_CARRIES,
    LATE,
    NO_TICKET,
    THEN_7,
];

type Names = Vec<&'static str>;
type Said = Result<Given, u8>;

pub fn next(desk: &Desk) -> u128 {
    u128::from(desk.next_ticket.0)
}

/// What a call shows on a desk that is in form but, at most, for its sum.
pub fn shown(before: &Desk, call: &Call, said: &Said, after: &Desk) -> Names {
    match said {
        Err(7) => refused(before),
        _ => {
            let mut names = taken(before);
            names.extend(by_answer(before, said));
            names.extend(by_step(before, call, said, after));
            names
        }
    }
}

/// The names of those that hold.
fn holding<const COUNT: usize>(all: [(bool, &'static str); COUNT]) -> Names {
    let holding = all.into_iter().filter(|(holds, _)| *holds);
    holding.map(|(_, name)| name).collect()
}

fn refused(desk: &Desk) -> Names {
    let (sum, next) = (sum::of_desk(desk), next(desk));
    let by_1 = sum == next + 1;
    let in_64 = u128::from(sum as u64);
    let rest = u128::from(desk.withdrawn) + desk.open_count() as u128;
    holding([
        (by_1, ABOVE_BY_1),
        (by_1 && has(desk, Place::Showing, 0), H_COUNTED),
        (by_1 && has(desk, Place::Waiting, 0), W_COUNTED),
        (in_64 == 0, WRAPS_TO_0),
        (in_64 == 1, WRAPS_TO_1),
        (in_64 == next, WRAPS_TO_NEXT),
        (desk.meetings == 1 << 63 && rest <= next, TWICE_WRAPS),
        (u128::from(sum as u32) <= next, WRAPS_IN_32),
    ])
}

fn taken(desk: &Desk) -> Names {
    let (sum, next) = (sum::of_desk(desk), next(desk));
    let equal = sum == next;
    let past = desk.parties[desk.n..].iter().any(Party::is_open);
    holding([
        (sum + 1 == next, BELOW_BY_1),
        (equal, EQUAL),
        (equal && desk.open_count() == desk.n, EQUAL_ALL_OPEN),
        (equal && desk.open_count() == 0, EQUAL_NONE_OPEN),
        (equal && has(desk, Place::Showing, 1), H_LEFT_OUT),
        (equal && has(desk, Place::Waiting, 1), W_LEFT_OUT),
        (equal && past, PAST_LEFT_OUT),
    ])
}

fn has(desk: &Desk, place: Place, wake_count: u8) -> bool {
    let mut parties = desk.parties.iter().take(desk.n);
    parties.any(|record| record.place == place && record.wake_count == wake_count)
}

fn by_answer(before: &Desk, said: &Said) -> Names {
    let equal = sum::of_desk(before) == next(before);
    let withdrawn = *said == Ok(Given::Withdrawal(Withdrawal::Withdrawn));
    holding([
        (equal && matches!(said, Ok(Given::Ticket(_))), OFFERED),
        (equal && withdrawn, WITHDRAWN),
        (withdrawn && before.withdrawn == 255, WITHDRAWN_CARRIES),
        (
            equal && *said == Ok(Given::Withdrawal(Withdrawal::TooLate)),
            LATE,
        ),
        (equal && *said == Err(12), NO_TICKET),
    ])
}

/// True if a step with this answer commits.
pub fn commits(said: &Said) -> bool {
    matches!(said, Ok(Given::Place(Some(place))) if place.letter == 'C')
}

fn by_step(before: &Desk, call: &Call, said: &Said, after: &Desk) -> Names {
    let (Call::Step { party }, Ok(Given::Place(Some(_)))) = (call, said) else {
        return Vec::new();
    };
    let (was, is) = (sum::of_desk(before), sum::of_desk(after));
    let absorbs = before.parties[*party].place == Place::Waiting;
    let commits = commits(said);
    holding([
        (commits && is == was, COMMIT_EVEN),
        (commits && is > next(after), COMMIT_OVER),
        (commits && is > u128::from(u32::MAX), COMMIT_OVER_ALL),
        (commits && before.meetings == 255, COMMIT_CARRIES),
        (absorbs && is == was, ABSORBED),
        (absorbs && is < was, ABSORBED_OPEN),
    ])
}
