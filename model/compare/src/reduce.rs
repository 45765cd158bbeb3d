//! Making a failing input smaller: parts are left out, and kinds and ranks become 0, as
//! long as it fails.

use crate::draw::ByteOf;
use model::Guard;
use std::time::{Duration, Instant};

/// Reducing stops after this time with the smallest input so far.
const PATIENCE: Duration = Duration::from_secs(20);

/// A list with more items than these has too many runs of neighbours to try each.
const MOST_FOR_RUNS: usize = 64;

/// A smaller list that still fails.
pub fn smallest<T: Clone>(items: &[T], mut fails: impl FnMut(&[T]) -> bool) -> Vec<T> {
    let end = Instant::now() + PATIENCE;
    let mut kept = items.to_vec();
    loop {
        kept = without_pieces(kept, &mut fails, end);
        match without_a_run(&kept, &mut fails, end) {
            Some(fewer) => kept = fewer,
            None => return kept,
        }
    }
}

/// Leaves out pieces of half the length, then of a quarter, and so on down to
/// single items.
fn without_pieces<T: Clone>(
    mut kept: Vec<T>,
    fails: &mut impl FnMut(&[T]) -> bool,
    end: Instant,
) -> Vec<T> {
    let mut piece = kept.len().div_ceil(2).max(1);
    loop {
        let before = kept.len();
        let mut at = 0;
        while at < kept.len() && Instant::now() < end {
            let mut fewer = kept.clone();
            fewer.drain(at..(at + piece).min(kept.len()));
            match fails(&fewer) {
                true => kept = fewer,
                false => at += piece,
            }
        }
        if Instant::now() >= end || (piece == 1 && kept.len() == before) {
            return kept;
        }
        if kept.len() == before || piece > kept.len() {
            piece = piece.div_ceil(2).max(1);
        }
    }
}

/// Leaves out one run of neighbours, a longer one first: some calls, as those of a
/// whole rendezvous, can go only together.
fn without_a_run<T: Clone>(
    items: &[T],
    fails: &mut impl FnMut(&[T]) -> bool,
    end: Instant,
) -> Option<Vec<T>> {
    let count = items.len();
    if count > MOST_FOR_RUNS {
        return None;
    }
    let runs = (2..=count).rev();
    let mut runs = runs.flat_map(|length| (0..=count - length).map(move |at| (at, length)));
    runs.find_map(|(at, length)| {
        let fewer = [&items[..at], &items[at + length..]].concat();
        (Instant::now() < end && fails(&fewer)).then_some(fewer)
    })
}

/// The same with 0 for these bytes of guards where it still fails with it: in all
/// guards at once, so that those that match still do, or in one after the other.
pub fn with_zeros<T: Clone>(
    given: T,
    bytes: &[ByteOf],
    guards: impl Fn(&mut T) -> Vec<&mut Guard>,
    mut fails: impl FnMut(&T) -> bool,
) -> T {
    let mut kept = given;
    let count = guards(&mut kept).len();
    for byte in bytes {
        let one_by_one = (0..count).map(|at| at..at + 1);
        for some in std::iter::once(0..count).chain(one_by_one) {
            let mut changed = kept.clone();
            for guard in &mut guards(&mut changed)[some] {
                *byte(guard) = 0;
            }
            if fails(&changed) {
                kept = changed;
            }
        }
    }
    kept
}

#[cfg(test)]
mod tests {
    use super::{smallest, with_zeros};
    use crate::draw::{kind_of, rank_of, ByteOf};
    use crate::wire::BLANK;

    #[test]
    fn only_what_is_needed_is_left() {
        let items: Vec<u32> = (0..1000).collect();
        let fails = |some: &[u32]| some.contains(&17) && some.contains(&800);
        assert_eq!(smallest(&items, fails), [17, 800]);
    }

    #[test]
    fn what_can_go_only_together_goes() {
        let items: Vec<u32> = (0..=30).collect();
        let fails = |some: &[u32]| some.contains(&0) && some.len() % 5 == 1;
        assert_eq!(smallest(&items, fails), [0]);
    }

    #[test]
    fn an_input_that_fails_without_any_item_becomes_empty() {
        assert_eq!(smallest(&[1, 2, 3], |_| true), []);
    }

    /// What is left of these bytes of four guards where the case needs some of them.
    fn plain(byte: ByteOf, given: [u8; 4], fails: fn([u8; 4]) -> bool) -> [u8; 4] {
        let read = |mut guards: [_; 4]| guards.each_mut().map(|guard| *byte(guard));
        let mut guards = [BLANK; 4];
        for (guard, value) in guards.iter_mut().zip(given) {
            *byte(guard) = value;
        }
        let fails = |&guards: &_| fails(read(guards));
        read(with_zeros(
            guards,
            &[byte],
            |all| all.iter_mut().collect(),
            fails,
        ))
    }

    #[test]
    fn kinds_and_ranks_become_0_together_or_one_by_one() {
        for byte in [kind_of as ByteOf, rank_of] {
            let equal = plain(byte, [7, 8, 9, 7], |bytes| bytes[0] == bytes[3]);
            assert_eq!(equal, [0; 4]);
            let apart = plain(byte, [7, 8, 9, 5], |bytes| bytes[0] != bytes[3]);
            assert_eq!(apart, [0, 0, 0, 5]);
        }
    }

    #[test]
    fn an_input_that_needs_all_stays() {
        let items = [1, 2, 3, 4, 5];
        assert_eq!(smallest(&items, |some| some.len() == 5), items);
    }
}
