//! 2 × meetings + withdrawn + open, over the integers: of a desk, and of the bytes of a
//! table.

use crate::rendezvous::{self, HEAD_BYTES, HEAD_COUNT, PROCESSES};
use crate::rendezvous::{RECORD_ACCEPTING, RECORD_BYTES, RECORD_PLACE};
use crate::wire::Table;
use model::Desk;

pub fn of_desk(desk: &Desk) -> u128 {
    2 * u128::from(desk.meetings) + u128::from(desk.withdrawn) + desk.open_count() as u128
}

/// The same by the readers that the library comes with, and by the bytes of the records.
pub fn of_table(table: &Table) -> u128 {
    let bytes = table.bytes();
    let meetings = u128::from(rendezvous::meetings(bytes));
    let withdrawn = u128::from(rendezvous::withdrawn(bytes));
    2 * meetings + withdrawn + open_in(table) as u128
}

/// How many processes of a table have an open offer.
fn open_in(table: &Table) -> usize {
    let n = usize::from(table.bytes()[HEAD_COUNT]).min(PROCESSES);
    let records = table.part(n)[HEAD_BYTES..].chunks(RECORD_BYTES);
    records.filter(|record| is_open(record)).count()
}

/// At E, A, T, P, O and S; at H and W where the process accepts.
fn is_open(record: &[u8]) -> bool {
    match record[RECORD_PLACE] {
        1..=3 | 5 | 6 | 8 => true,
        7 | 9 => record[RECORD_ACCEPTING] != 0,
        _ => false,
    }
}

#[cfg(test)]
mod tests {
    use super::*;
    use crate::damage;
    use crate::random::Random;
    use crate::wire::encode;

    #[test]
    fn bytes_and_desks_have_the_same_sum() {
        let mut random = Random::new(6);
        for _ in 0..2000 {
            let desk = damage::any_desk(&mut random);
            assert_eq!(of_table(&encode(&desk)), of_desk(&desk));
        }
    }

    #[test]
    fn no_word_cuts_the_sum() {
        let mut desk = Desk::new(2, 1).expect("both are good numbers");
        (desk.meetings, desk.withdrawn) = (u64::MAX, u64::MAX);
        assert_eq!(of_desk(&desk), 3 * u128::from(u64::MAX));
    }
}
