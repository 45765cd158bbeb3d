//! The bytes of a table, and where its parts lie in them.

use crate::rendezvous::{GUARDS, GUARD_BYTES, LIST_BYTES};
use crate::rendezvous::{HEAD_BYTES, RECORD_BYTES, RECORD_OWN, RECORD_POSTED, TABLE_BYTES};
use model::{Action, Guard};

/// What stands in a slot past a list's end.
pub const BLANK: Guard = Guard {
    enabled: false,
    partner: 0,
    kind: 0,
    rank: 0,
    action: Action::Receive,
};

/// The bytes of a table: always `TABLE_BYTES` of them.
#[derive(Clone, Debug, PartialEq, Eq)]
pub struct Table(Box<[u8; TABLE_BYTES]>);

impl Table {
    pub fn zero() -> Table {
        Table(Box::new([0; TABLE_BYTES]))
    }

    /// The table that these bytes are; there must be `TABLE_BYTES` of them.
    pub fn of(bytes: Vec<u8>) -> Table {
        Table(bytes.try_into().expect("the bytes of a whole table"))
    }

    pub fn bytes(&self) -> &[u8] {
        &self.0[..]
    }

    pub fn bytes_mut(&mut self) -> &mut [u8] {
        &mut self.0[..]
    }

    /// The bytes that speak of the processes below `n`.
    pub fn part(&self, n: usize) -> &[u8] {
        &self.0[..HEAD_BYTES + n * RECORD_BYTES]
    }

    /// Where the slots past the ends of a record's two lists lie.
    pub fn slots_past(record: usize, own: usize, posted: usize) -> impl Iterator<Item = usize> {
        let start = HEAD_BYTES + record * RECORD_BYTES;
        let past = move |list: usize, count: usize| {
            let list = start + list;
            list + count.min(GUARDS) * GUARD_BYTES..list + LIST_BYTES
        };
        past(RECORD_OWN, own).chain(past(RECORD_POSTED, posted))
    }

    /// Where the first byte differs, in words.
    pub fn first_difference(&self, other: &Table) -> Option<String> {
        let at = (0..TABLE_BYTES).find(|&at| self.0[at] != other.0[at])?;
        let place = match at.checked_sub(HEAD_BYTES) {
            None => format!("byte {at}"),
            Some(past) => format!(
                "record {}, byte {}",
                past / RECORD_BYTES,
                past % RECORD_BYTES
            ),
        };
        Some(format!("{place}: {} and {}", self.0[at], other.0[at]))
    }
}

#[cfg(test)]
mod tests {
    use super::*;
    use crate::rendezvous::RECORD_SIGNAL;

    #[test]
    fn a_table_is_as_long_as_the_document_says() {
        assert_eq!(Table::zero().bytes().len(), 8150);
    }

    #[test]
    fn a_difference_is_told_by_record_and_byte() {
        let (one, mut other) = (Table::zero(), Table::zero());
        assert_eq!(one.first_difference(&other), None);
        other.bytes_mut()[HEAD_BYTES + RECORD_BYTES + RECORD_SIGNAL] = 1;
        let told = one.first_difference(&other);
        let words = format!("record 1, byte {RECORD_SIGNAL}: 0 and 1");
        assert_eq!(told, Some(words));
    }
}
