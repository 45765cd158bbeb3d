//! The desk a second time, as a value of fixed size: arrays in place of
//! vectors, and calls that take the desk and hand it back with the answer.
//!
//! The benchmark holds it against the product, which has the same shape; the
//! tests hold it against the model that changes its desk in place.

mod desk;
mod form;
mod record;
mod rules;

pub use desk::{Desk, Outcome, MOST_PARTIES};
pub use record::{Guard, GuardList, IndexedMessage, Party, Place, MOST_GUARDS};
