//! A plain model of the desk through which the tasks of one logger meet.
//!
//! It is written from document 01 and requests 1 to 3, 5 and 6 of document 02
//! alone, with ordinary vectors and changes in place, so that it can be compared
//! with any other program.

mod book;
pub mod by_value;
mod call;
mod desk;
mod form;
pub mod guard;
mod line;
mod message;
mod place;
pub mod program;
mod refusal;
mod rules;
pub mod script;
pub mod sheet;

pub use book::{Book, Entry, Meeting, Moment, Stuck, Told};
pub use call::{Call, Given};
pub use desk::{Desk, OpenOffer, Outcome, Party, Ticket, Withdrawal};
pub use guard::{Action, Guard};
pub use message::Message;
pub use place::{Answer, IndexedMessage, Place, Word};
pub use refusal::Refusal;
