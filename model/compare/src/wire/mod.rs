//! The bytes of a table (docs/BYTES.md), and what they say as a desk of the
//! model: `table` holds the bytes, `writing` makes them out of a desk, `reading`
//! a desk out of them, and `normal` turns any bytes into those that the library
//! writes.

mod normal;
mod reading;
mod table;
mod writing;

pub use normal::{normal, one_nan};
pub use reading::{decode, message_of};
pub use table::{Table, BLANK};
pub use writing::{encode, put_guard, put_message};
