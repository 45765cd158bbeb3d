//! The messages that guards, signals and outcomes carry.

use std::fmt;

/// What one guard sends to another. No order of low and high is required.
#[derive(Clone, Copy, Debug)]
pub enum Message {
    Nothing,
    Whole(i32),
    Reading(f32),
    Limit { low: f32, high: f32 },
}

impl Message {
    /// True if an f32 inside is not a number (refusal 5).
    pub fn holds_nan(&self) -> bool {
        match self {
            Message::Nothing | Message::Whole(_) => false,
            Message::Reading(value) => value.is_nan(),
            Message::Limit { low, high } => low.is_nan() || high.is_nan(),
        }
    }
}

/// Messages are equal by their bits: NaN equals the same NaN, and 0 is not -0.
impl PartialEq for Message {
    fn eq(&self, other: &Message) -> bool {
        use Message::{Limit, Nothing, Reading, Whole};
        match (self, other) {
            (Nothing, Nothing) => true,
            (Whole(a), Whole(b)) => a == b,
            (Reading(a), Reading(b)) => a.to_bits() == b.to_bits(),
            (Limit { low: a, high: b }, Limit { low: c, high: d }) => {
                a.to_bits() == c.to_bits() && b.to_bits() == d.to_bits()
            }
            _ => false,
        }
    }
}

impl Eq for Message {}

/// Shown as a guard of the script writes it after its `!`.
impl fmt::Display for Message {
    fn fmt(&self, out: &mut fmt::Formatter) -> fmt::Result {
        match self {
            Message::Nothing => write!(out, "0"),
            Message::Whole(value) => write!(out, "w{value}"),
            Message::Reading(value) => write!(out, "r{:08x}", value.to_bits()),
            Message::Limit { low, high } => {
                write!(out, "l{:08x}{:08x}", low.to_bits(), high.to_bits())
            }
        }
    }
}
