//! The day sheet: the one line of totals that the second program prints for the
//! last desk made.

use crate::call::Given;
use crate::desk::{Desk, Withdrawal};
use crate::line::{commands, Command};
use crate::refusal::Refusal;
use std::fmt;

/// The last desk made, and what its calls have answered so far. The desk's own
/// counters are not read, so that the two can be held against each other.
struct Sheet {
    desk: Desk,
    offers: u64,
    meetings: u64,
    withdrawn: u64,
}

pub fn run(input: &[u8]) -> Vec<u8> {
    let line = match last_sheet(input) {
        Some(sheet) => sheet.to_string(),
        None => "0 0 0 0".to_string(),
    };
    format!("{line}\n").into_bytes()
}

/// The sheet after the whole script; none if no desk was made.
fn last_sheet(input: &[u8]) -> Option<Sheet> {
    let mut last = None;
    // A line without a command is malformed and counts for nothing.
    for command in commands(input).flatten() {
        match (command, &mut last) {
            (Command::New { n, nap }, _) => {
                // A refused `n` keeps the old desk, and so its sheet.
                if let Ok(desk) = Desk::new(n, nap) {
                    last = Some(Sheet::of(desk));
                }
            }
            (Command::Call(call), Some(sheet)) => {
                let answer = call.on(&mut sheet.desk);
                sheet.count(answer);
            }
            (Command::Call(_), None) => (),
        }
    }
    last
}

impl Sheet {
    fn of(desk: Desk) -> Sheet {
        Sheet {
            desk,
            offers: 0,
            meetings: 0,
            withdrawn: 0,
        }
    }

    /// No script is so long that a count of its lines overflows.
    fn count(&mut self, answer: Result<Given, Refusal>) {
        match answer {
            Ok(Given::Ticket(_)) => self.offers += 1,
            Ok(Given::Place(Some(place))) if place.letter == 'C' => self.meetings += 1,
            Ok(Given::Withdrawal(Withdrawal::Withdrawn)) => self.withdrawn += 1,
            _ => (),
        }
    }
}

impl fmt::Display for Sheet {
    fn fmt(&self, out: &mut fmt::Formatter) -> fmt::Result {
        let (offers, meetings, withdrawn) = (self.offers, self.meetings, self.withdrawn);
        let open = self.desk.open_count();
        write!(out, "{offers} {meetings} {withdrawn} {open}")
    }
}
