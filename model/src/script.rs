//! The script program as a function from all input bytes to all output bytes.

use crate::call::Call;
use crate::desk::{Desk, Withdrawal};
use crate::line::{commands, Command};
use crate::refusal::Refusal;

pub fn run(input: &[u8]) -> Vec<u8> {
    let mut desk = None;
    let mut output = Vec::new();
    for command in commands(input) {
        let text = match answer(&mut desk, command) {
            Ok(text) => text,
            Err(refusal) => format!("x {}", refusal.number()),
        };
        output.extend_from_slice(text.as_bytes());
        output.push(b'\n');
    }
    output
}

/// Carries out one line; without a command it is malformed.
fn answer(desk: &mut Option<Desk>, command: Option<Command>) -> Result<String, Refusal> {
    match (command.ok_or(Refusal::MalformedLine)?, desk) {
        (Command::New { n, nap }, desk) => {
            *desk = Some(Desk::new(n, nap)?);
            Ok(format!("n {n}"))
        }
        (Command::Call(call), Some(desk)) => answer_call(desk, call),
        (Command::Call(_), None) => Err(Refusal::MalformedLine),
    }
}

fn answer_call(desk: &mut Desk, call: Call) -> Result<String, Refusal> {
    match call {
        Call::Offer { party, guards } => {
            let ticket = desk.offer(party, &guards)?;
            Ok(format!("o {party} t{}", ticket.0))
        }
        Call::Step { party } => match desk.step(party)? {
            Some(place) => Ok(format!("s {party} {place}")),
            None => Ok(format!("s {party} =")),
        },
        Call::Collect { party } => {
            let outcome = desk.collect(party)?;
            let (index, partner) = (outcome.index, outcome.partner);
            Ok(format!("c {party} {index} {partner} {}", outcome.message))
        }
        Call::Withdraw { party } => match desk.withdraw(party)? {
            Withdrawal::Withdrawn => Ok(format!("w {party} ok")),
            Withdrawal::TooLate => Ok(format!("w {party} late")),
        },
        Call::Movers => Ok(format!("m {:08x}", desk.movers()?)),
    }
}
