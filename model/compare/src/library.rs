//! The calls on a table as bytes, whoever answers them, and the
//! comparison of one call with the model's.

use crate::rendezvous::{HEAD_MEETINGS, HEAD_NEXT, HEAD_WITHDRAWN};
use crate::rendezvous::{RECORD_ACCEPTING, RECORD_COUNTS, RECORD_INDEX, RECORD_OWN};
use crate::rendezvous::{RECORD_PLACE, RECORD_POSTED, RECORD_SIGNAL, RECORD_TICKET};
use crate::wire::{decode, encode, normal, one_nan, Table};
use model::{Action, Call, Desk, Given, Guard, Outcome, Refusal, Withdrawal};

/// What a call says, or the number of its refusal; and the table given back.
#[derive(Clone, Debug, PartialEq, Eq)]
pub struct Reply {
    pub answer: Result<Given, u8>,
    pub table: Table,
}

pub trait Library: Sync {
    fn create(&self, n: u8, nap: u8) -> Result<Table, u8>;
    fn call(&self, table: &Table, call: &Call) -> Reply;
}

/// What a run starts from: a fresh table of 2 to 32 processes, in which a nap is
/// so many own steps long, 1 to 255.
#[derive(Clone, Copy, Debug, PartialEq, Eq)]
pub struct Start {
    pub n: usize,
    pub nap: u8,
}

impl Start {
    pub fn desk(self) -> Desk {
        Desk::new(self.n, self.nap).expect("2 to 32 parties and a nap of at least one step")
    }

    pub fn table(self, library: &dyn Library) -> Result<Table, String> {
        let made = library.create(self.n as u8, self.nap);
        made.map_err(|number| format!("`{}` is refused by {number}", self.line()))
    }

    /// As a script writes it, with a nap of one step left out.
    pub fn line(self) -> String {
        match self.nap {
            1 => format!("n {}", self.n),
            nap => format!("n {} {nap}", self.n),
        }
    }
}

/// The model behind bytes, to try the comparison on itself.
pub struct Modelled;

impl Library for Modelled {
    fn create(&self, n: u8, nap: u8) -> Result<Table, u8> {
        let desk = Desk::new(usize::from(n), nap).map_err(Refusal::number)?;
        Ok(encode(&desk))
    }

    fn call(&self, table: &Table, call: &Call) -> Reply {
        let mut desk = decode(table);
        let answer = in_model(&mut desk, call);
        let table = match changes(&answer) {
            true => normal(&encode(&desk)),
            false => normal(table),
        };
        Reply { answer, table }
    }
}

/// True if a call with this answer changes the table.
fn changes(answer: &Result<Given, u8>) -> bool {
    match answer {
        Ok(Given::Ticket(_) | Given::Outcome(_)) => true,
        Ok(Given::Place(place)) => place.is_some(),
        Ok(Given::Withdrawal(withdrawal)) => *withdrawal == Withdrawal::Withdrawn,
        Ok(Given::Set(_)) | Err(_) => false,
    }
}

/// Makes a call in the model. A NaN is given in the one way that the library
/// writes it.
pub fn in_model(desk: &mut Desk, call: &Call) -> Result<Given, u8> {
    match call.on(desk) {
        Ok(Given::Outcome(outcome)) => Ok(Given::Outcome(Outcome {
            message: one_nan(outcome.message),
            ..outcome
        })),
        Ok(given) => Ok(given),
        Err(refusal) => Err(refusal.number()),
    }
}

/// Makes a call on both sides. `desk` is what `table` says and is moved along;
/// the reply is the library's. An error says how the two differ.
pub fn both(
    library: &dyn Library,
    table: &Table,
    desk: &mut Desk,
    call: &Call,
) -> Result<Reply, String> {
    let reply = library.call(table, call);
    let expected = in_model(desk, call);
    if reply.answer != expected {
        let given = &reply.answer;
        return Err(format!(
            "the library answers {given:?}, the model {expected:?}"
        ));
    }
    match changes(&expected) {
        false => same(&reply.table, &normal(table)),
        true => same_change(&reply.table, &normal(&encode(desk)), table),
    }?;
    Ok(reply)
}

/// Slots past the ends of lists may differ only where `before` had something
/// in such slots: no rule reads them, and so none says what becomes of them.
fn same_change(given: &Table, expected: &Table, before: &Table) -> Result<(), String> {
    let blanked = |table: &Table| encode(&decode(table));
    let had_slack = || blanked(before) != *before;
    if given != expected && *given == normal(given) && had_slack() {
        return same(&blanked(given), expected);
    }
    same(given, expected)
}

fn same(given: &Table, expected: &Table) -> Result<(), String> {
    match given.first_difference(expected) {
        None => Ok(()),
        Some(place) => Err(format!(
            "the table given back is not the model's: {place} (in the head: next ticket {HEAD_NEXT}, \
             meetings {HEAD_MEETINGS}, withdrawn {HEAD_WITHDRAWN}; in a record: place {RECORD_PLACE}, \
             index or steps at S {RECORD_INDEX}, signal {RECORD_SIGNAL}, ticket {RECORD_TICKET}, \
             accepting {RECORD_ACCEPTING}, counts {RECORD_COUNTS}, own list {RECORD_OWN}, posted \
             list {RECORD_POSTED})"
        )),
    }
}

/// A call as a script writes it, with kind 0 and rank 0 left out.
pub fn line(call: &Call) -> String {
    line_with(call, |guard| parts(guard).concat())
}

/// A call with its guards written in a way of their own.
pub fn line_with(call: &Call, mut text: impl FnMut(&Guard) -> String) -> String {
    match call {
        Call::Offer { party, guards } => {
            let guards: String = guards
                .iter()
                .map(|guard| format!(" {}", text(guard)))
                .collect();
            format!("o {party}{guards}")
        }
        Call::Step { party } => format!("s {party}"),
        Call::Collect { party } => format!("c {party}"),
        Call::Withdraw { party } => format!("w {party}"),
        Call::Movers => "m".to_string(),
    }
}

/// What a guard's text is made of: its partner, behind `-` if it is disabled; what
/// it does; its kind and its rank, each of which is empty if it is 0.
pub fn parts(guard: &Guard) -> [String; 4] {
    let sign = if guard.enabled { "" } else { "-" };
    let action = match guard.action {
        Action::Receive => "?".to_string(),
        Action::Send(message) => format!("!{message}"),
    };
    let kind = match guard.kind {
        0 => String::new(),
        kind => format!(":{kind}"),
    };
    let rank = match guard.rank {
        0 => String::new(),
        rank => format!("^{rank}"),
    };
    [format!("{sign}{}", guard.partner), action, kind, rank]
}
