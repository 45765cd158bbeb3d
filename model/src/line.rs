//! Reading the lines of a script. No command means that a line is malformed.

use crate::call::Call;
use crate::guard::{Action, Guard};
use crate::message::Message;

#[derive(Clone, Debug, PartialEq, Eq)]
pub enum Command {
    New { n: usize, nap: u8 },
    Call(Call),
}

const LONGEST_LINE: usize = 200;

/// The commands of a script, line by line.
pub fn commands(input: &[u8]) -> impl Iterator<Item = Option<Command>> + '_ {
    input.split_inclusive(|&byte| byte == b'\n').map(command)
}

/// No command for an unended, an overlong or a malformed line.
fn command(line: &[u8]) -> Option<Command> {
    let ended = line.strip_suffix(b"\n")?;
    if ended.len() > LONGEST_LINE {
        return None;
    }
    read(ended)
}

/// Reads a line without its ending byte. Fields are parted by one space each,
/// so that a doubled, leading or trailing space makes an empty field.
fn read(line: &[u8]) -> Option<Command> {
    let fields: Vec<&[u8]> = line.split(|&byte| byte == b' ').collect();
    let call = match fields.as_slice() {
        [b"n", count] => return new(count, None),
        [b"n", count, nap] => return new(count, Some(nap)),
        [b"o", party, guards @ ..] => Call::Offer {
            party: small(party)?,
            guards: guards
                .iter()
                .map(|field| guard(field))
                .collect::<Option<_>>()?,
        },
        [b"s", party] => Call::Step {
            party: small(party)?,
        },
        [b"c", party] => Call::Collect {
            party: small(party)?,
        },
        [b"w", party] => Call::Withdraw {
            party: small(party)?,
        },
        [b"m"] => Call::Movers,
        _ => return None,
    };
    Some(Command::Call(call))
}

/// A party count and a nap length, which is 1 if left out.
fn new(count: &[u8], nap: Option<&[u8]>) -> Option<Command> {
    Some(Command::New {
        n: small(count)?,
        nap: nap.map_or(Some(1), byte)?,
    })
}

fn guard(field: &[u8]) -> Option<Guard> {
    let (unranked, rank) = split_number(field, b'^')?;
    let (text, kind) = split_number(unranked, b':')?;
    let (enabled, rest) = match text.strip_prefix(b"-") {
        Some(rest) => (false, rest),
        None => (true, text),
    };
    let end = rest.iter().position(|byte| !byte.is_ascii_digit())?;
    let partner = small(&rest[..end])?;
    let action = match &rest[end..] {
        b"?" => Action::Receive,
        [b'!', text @ ..] => Action::Send(message(text)?),
        _ => return None,
    };
    Some(Guard {
        enabled,
        partner,
        kind,
        rank,
        action,
    })
}

/// Parts a guard from the number that `mark` begins at its end: the kind or the
/// rank, each 0 if left out. Nothing else in a guard has that mark, so the first
/// one has to begin the number.
fn split_number(field: &[u8], mark: u8) -> Option<(&[u8], u8)> {
    match field.iter().position(|&byte| byte == mark) {
        Some(at) => Some((&field[..at], byte(&field[at + 1..])?)),
        None => Some((field, 0)),
    }
}

fn message(text: &[u8]) -> Option<Message> {
    match text {
        b"0" => Some(Message::Nothing),
        [b'w', number @ ..] => Some(Message::Whole(whole(number)?)),
        [b'r', bits @ ..] => Some(Message::Reading(reading(bits)?)),
        [b'l', bits @ ..] if bits.len() == 16 => Some(Message::Limit {
            low: reading(&bits[..8])?,
            high: reading(&bits[8..])?,
        }),
        _ => None,
    }
}

/// A party or a party count.
fn small(field: &[u8]) -> Option<usize> {
    byte(field).map(usize::from)
}

/// 0 to 255: the form that parties, party counts, nap lengths, kinds and ranks
/// share.
fn byte(field: &[u8]) -> Option<u8> {
    u8::try_from(decimal(field)?).ok()
}

/// A whole number of 32 bits, signed.
fn whole(field: &[u8]) -> Option<i32> {
    let value = match field.strip_prefix(b"-") {
        Some(b"0") => return None,
        Some(digits) => -decimal(digits)?,
        None => decimal(field)?,
    };
    i32::try_from(value).ok()
}

/// Decimal digits without leading zeros. No number here has over ten digits,
/// and so the sum cannot overflow.
fn decimal(field: &[u8]) -> Option<i64> {
    let has_leading_zero = field.len() > 1 && field[0] == b'0';
    if field.is_empty() || field.len() > 10 || has_leading_zero {
        return None;
    }
    field.iter().try_fold(0, |value, byte| match byte {
        b'0'..=b'9' => Some(value * 10 + i64::from(byte - b'0')),
        _ => None,
    })
}

/// Eight lower-case hexadecimal digits of an f32's bits.
fn reading(digits: &[u8]) -> Option<f32> {
    if digits.len() != 8 {
        return None;
    }
    let bits = digits.iter().try_fold(0, |bits: u32, byte| match byte {
        b'0'..=b'9' => Some(bits << 4 | u32::from(byte - b'0')),
        b'a'..=b'f' => Some(bits << 4 | u32::from(byte - b'a' + 10)),
        _ => None,
    });
    bits.map(f32::from_bits)
}
