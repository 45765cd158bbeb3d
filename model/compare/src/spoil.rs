//! Spoiling a script's bytes.

use crate::random::Random;

/// Bytes that a line might be confused by.
const BYTES: &[u8] = b" \n\r\t\0-+?!:^0123456789wrlnoscmxABCDEFabcdef.\x7f\x80\xff";

/// About as long as the first line of a script.
const FIRST_LINE: usize = 8;

/// Some changes here and there.
pub fn spoil(random: &mut Random, script: &mut Vec<u8>) {
    for _ in 0..1 + random.below(6) {
        change(random, script);
    }
}

fn change(random: &mut Random, script: &mut Vec<u8>) {
    let at = match random.one_in(8) {
        // The first line makes the table.
        true => random.below(script.len().min(FIRST_LINE) + 1),
        false => random.below(script.len() + 1),
    };
    let byte = match random.one_in(4) {
        true => random.byte(),
        false => random.pick(BYTES),
    };
    match random.below(10) {
        0 | 1 if at < script.len() => script[at] = byte,
        2 if at < script.len() => script[at] ^= 1 << random.below(8),
        3 | 4 if at < script.len() => {
            script.remove(at);
        }
        5 => script.truncate(at),
        6 => double_a_piece(random, script, at),
        7 => swap_lines(random, script),
        _ => script.insert(at, byte),
    }
}

/// Writes a piece of the script once more, here.
fn double_a_piece(random: &mut Random, script: &mut Vec<u8>, at: usize) {
    let length = random.pick(&[1, 2, 5, 20, 201]);
    let from = random.below(script.len() + 1);
    let piece = script[from..(from + length).min(script.len())].to_vec();
    script.splice(at..at, piece);
}

fn swap_lines(random: &mut Random, script: &mut Vec<u8>) {
    let mut lines: Vec<&[u8]> = script.split_inclusive(|&byte| byte == b'\n').collect();
    if lines.len() < 2 {
        return;
    }
    let (one, other) = (random.below(lines.len()), random.below(lines.len()));
    lines.swap(one, other);
    *script = lines.concat();
}

/// Any bytes, or such as scripts have.
pub fn noise(random: &mut Random) -> Vec<u8> {
    let known = random.one_in(2);
    (0..random.below(600))
        .map(|_| match known {
            true => random.pick(BYTES),
            false => random.byte(),
        })
        .collect()
}
