//! What the two programs share: standard input to its end, then standard output.

use std::io::{self, Read, Write};
use std::process::ExitCode;

/// Runs a program that works out all output bytes from all input bytes.
pub fn run(answer: fn(&[u8]) -> Vec<u8>) -> ExitCode {
    match read_and_write(answer) {
        Ok(()) => ExitCode::SUCCESS,
        Err(sentence) => {
            // If standard error fails too, the exit code alone has to tell.
            let _ = writeln!(io::stderr(), "{sentence}");
            ExitCode::FAILURE
        }
    }
}

fn read_and_write(answer: fn(&[u8]) -> Vec<u8>) -> Result<(), String> {
    let mut input = Vec::new();
    io::stdin()
        .read_to_end(&mut input)
        .map_err(|error| format!("Standard input cannot be read: {error}."))?;
    let output = answer(&input);
    let mut out = io::stdout().lock();
    out.write_all(&output)
        .and_then(|()| out.flush())
        .map_err(|error| format!("Standard output cannot be written: {error}."))
}
