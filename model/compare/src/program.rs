//! The script program and the sheet's program as child processes.

use std::io::{Read, Write};
use std::path::PathBuf;
use std::process::{Child, Command, Stdio};
use std::thread;
use std::time::Duration;

/// The input in one piece.
pub const WHOLE: usize = usize::MAX;

pub struct Program {
    pub path: PathBuf,
    /// What the model prints for the same input.
    pub model: fn(&[u8]) -> Vec<u8>,
}

impl Program {
    /// Runs the program on an input, which it gets in pieces of a given length.
    /// What goes wrong, also an exit status other than 0, is told in a sentence.
    fn run(&self, input: &[u8], piece: usize) -> Result<Vec<u8>, String> {
        let mut child = Command::new(&self.path)
            .stdin(Stdio::piped())
            .stdout(Stdio::piped())
            .spawn()
            .map_err(|error| format!("{} cannot be run: {error}", self.path.display()))?;
        let output = feed(&mut child, input, piece);
        let status = child
            .wait()
            .map_err(|error| format!("the program's end is not known: {error}"))?;
        match status.success() {
            true => output,
            false => Err(format!("the program ended with {status}")),
        }
    }

    /// The program's output, if it is the model's; else how the two differ.
    pub fn compared(&self, input: &[u8], piece: usize) -> Result<Vec<u8>, String> {
        let expected = (self.model)(input);
        let output = self.run(input, piece)?;
        match output == expected {
            true => Ok(output),
            false => Err(first_difference(&output, &expected)),
        }
    }
}

/// Writes and reads at the same time, so that neither side waits for good.
fn feed(child: &mut Child, input: &[u8], piece: usize) -> Result<Vec<u8>, String> {
    let mut stdin = child.stdin.take().expect("the input is a pipe");
    let mut stdout = child.stdout.take().expect("the output is a pipe");
    let mut output = Vec::new();
    let read = thread::scope(|scope| {
        scope.spawn(move || {
            for part in input.chunks(piece) {
                // A program that ends early shows in its output.
                let _ = stdin.write_all(part);
                if piece != WHOLE {
                    thread::sleep(Duration::from_micros(100));
                }
            }
        });
        stdout.read_to_end(&mut output)
    });
    read.map_err(|error| format!("the program's output cannot be read: {error}"))?;
    Ok(output)
}

fn first_difference(output: &[u8], expected: &[u8]) -> String {
    let lines = |bytes: &[u8]| -> Vec<String> {
        bytes
            .split_inclusive(|&byte| byte == b'\n')
            .map(|line| line.escape_ascii().to_string())
            .collect()
    };
    let (output, expected) = (lines(output), lines(expected));
    let at = (0..).find(|&at| output.get(at) != expected.get(at));
    let at = at.unwrap_or(0);
    let show = |lines: &[String]| lines.get(at).cloned().unwrap_or("no more".to_string());
    format!(
        "output line {}: the program has {}, the model {}",
        at + 1,
        show(&output),
        show(&expected)
    )
}

#[cfg(test)]
mod tests {
    use super::first_difference;

    #[test]
    fn the_first_line_that_differs_is_told() {
        assert_eq!(
            first_difference(b"n 2\nx 8\n", b"n 2\n"),
            "output line 2: the program has x 8\\n, the model no more"
        );
        assert_eq!(
            first_difference(b"n 2\n", b"n 3\n"),
            "output line 1: the program has n 2\\n, the model n 3\\n"
        );
    }
}
