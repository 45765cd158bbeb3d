//! The two programs themselves: standard input, standard output and exit codes.

use std::fs::File;
use std::io::Write;
use std::process::{Command, Output, Stdio};

const SCRIPT: &str = env!("CARGO_BIN_EXE_model");
const SHEET: &str = env!("CARGO_BIN_EXE_sheet");

fn run(program: &str, input: &[u8]) -> Output {
    run_into(program, input, Stdio::piped())
}

fn run_into(program: &str, input: &[u8], stdout: impl Into<Stdio>) -> Output {
    let mut child = Command::new(program)
        .stdin(Stdio::piped())
        .stdout(stdout)
        .stderr(Stdio::piped())
        .spawn()
        .expect("the program starts");
    let mut stdin = child.stdin.take().expect("its input is a pipe");
    stdin.write_all(input).expect("its input is read");
    drop(stdin);
    child.wait_with_output().expect("the program ends")
}

#[test]
fn the_program_answers_line_by_line() {
    let output = run(SCRIPT, b"n 2\no 0 1?\n\ns 0\nm");
    assert_eq!(output.stdout, b"n 2\no 0 t0\nx 8\ns 0 A0\nx 8\n");
    assert!(output.status.success() && output.stderr.is_empty());
}

#[test]
fn empty_input_gives_empty_output() {
    let output = run(SCRIPT, b"");
    assert!(output.status.success() && output.stdout.is_empty());
}

#[test]
fn the_sheet_program_prints_one_line() {
    let script = b"n 2\no 0 1?\nw 0\n\no 1 0?\no 0 1!0\ns 1\nw 0\no 0 0?\nm\nw 1";
    let output = run(SHEET, script);
    assert_eq!(output.stdout, b"3 0 2 1\n");
    assert!(output.status.success() && output.stderr.is_empty());
}

#[test]
fn the_sheet_of_empty_input_is_all_0() {
    let output = run(SHEET, b"");
    assert_eq!(output.stdout, b"0 0 0 0\n");
    assert!(output.status.success() && output.stderr.is_empty());
}

#[test]
#[cfg(target_os = "linux")]
fn unreadable_input_gives_a_sentence_and_exit_code_1() {
    for program in [SCRIPT, SHEET] {
        // A folder can be opened but not read.
        let folder = File::open("/").expect("the root folder opens");
        let output = Command::new(program).stdin(folder).output();
        let output = output.expect("the program ends");
        assert_eq!(output.status.code(), Some(1));
        assert!(output.stdout.is_empty());
        let sentence = String::from_utf8_lossy(&output.stderr).into_owned();
        assert!(sentence.starts_with("Standard input cannot be read: "));
    }
}

#[test]
#[cfg(target_os = "linux")]
fn unwritable_output_gives_a_sentence_and_exit_code_1() {
    for program in [SCRIPT, SHEET] {
        let full = File::create("/dev/full").expect("the full device opens");
        let output = run_into(program, b"n 2\n", full);
        assert_eq!(output.status.code(), Some(1));
        let sentence = String::from_utf8_lossy(&output.stderr).into_owned();
        assert!(sentence.starts_with("Standard output cannot be written: "));
    }
}
