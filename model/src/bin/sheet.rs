//! The program that prints the day sheet of a script.

use std::process::ExitCode;

fn main() -> ExitCode {
    model::program::run(model::sheet::run)
}
