//! The script program.

use std::process::ExitCode;

fn main() -> ExitCode {
    model::program::run(model::script::run)
}
