//! The command `ermopinaw`: an image's age, lookups, lists, verification and metadata from a shell.

mod command;

use std::process::ExitCode;

fn main() -> ExitCode {
    let words = std::env::args_os().skip(1).collect();
    ExitCode::from(command::run(words))
}
