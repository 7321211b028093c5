//! What the command does, and what it says.

mod age;
mod arguments;
mod date;
mod list;
mod lookup;
mod metadata;
mod progress;
mod verify;

use std::ffi::OsString;
use std::fmt::Display;
use std::io::{self, BufWriter, StdoutLock, Write};
use std::path::Path;

use arguments::{Command, HELP};
use ermopinaw::{MaxMindDbError, Reader};

/// Exit statuses.
const FINE: u8 = 0;
const TOO_OLD: u8 = 1;
const FAILED: u8 = 2;

/// Why the command ends early.
enum Failure {
    /// It is told on standard error.
    Said(String),
    /// Standard output takes no more.
    Output(io::Error),
}

impl From<io::Error> for Failure {
    fn from(error: io::Error) -> Failure {
        Failure::Output(error)
    }
}

type Output<'a> = BufWriter<StdoutLock<'a>>;

/// Tells something on standard error. If that is closed, there is no one to tell.
fn say(what: impl Display) {
    let _ = writeln!(io::stderr(), "ermopinaw: {what}");
}

fn failed(file: &Path, error: MaxMindDbError) -> Failure {
    Failure::Said(format!("{}: {error}", file.display()))
}

fn open(file: &Path) -> Result<Reader<Vec<u8>>, Failure> {
    Reader::open_readfile(file).map_err(|error| failed(file, error))
}

fn perform(command: Command, out: &mut Output) -> Result<u8, Failure> {
    match command {
        Command::Help => write!(out, "{HELP}")?,
        Command::Version => writeln!(out, "ermopinaw {}", env!("CARGO_PKG_VERSION"))?,
        Command::Age { file, max, now } => return age::run(&file, max, now, out),
        Command::Lookup { file, addresses } => return lookup::run(&file, &addresses, out),
        Command::List {
            file,
            range,
            options,
        } => return list::run(&file, range, options, out),
        Command::Verify { file } => return verify::run(&file, out),
        Command::Metadata { file } => return metadata::run(&file, out),
    }
    Ok(FINE)
}

/// The exit status after standard output took no more. A reader that went away ends the output quietly, and what was
/// found still counts.
fn output_failed(error: io::Error, status: u8) -> u8 {
    if error.kind() == io::ErrorKind::BrokenPipe {
        return status;
    }
    say(format_args!("standard output: {error}"));
    FAILED
}

/// Does what the words say and gives the exit status.
pub fn run(words: Vec<OsString>) -> u8 {
    let command = match arguments::parse(words) {
        Ok(command) => command,
        Err(wrong) => {
            say(format_args!("{wrong} (ermopinaw --help shows how)"));
            return FAILED;
        }
    };
    let mut out = BufWriter::new(io::stdout().lock());
    let (status, said) = match perform(command, &mut out) {
        Ok(status) => (status, None),
        Err(Failure::Said(what)) => (FAILED, Some(what)),
        Err(Failure::Output(error)) => {
            // what is left in the buffer is not tried again
            let (_, _) = out.into_parts();
            return output_failed(error, FINE);
        }
    };
    let flushed = out.flush();
    if let Some(what) = said {
        say(what);
    }
    match flushed {
        Ok(()) => status,
        Err(error) => output_failed(error, status),
    }
}
