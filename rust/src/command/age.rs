//! `age`: for the job that fetches a new image when the old one has become too old.

use std::io::Write;
use std::path::Path;
use std::time::{SystemTime, UNIX_EPOCH};

use super::{failed, open, say, Failure, Output, FINE, TOO_OLD};

fn present() -> Result<u64, Failure> {
    SystemTime::now()
        .duration_since(UNIX_EPOCH)
        .map(|time| time.as_secs())
        .map_err(|_| Failure::Said("this machine's clock is before 1970".to_string()))
}

/// An age below zero is an answer: it is written, and it is below every maximum, so that the image counts as fresh.
/// Since it may also mean that a clock is wrong, it is told on standard error.
pub fn run(
    file: &Path,
    max: Option<u64>,
    now: Option<u64>,
    out: &mut Output,
) -> Result<u8, Failure> {
    let now = now.map_or_else(present, Ok)?;
    let age = open(file)?.age(now).map_err(|error| failed(file, error))?;
    writeln!(out, "{age}")?;
    if age < 0 {
        say(format_args!(
            "{}: its build time is still to come",
            file.display()
        ));
    }
    match max {
        Some(max) if i128::from(age) > i128::from(max) => Ok(TOO_OLD),
        _ => Ok(FINE),
    }
}
