//! `verify`: whether the whole image is sound.

use std::io::Write;
use std::path::Path;

use super::progress;
use super::{failed, open, Failure, Output, FINE};

pub fn run(file: &Path, out: &mut Output) -> Result<u8, Failure> {
    let reader = open(file)?;
    let what = || format!("verifying {}", file.display());
    let offsets = progress::shown(what, || reader.verify()).map_err(|error| failed(file, error))?;
    writeln!(out, "sound, with {offsets} distinct records")?;
    Ok(FINE)
}
