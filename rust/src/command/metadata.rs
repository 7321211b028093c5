//! `metadata`: what the image says about itself, a field to a line.

use std::io::Write;
use std::path::Path;

use super::{date, open, Failure, Output, FINE};
use ermopinaw::Quoted;

pub fn run(file: &Path, out: &mut Output) -> Result<u8, Failure> {
    let reader = open(file)?;
    let metadata = reader.metadata();
    writeln!(out, "database_type: {}", Quoted(&metadata.database_type))?;
    for (language, description) in &metadata.description {
        writeln!(
            out,
            "description {}: {}",
            Quoted(language),
            Quoted(description)
        )?;
    }
    write!(out, "languages:")?;
    for language in &metadata.languages {
        write!(out, " {}", Quoted(language))?;
    }
    writeln!(out)?;
    writeln!(out, "build_epoch: {}", metadata.build_epoch)?;
    writeln!(out, "build_time: {}", date::Utc(metadata.build_epoch))?;
    writeln!(out, "ip_version: {}", metadata.ip_version)?;
    writeln!(out, "node_count: {}", metadata.node_count)?;
    writeln!(out, "record_size: {}", metadata.record_size)?;
    writeln!(
        out,
        "binary_format_version: {}.{}",
        metadata.binary_format_major_version, metadata.binary_format_minor_version
    )?;
    Ok(FINE)
}
