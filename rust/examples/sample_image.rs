//! Writes the night desk's sample image to the file that is named.

#[allow(dead_code)]
#[path = "../tests/common/mod.rs"]
mod common;

use std::process::ExitCode;
use std::{env, fs};

fn main() -> ExitCode {
    let Some(file) = env::args_os().nth(1) else {
        eprintln!("sample_image: name the file to write");
        return ExitCode::from(2);
    };
    match fs::write(&file, common::night_desk().bytes()) {
        Ok(()) => ExitCode::SUCCESS,
        Err(error) => {
            eprintln!("sample_image: {}: {error}", file.to_string_lossy());
            ExitCode::from(2)
        }
    }
}
