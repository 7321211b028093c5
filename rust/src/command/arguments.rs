//! The words of a call.

use std::ffi::OsString;
use std::path::PathBuf;
use std::vec::IntoIter;

use ermopinaw::{IpNetwork, WithinOptions};

pub const HELP: &str = "\
Reads MaxMind DB images through a library in which every answer is proved.

  ermopinaw age FILE [--max SECONDS] [--now SECONDS]
      writes how many seconds ago the image was built; below zero if its build
      time is still to come. With --max the exit status is 1 if it is older
      than that. --now is taken for the present time, in seconds since 1970.
  ermopinaw lookup FILE ADDRESS..
      writes each address's network and its record as JSON, or \"no data\".
  ermopinaw list FILE [RANGE] [--without-data] [--aliases] [--skip-empty]
      writes the networks of the image, or of a range such as 203.0.113.0/24,
      each on a line with its record.
  ermopinaw verify FILE
      checks the whole image.
  ermopinaw metadata FILE
      writes what the image says about itself.
  ermopinaw --help, ermopinaw --version

Exit status: 0 done; 1 too old (age alone); 2 something was refused or failed,
and standard error says what, with the refusal's number.
An image whose build time is still to come is never too old.
Words after -- are no options.
";

/// What is asked for.
#[derive(Debug)]
pub enum Command {
    Help,
    Version,
    Age {
        file: PathBuf,
        max: Option<u64>,
        now: Option<u64>,
    },
    Lookup {
        file: PathBuf,
        addresses: Vec<String>,
    },
    List {
        file: PathBuf,
        range: Option<IpNetwork>,
        options: WithinOptions,
    },
    Verify {
        file: PathBuf,
    },
    Metadata {
        file: PathBuf,
    },
}

/// The words that are no options, and the options.
#[derive(Default)]
struct Words {
    plain: Vec<OsString>,
    max: Option<u64>,
    now: Option<u64>,
    options: WithinOptions,
    /// The options that were given, by name.
    given: Vec<String>,
    help: bool,
    version: bool,
}

/// A word as a person would see it.
fn shown(word: &OsString) -> String {
    format!("{:?}", word.to_string_lossy())
}

/// The number after an option, which may be part of the same word: `--max 5`, `--max=5`.
fn number(name: &str, inline: Option<&str>, rest: &mut IntoIter<OsString>) -> Result<u64, String> {
    let wrong = |word: &str| format!("{name} takes a whole number of seconds, not {word:?}");
    let word = match inline {
        Some(word) => word.to_string(),
        None => match rest.next() {
            Some(word) => word.to_string_lossy().into_owned(),
            None => return Err(format!("{name} takes a number of seconds")),
        },
    };
    if !word.bytes().all(|b| b.is_ascii_digit()) {
        return Err(wrong(&word));
    }
    word.parse().map_err(|_| wrong(&word))
}

fn words(all: Vec<OsString>) -> Result<Words, String> {
    let mut words = Words::default();
    let mut rest = all.into_iter();
    while let Some(word) = rest.next() {
        let text = match word.to_str() {
            Some(text) if text.starts_with('-') && text.len() > 1 => text,
            _ => {
                words.plain.push(word);
                continue;
            }
        };
        if text == "--" {
            words.plain.extend(rest);
            break;
        }
        let (name, inline) = match text.split_once('=') {
            Some((name, inline)) => (name, Some(inline)),
            None => (text, None),
        };
        words.given.push(name.to_string());
        match (name, inline) {
            ("--max", _) => words.max = Some(number(name, inline, &mut rest)?),
            ("--now", _) => words.now = Some(number(name, inline, &mut rest)?),
            ("--without-data", None) => {
                words.options = words.options.include_networks_without_data();
            }
            ("--aliases", None) => words.options = words.options.include_aliased_networks(),
            ("--skip-empty", None) => words.options = words.options.skip_empty_values(),
            ("--help" | "-h", None) => words.help = true,
            ("--version" | "-V", None) => words.version = true,
            _ => return Err(format!("there is no option {}", shown(&word))),
        }
    }
    Ok(words)
}

/// Only these options go with the command.
fn only(command: &str, words: &Words, allowed: &[&str]) -> Result<(), String> {
    match words.given.iter().find(|g| !allowed.contains(&g.as_str())) {
        Some(other) => Err(format!("{other} does not go with {command}")),
        None => Ok(()),
    }
}

pub fn parse(all: Vec<OsString>) -> Result<Command, String> {
    let mut words = words(all)?;
    if words.help {
        return Ok(Command::Help);
    }
    if words.version {
        return Ok(Command::Version);
    }
    let mut plain = std::mem::take(&mut words.plain).into_iter();
    let Some(name) = plain.next() else {
        return Err("a command is missing".to_string());
    };
    let name = name.to_string_lossy().into_owned();
    let allowed: &[&str] = match name.as_str() {
        "age" => &["--max", "--now"],
        "list" => &["--without-data", "--aliases", "--skip-empty"],
        "lookup" | "verify" | "metadata" => &[],
        other => return Err(format!("there is no command {other:?}")),
    };
    only(&name, &words, allowed)?;
    let Some(file) = plain.next().map(PathBuf::from) else {
        return Err(format!("{name} takes a file"));
    };
    let command = match name.as_str() {
        "age" => Command::Age {
            file,
            max: words.max,
            now: words.now,
        },
        "lookup" => {
            let addresses: Vec<String> = plain
                .by_ref()
                .map(|word| word.to_string_lossy().into_owned())
                .collect();
            if addresses.is_empty() {
                return Err("lookup takes an address".to_string());
            }
            Command::Lookup { file, addresses }
        }
        "list" => {
            let range = plain.next().map(|word| word.to_string_lossy().parse());
            Command::List {
                file,
                range: range
                    .transpose()
                    .map_err(|error: ermopinaw::MaxMindDbError| error.to_string())?,
                options: words.options,
            }
        }
        "verify" => Command::Verify { file },
        _ => Command::Metadata { file },
    };
    match plain.next() {
        Some(more) => Err(format!("{} is one word too many", shown(&more))),
        None => Ok(command),
    }
}
