//! `list`: the networks of an image, each with its record on one line.

use std::collections::HashMap;
use std::io::Write;
use std::path::Path;
use std::sync::atomic::{AtomicU64, Ordering};

use super::progress;
use super::{failed, open, say, Failure, Output, FAILED, FINE};
use ermopinaw::{IpNetwork, LookupResult, MaxMindDbError, Record, WithinOptions};

type Network<'a> = LookupResult<'a, Vec<u8>>;

/// Many networks share a record: so many texts are kept.
const KEPT: usize = 4096;

/// The texts of records by their offset.
#[derive(Default)]
struct Texts {
    kept: HashMap<usize, String>,
}

impl Texts {
    fn of(&mut self, network: &Network) -> Result<&str, MaxMindDbError> {
        let Some(offset) = network.offset() else {
            return Ok("-");
        };
        if !self.kept.contains_key(&offset) {
            let record: Option<Record> = network.decode()?;
            if self.kept.len() >= KEPT {
                self.kept.clear();
            }
            let text = record.map_or_else(String::new, |record| record.to_string());
            self.kept.insert(offset, text);
        }
        Ok(self.kept.get(&offset).map_or("", String::as_str))
    }
}

/// A network's line, or what is told in place of it.
fn line(network: Result<Network, MaxMindDbError>, texts: &mut Texts) -> Result<String, String> {
    let network = network.map_err(|error| error.to_string())?;
    let shown = network.network().map_err(|error| error.to_string())?;
    match texts.of(&network) {
        Ok(text) => Ok(format!("{shown} {text}")),
        Err(error) => Err(format!("{shown}: {error}")),
    }
}

/// A network that is refused is told, and the list goes on.
pub fn run(
    file: &Path,
    range: Option<IpNetwork>,
    options: WithinOptions,
    out: &mut Output,
) -> Result<u8, Failure> {
    let reader = open(file)?;
    let networks = match range {
        Some(range) => reader.within(range, options),
        None => reader.networks(options),
    };
    let networks = networks.map_err(|error| failed(file, error))?;
    let mut status = FINE;
    let mut texts = Texts::default();
    let count = AtomicU64::new(0);
    let what = || format!("{} networks listed", count.load(Ordering::Relaxed));
    progress::shown(what, || {
        for network in networks {
            match line(network, &mut texts) {
                Ok(line) => writeln!(out, "{line}")?,
                Err(error) => {
                    out.flush()?;
                    say(format_args!("{}: {error}", file.display()));
                    status = FAILED;
                }
            }
            count.fetch_add(1, Ordering::Relaxed);
        }
        Ok(status)
    })
}
