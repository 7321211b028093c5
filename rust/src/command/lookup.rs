//! `lookup`: each address's network and record.

use std::io::Write;
use std::net::IpAddr;
use std::path::Path;

use super::{open, say, Failure, Output, FAILED, FINE};
use ermopinaw::{MaxMindDbError, Reader, Record};

/// What is written for an address.
fn answer(reader: &Reader<Vec<u8>>, address: IpAddr) -> Result<String, MaxMindDbError> {
    let result = reader.lookup(address)?;
    let network = result.network()?;
    Ok(match result.decode::<Record>()? {
        Some(record) => format!("{address} {network}\n{record:#}"),
        None => format!("{address} {network} no data"),
    })
}

/// An address that is refused is told, and the next one is looked up.
pub fn run(file: &Path, addresses: &[String], out: &mut Output) -> Result<u8, Failure> {
    let reader = open(file)?;
    let mut status = FINE;
    for word in addresses {
        let answer = match word.parse() {
            Ok(address) => answer(&reader, address).map_err(|error| format!("{word}: {error}")),
            Err(_) => Err(format!("{word:?} is no address")),
        };
        match answer {
            Ok(answer) => writeln!(out, "{answer}")?,
            Err(what) => {
                out.flush()?;
                say(what);
                status = FAILED;
            }
        }
    }
    Ok(status)
}
