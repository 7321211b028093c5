//! Reads MaxMind DB images through a library in which every answer is proved.
//!
//! It stands in place of the crate maxminddb 0.32.0 and has its names where they fit. The tree, the values, the walks
//! and the verification are those of the proved library; this crate lends it bytes and gives its answers Rust's
//! shapes. There is no other dependency.
//!
//! # First steps
//!
//! ```
//! use ermopinaw::{path, Reader, WithinOptions};
//!
//! # #[allow(dead_code)] mod common { include!(concat!(env!("CARGO_MANIFEST_DIR"), "/tests/common/mod.rs")); }
//! # fn sample() -> Vec<u8> { common::night_desk().bytes() }
//! # fn main() -> Result<(), Box<dyn std::error::Error>> {
//! // Reader::open_readfile("desk.mmdb")? reads a file
//! let reader = Reader::from_source(sample())?;
//!
//! let result = reader.lookup("203.0.113.9".parse()?)?;
//! assert_eq!(result.network()?.to_string(), "203.0.113.0/24");
//! let nurse: Option<String> = result.decode_path(&path!["nurse"])?;
//! assert_eq!(nurse.as_deref(), Some("Ana Pires"));
//! let first: Option<&str> = result.decode_path(&path!["phone", 0])?;
//! assert_eq!(first, Some("555-0101"));
//!
//! let within = reader.within("192.0.2.0/24".parse()?, WithinOptions::default())?;
//! for network in within {
//!     let network = network?;
//!     let record: Option<ermopinaw::Record> = network.decode()?;
//!     println!("{} {}", network.network()?, record.unwrap());
//! }
//!
//! assert_eq!(reader.metadata().database_type, "Night-Desk");
//! assert_eq!(reader.age(1_794_787_199)?, -1); // a second before it was built
//! assert_eq!(reader.verify()?, 3); // sound, with three distinct records
//! # Ok(())
//! # }
//! ```
//!
#![doc = include_str!("../MIGRATING.md")]

mod entry;
mod error;
mod extent;
mod json;
mod metadata;
mod network;
mod path;
mod raw;
mod reader;
mod record;
mod refusal;
mod result;
mod value;
mod within;

pub use entry::Entry;
pub use error::MaxMindDbError;
pub use json::Quoted;
pub use metadata::Metadata;
pub use network::IpNetwork;
pub use path::PathElement;
pub use reader::Reader;
pub use record::Record;
pub use refusal::Refusal;
pub use result::LookupResult;
pub use value::{Decode, Value};
pub use within::{Within, WithinOptions};
