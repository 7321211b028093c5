//! What an image says about itself.

use std::collections::BTreeMap;
use std::time::{Duration, SystemTime, UNIX_EPOCH};

use crate::error::MaxMindDbError;
use crate::raw::{self, Opened};
use crate::refusal::Refusal;

/// The metadata of an image, with maxminddb's names.
#[derive(Clone, Debug, PartialEq, Eq)]
pub struct Metadata {
    /// The format's major version: always 2.
    pub binary_format_major_version: u16,
    /// The format's minor version.
    pub binary_format_minor_version: u16,
    /// When the image was built, in seconds since 1970.
    pub build_epoch: u64,
    /// What kind of data the image has.
    pub database_type: String,
    /// Descriptions by language.
    pub description: BTreeMap<String, String>,
    /// 4 or 6.
    pub ip_version: u16,
    /// The languages that texts may have.
    pub languages: Vec<String>,
    /// How many nodes the search tree has.
    pub node_count: u32,
    /// How many bits a record of the tree has: 24, 28 or 32.
    pub record_size: u16,
}

/// The library has checked that the metadata's texts are UTF-8.
fn text(bytes: &[u8]) -> String {
    String::from_utf8_lossy(bytes).into_owned()
}

impl Metadata {
    /// Of an image that opened. Each narrowing is exact: opening keeps the fields to these widths.
    pub(crate) fn of(image: &[u8], opened: &Opened) -> Metadata {
        let description = (0..opened.descriptions as usize).map(|index| {
            (
                text(raw::description_language(image, index)),
                text(raw::description(image, index)),
            )
        });
        let languages =
            (0..opened.languages as usize).map(|index| text(raw::language(image, index)));
        Metadata {
            binary_format_major_version: opened.major as u16,
            binary_format_minor_version: opened.minor as u16,
            build_epoch: opened.build,
            database_type: text(raw::database_type(image)),
            description: description.collect(),
            ip_version: opened.handle.version as u16,
            languages: languages.collect(),
            node_count: opened.handle.nodes as u32,
            record_size: opened.handle.size as u16,
        }
    }

    /// When the image was built. Refusal 6 where this machine's clock has no such time.
    pub fn build_time(&self) -> Result<SystemTime, MaxMindDbError> {
        UNIX_EPOCH
            .checked_add(Duration::from_secs(self.build_epoch))
            .ok_or_else(|| Refusal::BuildTime.into())
    }
}
