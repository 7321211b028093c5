//! The reader of an image.

use std::fmt;
use std::fs::File;
use std::io::Read;
use std::net::IpAddr;
use std::path::Path;
use std::sync::OnceLock;

use crate::entry::Entry;
use crate::error::MaxMindDbError;
use crate::metadata::Metadata;
use crate::network::IpNetwork;
use crate::raw::{self, Address, Handle, Opened};
use crate::result::{LookupResult, NetworkKind};
use crate::within::{Within, WithinOptions};

impl From<IpAddr> for Address {
    fn from(ip: IpAddr) -> Address {
        match ip {
            IpAddr::V4(ip) => Address {
                width: 32,
                high: 0,
                low: u32::from(ip).into(),
            },
            IpAddr::V6(ip) => {
                let bits = u128::from(ip);
                Address {
                    width: 128,
                    high: (bits >> 64) as u64,
                    low: bits as u64,
                }
            }
        }
    }
}

/// An opened image, over anything that lends its bytes: a `Vec<u8>`, a slice, a memory map of another crate.
///
/// Whatever the bytes are, no operation panics or reaches outside them, and none changes them. If the source lends
/// other bytes later on, operations refuse with 9 or answer about those bytes.
pub struct Reader<S: AsRef<[u8]>> {
    source: S,
    opened: Opened,
    metadata: OnceLock<Metadata>,
}

impl<S: AsRef<[u8]>> fmt::Debug for Reader<S> {
    fn fmt(&self, f: &mut fmt::Formatter<'_>) -> fmt::Result {
        f.debug_struct("Reader")
            .field("length", &self.image().len())
            .field("opened", &self.opened)
            .finish_non_exhaustive()
    }
}

/// No more of a file is read: so many bytes are refused with 24 already.
const MOST_READ: u64 = 1 << 31;

impl Reader<Vec<u8>> {
    /// Reads a file into memory and opens it.
    pub fn open_readfile<P: AsRef<Path>>(database: P) -> Result<Reader<Vec<u8>>, MaxMindDbError> {
        let file = File::open(database)?;
        let expected = file.metadata()?.len().min(MOST_READ);
        let mut image = Vec::with_capacity(expected as usize);
        file.take(MOST_READ).read_to_end(&mut image)?;
        Reader::from_source(image)
    }
}

impl<S: AsRef<[u8]>> Reader<S> {
    /// Opens an image. Refusals: 24, then 1 to 8.
    pub fn from_source(source: S) -> Result<Reader<S>, MaxMindDbError> {
        let opened = raw::open(source.as_ref());
        if opened.status != raw::OK {
            return Err(MaxMindDbError::of_status(opened.status));
        }
        Ok(Reader {
            source,
            opened,
            metadata: OnceLock::new(),
        })
    }

    pub(crate) fn image(&self) -> &[u8] {
        self.source.as_ref()
    }

    pub(crate) fn handle(&self) -> Handle {
        self.opened.handle
    }

    /// How deep in the tree IPv4 addresses begin: at most 96.
    pub(crate) fn ipv4_depth(&self) -> u8 {
        self.handle().depth4 as u8
    }

    /// The entry at an offset of the data section, as a lookup gave it. Reading it refuses with 15 where the offset
    /// is past the section.
    pub fn entry(&self, offset: usize) -> Entry<'_> {
        Entry::new(self.image(), self.handle(), offset)
    }

    /// The metadata. Their texts are read when this is first called.
    pub fn metadata(&self) -> &Metadata {
        self.metadata
            .get_or_init(|| Metadata::of(self.image(), &self.opened))
    }

    /// Looks an address up. Refusals: 10 for an IPv6 address in an image of IPv4 addresses, 11.
    pub fn lookup(&self, address: IpAddr) -> Result<LookupResult<'_, S>, MaxMindDbError> {
        let handle = self.handle();
        let found = raw::lookup(self.image(), handle, address.into());
        if found.offset == raw::REFUSED {
            return Err(MaxMindDbError::of_status(found.second));
        }
        let kind = match address {
            IpAddr::V6(_) => NetworkKind::V6,
            IpAddr::V4(_) if handle.version != 6 => NetworkKind::V4,
            IpAddr::V4(_) if handle.start4 < handle.nodes => NetworkKind::V4InV6Subtree,
            // no IPv4 subtree: the answer is that of a shorter IPv6 network
            IpAddr::V4(_) => NetworkKind::V6,
        };
        Ok(LookupResult {
            reader: self,
            offset: (found.offset != raw::NO_DATA).then_some(found.offset as usize),
            prefix: found.second as u8,
            ip: address,
            kind,
        })
    }

    /// All networks of the image.
    pub fn networks(&self, options: WithinOptions) -> Result<Within<'_, S>, MaxMindDbError> {
        let first = match self.handle().version {
            6 => IpAddr::from([0_u8; 16]),
            _ => IpAddr::from([0_u8; 4]),
        };
        self.within(IpNetwork::new(first, 0)?, options)
    }

    /// The networks inside a range, or the one that the range lies in. Refusal 10 for an IPv6 range in an image of
    /// IPv4 addresses.
    pub fn within(
        &self,
        cidr: IpNetwork,
        options: WithinOptions,
    ) -> Result<Within<'_, S>, MaxMindDbError> {
        Within::begin(self, cidr, options)
    }

    /// Checks the whole image: metadata, tree, separator, and every value that the tree leads to. Tells how many
    /// distinct offsets the networks have.
    ///
    /// The tree may take 64 places for each of its nodes: a sound one takes little more than 2. Where it would take
    /// more, maxminddb might not end; here the answer is refusal 21. [`verify_with_budget`](Self::verify_with_budget)
    /// allows more.
    pub fn verify(&self) -> Result<u64, MaxMindDbError> {
        self.verify_with_budget(self.handle().nodes.saturating_mul(64).saturating_add(1024))
    }

    /// As [`verify`](Self::verify), after at most so many places of the tree.
    pub fn verify_with_budget(&self, places: u64) -> Result<u64, MaxMindDbError> {
        let needed = raw::scratch_words(self.image());
        if needed.status != raw::OK {
            return Err(MaxMindDbError::of_status(needed.status));
        }
        let mut scratch = vec![0; needed.words as usize];
        let verified = raw::verify(self.image(), &mut scratch, places);
        match verified.status {
            raw::OK => Ok(verified.offsets),
            status => Err(MaxMindDbError::of_status(status)),
        }
    }

    /// Seconds from the build of the image to a time, which is counted in seconds since 1970. It is below zero where
    /// the build is later. Refusal 23 for a time above 2^63 - 1.
    pub fn age(&self, now: u64) -> Result<i64, MaxMindDbError> {
        let aged = raw::age(self.image(), now);
        match aged.status {
            raw::OK => Ok(aged.seconds),
            status => Err(MaxMindDbError::of_status(status)),
        }
    }
}
