//! The answer of a lookup, and each network of a walk.

use std::net::{IpAddr, Ipv6Addr};

use crate::entry::Entry;
use crate::error::MaxMindDbError;
use crate::network::IpNetwork;
use crate::path::PathElement;
use crate::reader::Reader;
use crate::value::Decode;

/// How a network is shown.
#[derive(Clone, Copy, Debug, PartialEq, Eq)]
pub(crate) enum NetworkKind {
    V4,
    V6,
    /// Its prefix counts from the IPv4 subtree on.
    V4InV6Subtree,
}

/// A network and where its data are, if it has any. It is small and refers to its reader.
///
/// ```no_run
/// use ermopinaw::{path, Reader};
///
/// let reader = Reader::open_readfile("desk.mmdb")?;
/// let result = reader.lookup("203.0.113.9".parse().unwrap())?;
/// let nurse: Option<String> = result.decode_path(&path!["nurse"])?;
/// println!("{}: {}", result.network()?, nurse.as_deref().unwrap_or("nobody"));
/// # Ok::<(), ermopinaw::MaxMindDbError>(())
/// ```
pub struct LookupResult<'a, S: AsRef<[u8]>> {
    pub(crate) reader: &'a Reader<S>,
    pub(crate) offset: Option<usize>,
    /// Counted in the tree.
    pub(crate) prefix: u8,
    pub(crate) ip: IpAddr,
    pub(crate) kind: NetworkKind,
}

// by hand, since a derive would ask the same of S
impl<S: AsRef<[u8]>> Clone for LookupResult<'_, S> {
    fn clone(&self) -> Self {
        *self
    }
}

impl<S: AsRef<[u8]>> Copy for LookupResult<'_, S> {}

impl<S: AsRef<[u8]>> std::fmt::Debug for LookupResult<'_, S> {
    fn fmt(&self, f: &mut std::fmt::Formatter<'_>) -> std::fmt::Result {
        f.debug_struct("LookupResult")
            .field("offset", &self.offset)
            .field("prefix", &self.prefix)
            .field("ip", &self.ip)
            .field("kind", &self.kind)
            .finish_non_exhaustive()
    }
}

impl<'a, S: AsRef<[u8]>> LookupResult<'a, S> {
    /// Whether the network has data.
    pub fn has_data(&self) -> bool {
        self.offset.is_some()
    }

    /// Where its data are, counted from the data section's start. Networks with the same data have the same offset.
    pub fn offset(&self) -> Option<usize> {
        self.offset
    }

    /// The network: the largest that has this answer.
    ///
    /// An IPv4 address has an IPv4 network, also in an image of IPv6 addresses; where such an image has no IPv4
    /// subtree, the network is one of IPv6 that begins at `::`, as maxminddb shows it.
    pub fn network(&self) -> Result<IpNetwork, MaxMindDbError> {
        let (ip, prefix) = match (self.kind, self.ip) {
            (NetworkKind::V6, IpAddr::V4(_)) => (Ipv6Addr::UNSPECIFIED.into(), self.prefix),
            (NetworkKind::V4InV6Subtree, IpAddr::V4(_)) => {
                let depth = self.reader.ipv4_depth();
                (self.ip, self.prefix.saturating_sub(depth))
            }
            _ => (self.ip, self.prefix),
        };
        let network = IpNetwork::new(ip, prefix)?;
        IpNetwork::new(network.network(), prefix)
    }

    /// The entry that its data begin with.
    pub fn entry(&self) -> Option<Entry<'a>> {
        self.offset.map(|offset| self.reader.entry(offset))
    }

    /// Its data as a type, [`Record`](crate::Record) for all of them: `None` where it has no data.
    pub fn decode<T: Decode<'a>>(&self) -> Result<Option<T>, MaxMindDbError> {
        self.entry().map(|entry| entry.decode()).transpose()
    }

    /// What lies at the end of a path, as a type: `None` where there are no data, or no such key or element.
    pub fn decode_path<T: Decode<'a>>(
        &self,
        path: &[PathElement<'_>],
    ) -> Result<Option<T>, MaxMindDbError> {
        match self.entry() {
            Some(entry) => entry.decode_path(path),
            None => Ok(None),
        }
    }
}
