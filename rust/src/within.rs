//! Walks over the networks of an image.

use std::iter::FusedIterator;
use std::net::{IpAddr, Ipv4Addr, Ipv6Addr};

use crate::error::MaxMindDbError;
use crate::network::IpNetwork;
use crate::raw::{self, Address};
use crate::reader::Reader;
use crate::refusal::Refusal;
use crate::result::{LookupResult, NetworkKind};

/// Which networks a walk hands out.
///
/// ```
/// use ermopinaw::WithinOptions;
///
/// let options = WithinOptions::default()
///     .include_networks_without_data()
///     .skip_empty_values();
/// ```
#[derive(Clone, Copy, Debug, Default, PartialEq, Eq)]
pub struct WithinOptions {
    include_aliased_networks: bool,
    include_networks_without_data: bool,
    skip_empty_values: bool,
}

impl WithinOptions {
    /// IPv4 networks also where the tree has them again under an IPv6 prefix.
    #[must_use]
    pub fn include_aliased_networks(mut self) -> Self {
        self.include_aliased_networks = true;
        self
    }

    /// Networks without data too.
    #[must_use]
    pub fn include_networks_without_data(mut self) -> Self {
        self.include_networks_without_data = true;
        self
    }

    /// No networks whose data are an empty map or an empty array.
    #[must_use]
    pub fn skip_empty_values(mut self) -> Self {
        self.skip_empty_values = true;
        self
    }

    /// The sum that the library takes.
    fn bits(self) -> u64 {
        raw::ALIASED * u64::from(self.include_aliased_networks)
            + raw::DATALESS * u64::from(self.include_networks_without_data)
            + raw::SKIP_EMPTY * u64::from(self.skip_empty_values)
    }
}

/// How many networks one call of the library may hand out, and how many places of the tree it may take for them.
const ROWS: usize = 256;
const PLACES: u64 = 1 << 16;

/// What follows the networks that are at hand.
#[derive(Debug)]
enum Then {
    Fill,
    Error(Refusal),
    Last(Option<MaxMindDbError>),
}

/// The networks of a range, in order, as [`Reader::within`] and [`Reader::networks`] begin it.
///
/// After a network that can't be had (11, 12, 14) it goes on with the next, as maxminddb's iterator does.
pub struct Within<'de, S: AsRef<[u8]>> {
    reader: &'de Reader<S>,
    walk: Box<[u64]>,
    rows: Box<[u64]>,
    /// How many words of rows are filled, and how many of them are handed out.
    filled: usize,
    given: usize,
    then: Then,
    taken: u64,
}

impl<S: AsRef<[u8]>> std::fmt::Debug for Within<'_, S> {
    fn fmt(&self, f: &mut std::fmt::Formatter<'_>) -> std::fmt::Result {
        f.debug_struct("Within")
            .field("at_hand", &((self.filled - self.given) / raw::ROW_WORDS))
            .field("then", &self.then)
            .field("taken", &self.taken)
            .finish_non_exhaustive()
    }
}

impl<'de, S: AsRef<[u8]>> Within<'de, S> {
    pub(crate) fn begin(
        reader: &'de Reader<S>,
        range: IpNetwork,
        options: WithinOptions,
    ) -> Result<Self, MaxMindDbError> {
        let mut walk = vec![0; raw::WALK_WORDS].into_boxed_slice();
        let status = raw::within(
            reader.image(),
            reader.handle(),
            Address::from(range.ip()),
            range.prefix().into(),
            options.bits(),
            &mut walk,
        );
        if status != raw::OK {
            return Err(MaxMindDbError::of_status(status));
        }
        Ok(Within {
            reader,
            walk,
            rows: vec![0; ROWS * raw::ROW_WORDS].into_boxed_slice(),
            filled: 0,
            given: 0,
            then: Then::Fill,
            taken: 0,
        })
    }

    /// How many places of the tree the walk has taken so far: what shows that it goes on where it hands out little.
    pub fn places_taken(&self) -> u64 {
        self.taken
    }

    /// One call of the library.
    fn fill(&mut self) {
        let (image, handle) = (self.reader.image(), self.reader.handle());
        let filled = raw::rows(image, handle, &mut self.walk, &mut self.rows, PLACES);
        self.taken = self.taken.saturating_add(filled.taken);
        self.given = 0;
        self.filled = (filled.rows as usize)
            .saturating_mul(raw::ROW_WORDS)
            .min(self.rows.len());
        self.then = match filled.status {
            raw::OK | raw::PAUSED => Then::Fill,
            raw::END => Then::Last(None),
            status => match Refusal::from_number(status) {
                Some(refusal @ (Refusal::Record | Refusal::TooDeep | Refusal::Malformed)) => {
                    Then::Error(refusal)
                }
                _ => Then::Last(Some(MaxMindDbError::of_status(status))),
            },
        };
    }

    /// The next network that is at hand.
    fn row(&mut self) -> Option<LookupResult<'de, S>> {
        let row = &self.rows[self.given..self.filled];
        let &[high, low, length, kind, offset, ..] = row else {
            return None;
        };
        self.given += raw::ROW_WORDS;
        let v4 = || IpAddr::from(Ipv4Addr::from(low as u32));
        let v6 = || IpAddr::from(Ipv6Addr::from(u128::from(high) << 64 | u128::from(low)));
        let (ip, kind) = match kind {
            raw::V4 => (v4(), NetworkKind::V4),
            raw::V4_IN_V6_SUBTREE => (v4(), NetworkKind::V4InV6Subtree),
            _ => (v6(), NetworkKind::V6),
        };
        Some(LookupResult {
            reader: self.reader,
            offset: (offset != raw::NO_DATA).then_some(offset as usize),
            prefix: length as u8,
            ip,
            kind,
        })
    }
}

impl<'de, S: AsRef<[u8]>> Iterator for Within<'de, S> {
    type Item = Result<LookupResult<'de, S>, MaxMindDbError>;

    fn next(&mut self) -> Option<Self::Item> {
        loop {
            if let Some(result) = self.row() {
                return Some(Ok(result));
            }
            match &mut self.then {
                Then::Fill => self.fill(),
                Then::Error(refusal) => {
                    let error = (*refusal).into();
                    self.then = Then::Fill;
                    return Some(Err(error));
                }
                Then::Last(error) => return error.take().map(Err),
            }
        }
    }
}

impl<S: AsRef<[u8]>> FusedIterator for Within<'_, S> {}
