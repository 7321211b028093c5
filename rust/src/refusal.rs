//! The numbers by which the library refuses, each with a sentence.

use std::fmt;

/// Why the library refused: one of the 24 numbers of docs/SCOPE.md.
///
/// ```
/// use ermopinaw::Refusal;
///
/// assert_eq!(Refusal::Malformed.number(), 14);
/// assert_eq!(Refusal::from_number(10), Some(Refusal::Ipv6InIpv4));
/// assert_eq!(Refusal::from_number(25), None);
/// ```
#[derive(Clone, Copy, Debug, PartialEq, Eq, Hash)]
#[repr(u8)]
pub enum Refusal {
    /// No marker in the image.
    NoMarker = 1,
    /// The metadata can't be decoded.
    Metadata = 2,
    /// The format's major version is not 2.
    FormatVersion = 3,
    /// The IP version is not 4 or 6.
    IpVersion = 4,
    /// The node count is 0.
    NoNodes = 5,
    /// The build time is above 2^63 - 1.
    BuildTime = 6,
    /// The record size is not 24, 28 or 32.
    RecordSize = 7,
    /// The tree reaches past the marker.
    TreeTooLong = 8,
    /// The handle does not fit the image.
    Handle = 9,
    /// IPv6 asked of an IPv4 image.
    Ipv6InIpv4 = 10,
    /// A record leads outside the data section.
    Record = 11,
    /// A walk met an internal node at full width.
    TooDeep = 12,
    /// The walk is out of shape.
    OutOfShape = 13,
    /// A value is malformed, of a wrong kind, or past a limit.
    Malformed = 14,
    /// The place given is past the data section.
    Offset = 15,
    /// A prefix is longer than the address.
    PrefixLength = 16,
    /// Verification: the database type is empty.
    NoDatabaseType = 17,
    /// Verification: there is no description.
    NoDescription = 18,
    /// Verification: more networks than the tree can have.
    TooManyNetworks = 19,
    /// Verification: a separator byte is not 0.
    Separator = 20,
    /// Verification: the budget is spent.
    Budget = 21,
    /// Verification: the scratch is too short.
    Scratch = 22,
    /// The time given for an age is above 2^63 - 1.
    Time = 23,
    /// The image is longer than 2,147,483,647 bytes.
    ImageTooLong = 24,
}

/// Every refusal, in the order of its number, with its sentence.
const ALL: [(Refusal, &str); 24] = [
    (Refusal::NoMarker, "the image has no metadata marker"),
    (Refusal::Metadata, "the metadata can't be decoded"),
    (
        Refusal::FormatVersion,
        "the format's major version is not 2",
    ),
    (Refusal::IpVersion, "the IP version is not 4 or 6"),
    (Refusal::NoNodes, "the search tree has no node"),
    (Refusal::BuildTime, "the build time is above 2^63 - 1"),
    (Refusal::RecordSize, "the record size is not 24, 28 or 32"),
    (
        Refusal::TreeTooLong,
        "the search tree reaches past the metadata marker",
    ),
    (Refusal::Handle, "the image is not the one that was opened"),
    (
        Refusal::Ipv6InIpv4,
        "the image has IPv4 addresses only, and IPv6 was asked",
    ),
    (
        Refusal::Record,
        "a record of the search tree leads outside the data section",
    ),
    (
        Refusal::TooDeep,
        "the search tree goes deeper than an address has bits",
    ),
    (
        Refusal::OutOfShape,
        "the walk is not one that was begun on this image",
    ),
    (
        Refusal::Malformed,
        "a value is malformed, of a wrong kind, or past a limit of the decoder",
    ),
    (Refusal::Offset, "the offset is past the data section"),
    (
        Refusal::PrefixLength,
        "the prefix is longer than 32 (IPv4) or 128 (IPv6) bits",
    ),
    (Refusal::NoDatabaseType, "the database type is empty"),
    (Refusal::NoDescription, "there is no description"),
    (
        Refusal::TooManyNetworks,
        "the search tree has more than 3 times as many networks as nodes",
    ),
    (
        Refusal::Separator,
        "the separator between tree and data is not all zeros",
    ),
    (
        Refusal::Budget,
        "the budget was spent before the whole search tree was seen",
    ),
    (Refusal::Scratch, "the scratch is too short"),
    (Refusal::Time, "the time given is above 2^63 - 1"),
    (
        Refusal::ImageTooLong,
        "the image is longer than 2,147,483,647 bytes",
    ),
];

impl Refusal {
    /// The number of docs/SCOPE.md.
    pub fn number(self) -> u8 {
        self as u8
    }

    /// The refusal that has a number, if one has it.
    pub fn from_number(number: u64) -> Option<Refusal> {
        let index = usize::try_from(number).ok()?.checked_sub(1)?;
        ALL.get(index).map(|row| row.0)
    }

    /// What is wrong, in a sentence.
    pub fn sentence(self) -> &'static str {
        ALL[usize::from(self.number()) - 1].1
    }
}

impl fmt::Display for Refusal {
    fn fmt(&self, f: &mut fmt::Formatter<'_>) -> fmt::Result {
        write!(f, "refusal {}: {}", self.number(), self.sentence())
    }
}

#[cfg(test)]
mod tests {
    use super::*;

    #[test]
    fn the_table_is_in_order() {
        for (index, (refusal, sentence)) in ALL.iter().enumerate() {
            assert_eq!(usize::from(refusal.number()), index + 1);
            assert_eq!(Refusal::from_number(index as u64 + 1), Some(*refusal));
            assert_eq!(refusal.sentence(), *sentence);
        }
        assert_eq!(Refusal::from_number(0), None);
        assert_eq!(Refusal::from_number(25), None);
        assert_eq!(Refusal::from_number(u64::MAX), None);
    }
}
