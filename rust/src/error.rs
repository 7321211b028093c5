//! What can go wrong.

use std::{error, fmt, io};

use crate::refusal::Refusal;

/// Why an operation has no answer. The cases are named as those of maxminddb's error; where the library refused,
/// [`number`](Self::number) says with which of its numbers.
///
/// ```
/// use ermopinaw::{MaxMindDbError, Reader, Refusal};
///
/// let error = Reader::from_source(b"no image").unwrap_err();
/// assert!(matches!(error, MaxMindDbError::InvalidDatabase(Refusal::NoMarker)));
/// assert_eq!(error.number(), Some(1));
/// assert_eq!(error.to_string(), "refusal 1: the image has no metadata marker");
/// ```
#[derive(Debug)]
#[non_exhaustive]
pub enum MaxMindDbError {
    /// The image, or the part of it that was come to, is not sound: 1 to 8, 11, 12, 17 to 20, 24.
    InvalidDatabase(Refusal),
    /// A value can't be read as it was asked for: 14. The detail says more where it is known.
    Decoding {
        /// What was asked for and what was found.
        detail: Option<String>,
    },
    /// The work allowed was spent before there was an answer: 21. The image may still be sound.
    ResourceLimit(Refusal),
    /// What was asked can't be asked of this image: 9, 10, 13, 15, 16, 22, 23.
    InvalidInput(Refusal),
    /// A text that is no network.
    InvalidNetwork(String),
    /// A file can't be read.
    Io(io::Error),
    /// This crate and the library that it is over do not agree: a fault of this crate, never of an image.
    Disagreement(String),
}

impl MaxMindDbError {
    /// The number of the refusal, if the library refused.
    pub fn number(&self) -> Option<u8> {
        self.refusal().map(Refusal::number)
    }

    /// The refusal, if the library refused.
    pub fn refusal(&self) -> Option<Refusal> {
        match self {
            Self::InvalidDatabase(refusal)
            | Self::ResourceLimit(refusal)
            | Self::InvalidInput(refusal) => Some(*refusal),
            Self::Decoding { .. } => Some(Refusal::Malformed),
            Self::InvalidNetwork(_) | Self::Io(_) | Self::Disagreement(_) => None,
        }
    }

    /// The error for a status of the library that is no answer.
    pub(crate) fn of_status(status: u64) -> Self {
        match Refusal::from_number(status) {
            Some(refusal) => refusal.into(),
            None => Self::Disagreement(format!("the library answered {status}")),
        }
    }

    /// Refusal 14, with what is known about it.
    pub(crate) fn decoding(detail: impl Into<String>) -> Self {
        Self::Decoding {
            detail: Some(detail.into()),
        }
    }
}

impl From<Refusal> for MaxMindDbError {
    fn from(refusal: Refusal) -> Self {
        use Refusal::*;
        match refusal {
            Malformed => Self::Decoding { detail: None },
            Budget => Self::ResourceLimit(refusal),
            Handle | Ipv6InIpv4 | OutOfShape | Offset | PrefixLength | Scratch | Time => {
                Self::InvalidInput(refusal)
            }
            NoMarker | Metadata | FormatVersion | IpVersion | NoNodes | BuildTime | RecordSize
            | TreeTooLong | Record | TooDeep | NoDatabaseType | NoDescription | TooManyNetworks
            | Separator | ImageTooLong => Self::InvalidDatabase(refusal),
        }
    }
}

impl From<io::Error> for MaxMindDbError {
    fn from(error: io::Error) -> Self {
        Self::Io(error)
    }
}

impl fmt::Display for MaxMindDbError {
    fn fmt(&self, f: &mut fmt::Formatter<'_>) -> fmt::Result {
        match self {
            Self::InvalidDatabase(refusal)
            | Self::ResourceLimit(refusal)
            | Self::InvalidInput(refusal) => refusal.fmt(f),
            Self::Decoding { detail: None } => Refusal::Malformed.fmt(f),
            Self::Decoding {
                detail: Some(detail),
            } => write!(f, "{} ({detail})", Refusal::Malformed),
            Self::InvalidNetwork(text) => write!(f, "{text:?} is no network"),
            Self::Io(error) => error.fmt(f),
            Self::Disagreement(what) => write!(f, "a fault of the ermopinaw crate: {what}"),
        }
    }
}

impl error::Error for MaxMindDbError {
    fn source(&self) -> Option<&(dyn error::Error + 'static)> {
        match self {
            Self::Io(error) => Some(error),
            _ => None,
        }
    }
}
