//! One value, and how Rust's types are made of it.

use std::collections::BTreeMap;

use crate::entry::Entry;
use crate::error::MaxMindDbError;

/// A value of the data section. Of a map and an array it has the number of entries: [`Entry`] steps into them.
#[derive(Clone, Copy, Debug, PartialEq)]
pub enum Value<'a> {
    /// A text, the very bytes of the image.
    Text(&'a str),
    /// A double, with its exact bits.
    Double(f64),
    /// Bytes, those of the image.
    Bytes(&'a [u8]),
    /// A number of 16 bits.
    U16(u16),
    /// A number of 32 bits.
    U32(u32),
    /// A map, and how many pairs it has.
    Map(usize),
    /// A number of 32 bits with its sign.
    I32(i32),
    /// A number of 64 bits.
    U64(u64),
    /// A number of 128 bits.
    U128(u128),
    /// An array, and how many elements it has.
    Array(usize),
    /// True or false.
    Boolean(bool),
    /// A float, with its exact bits.
    Float(f32),
}

impl<'a> Value<'a> {
    /// The name of its kind, as Rust writes the type.
    pub fn kind(&self) -> &'static str {
        match self {
            Value::Text(_) => "text",
            Value::Double(_) => "f64",
            Value::Bytes(_) => "bytes",
            Value::U16(_) => "u16",
            Value::U32(_) => "u32",
            Value::Map(_) => "map",
            Value::I32(_) => "i32",
            Value::U64(_) => "u64",
            Value::U128(_) => "u128",
            Value::Array(_) => "array",
            Value::Boolean(_) => "bool",
            Value::Float(_) => "f32",
        }
    }

    /// The text, if it is one.
    pub fn as_str(&self) -> Option<&'a str> {
        match *self {
            Value::Text(text) => Some(text),
            _ => None,
        }
    }

    /// The bytes, if it is a value of bytes.
    pub fn as_bytes(&self) -> Option<&'a [u8]> {
        match *self {
            Value::Bytes(bytes) => Some(bytes),
            _ => None,
        }
    }

    /// The number, if it is a whole number that is not below zero, of whatever width.
    pub fn as_u128(&self) -> Option<u128> {
        match *self {
            Value::U16(n) => Some(n.into()),
            Value::U32(n) => Some(n.into()),
            Value::U64(n) => Some(n.into()),
            Value::U128(n) => Some(n),
            Value::I32(n) => u128::try_from(n).ok(),
            _ => None,
        }
    }

    /// The number, if it is a double or a float.
    pub fn as_f64(&self) -> Option<f64> {
        match *self {
            Value::Double(n) => Some(n),
            Value::Float(n) => Some(n.into()),
            _ => None,
        }
    }

    /// True or false, if it is one of the two.
    pub fn as_bool(&self) -> Option<bool> {
        match *self {
            Value::Boolean(b) => Some(b),
            _ => None,
        }
    }

    /// The error for a value of another kind than was asked for.
    pub(crate) fn instead_of(&self, wanted: &str) -> MaxMindDbError {
        MaxMindDbError::decoding(format!("{wanted} was asked for, {} was found", self.kind()))
    }
}

/// What can be made of a value. As in maxminddb a number must have exactly the width that is asked for.
///
/// A type of one's own takes what it needs by path; it stands where serde's derive did:
///
/// ```
/// use ermopinaw::{path, Decode, Entry, MaxMindDbError};
///
/// struct OnDuty {
///     nurse: String,
///     phone: Option<String>,
/// }
///
/// impl<'a> Decode<'a> for OnDuty {
///     fn decode(entry: Entry<'a>) -> Result<Self, MaxMindDbError> {
///         Ok(OnDuty {
///             nurse: entry.decode_path(&path!["nurse"])?.unwrap_or_default(),
///             phone: entry.decode_path(&path!["phone"])?,
///         })
///     }
/// }
/// ```
pub trait Decode<'a>: Sized {
    /// Makes it of the value that the entry leads to.
    fn decode(entry: Entry<'a>) -> Result<Self, MaxMindDbError>;
}

/// For each type the case of `Value` that it is made of.
macro_rules! decode_case {
    ($($type:ty, $case:ident, $wanted:literal;)*) => {$(
        impl<'a> Decode<'a> for $type {
            fn decode(entry: Entry<'a>) -> Result<Self, MaxMindDbError> {
                match entry.value()? {
                    Value::$case(value) => Ok(value.into()),
                    other => Err(other.instead_of($wanted)),
                }
            }
        }
    )*};
}

decode_case! {
    &'a str, Text, "text";
    String, Text, "text";
    &'a [u8], Bytes, "bytes";
    f64, Double, "f64";
    f32, Float, "f32";
    u16, U16, "u16";
    u32, U32, "u32";
    u64, U64, "u64";
    u128, U128, "u128";
    i32, I32, "i32";
    bool, Boolean, "bool";
}

impl<'a> Decode<'a> for Value<'a> {
    fn decode(entry: Entry<'a>) -> Result<Self, MaxMindDbError> {
        entry.value()
    }
}

impl<'a> Decode<'a> for Entry<'a> {
    fn decode(entry: Entry<'a>) -> Result<Self, MaxMindDbError> {
        Ok(entry)
    }
}

impl<'a, T: Decode<'a>> Decode<'a> for Vec<T> {
    fn decode(entry: Entry<'a>) -> Result<Self, MaxMindDbError> {
        entry.elements()?.into_iter().map(T::decode).collect()
    }
}

impl<'a, T: Decode<'a>> Decode<'a> for BTreeMap<String, T> {
    /// Of a key that comes twice, the last value stays, as in maxminddb.
    fn decode(entry: Entry<'a>) -> Result<Self, MaxMindDbError> {
        let pairs = entry.pairs()?.into_iter();
        pairs
            .map(|(key, value)| Ok((key.to_string(), T::decode(value)?)))
            .collect()
    }
}
