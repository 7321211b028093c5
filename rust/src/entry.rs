//! A place in the data section, where a value can be read and stepped into.

use std::collections::HashSet;

use crate::error::MaxMindDbError;
use crate::extent;
use crate::path::{PathElement, Shown};
use crate::raw::{self, kind, Cursor, Handle, Stepped};
use crate::value::{Decode, Value};

/// A place in the data section of an opened image, and what was charged on the way to it against the decoder's
/// limits (65,536 values and 2 MiB of text an operation).
#[derive(Clone, Copy, Debug)]
pub struct Entry<'a> {
    image: &'a [u8],
    handle: Handle,
    cursor: Cursor,
}

impl<'a> Entry<'a> {
    /// The entry at an offset of the data section, with nothing charged.
    pub(crate) fn new(image: &'a [u8], handle: Handle, offset: usize) -> Self {
        let cursor = Cursor {
            place: offset as u64,
            values: 0,
            payload: 0,
        };
        Entry {
            image,
            handle,
            cursor,
        }
    }

    /// Where it lies, counted from the data section's start.
    pub fn offset(&self) -> usize {
        self.cursor.place as usize
    }

    /// The value, behind at most one pointer.
    pub fn value(&self) -> Result<Value<'a>, MaxMindDbError> {
        let read = raw::read(self.image, self.handle, self.cursor);
        let size = read.low as usize;
        // each narrowing is exact: the library keeps a number to its kind's width
        Ok(match read.kind {
            kind::REFUSED => return Err(MaxMindDbError::of_status(read.low)),
            kind::TEXT => Value::Text(self.text()?),
            kind::DOUBLE => Value::Double(f64::from_bits(read.low)),
            kind::BYTES => Value::Bytes(raw::bytes(self.image, self.handle, self.cursor)),
            kind::U16 => Value::U16(read.low as u16),
            kind::U32 => Value::U32(read.low as u32),
            kind::MAP => Value::Map(size),
            kind::I32 => Value::I32(read.integer),
            kind::U64 => Value::U64(read.low),
            kind::U128 => Value::U128(u128::from(read.high) << 64 | u128::from(read.low)),
            kind::ARRAY => Value::Array(size),
            kind::BOOLEAN => Value::Boolean(read.low != 0),
            kind::FLOAT => Value::Float(f32::from_bits(read.low as u32)),
            other => {
                let what = format!("the library answered kind {other}");
                return Err(MaxMindDbError::Disagreement(what));
            }
        })
    }

    /// The text that `value` has found.
    fn text(&self) -> Result<&'a str, MaxMindDbError> {
        std::str::from_utf8(raw::text(self.image, self.handle, self.cursor))
            .map_err(|_| MaxMindDbError::Disagreement("a text is not UTF-8".to_string()))
    }

    /// What a step of the library leads to: `None` if there is no such key or element.
    fn stepped(&self, stepped: Stepped) -> Result<Option<Entry<'a>>, MaxMindDbError> {
        match stepped.status {
            raw::OK => Ok(Some(Entry {
                cursor: stepped.cursor,
                ..*self
            })),
            raw::ABSENT => Ok(None),
            status => Err(MaxMindDbError::of_status(status)),
        }
    }

    /// One step into a map or an array: `None` if there is no such key or element.
    pub fn step(&self, element: PathElement<'_>) -> Result<Option<Entry<'a>>, MaxMindDbError> {
        let Entry {
            image,
            handle,
            cursor,
        } = *self;
        self.stepped(match element {
            PathElement::Key(key) => raw::step_key(image, handle, cursor, key.as_bytes()),
            PathElement::Index(index) => raw::step_index(image, handle, cursor, index),
            PathElement::IndexFromEnd(index) => raw::step_from_end(image, handle, cursor, index),
        })
    }

    /// What the value is, as a type: see [`Decode`].
    pub fn decode<T: Decode<'a>>(&self) -> Result<T, MaxMindDbError> {
        T::decode(*self)
    }

    /// What lies at the end of a path, as a type: `None` if there is no such key or element on the way.
    pub fn decode_path<T: Decode<'a>>(
        &self,
        path: &[PathElement<'_>],
    ) -> Result<Option<T>, MaxMindDbError> {
        let mut entry = *self;
        for (index, element) in path.iter().enumerate() {
            match entry.step(*element) {
                Ok(Some(next)) => entry = next,
                Ok(None) => return Ok(None),
                Err(error) => return Err(at_path(error, &path[..=index])),
            }
        }
        T::decode(entry)
            .map(Some)
            .map_err(|error| at_path(error, path))
    }

    /// The elements of an array. Each is found by a step of its own, which passes over those before it.
    pub fn elements(&self) -> Result<Vec<Entry<'a>>, MaxMindDbError> {
        let count = match self.value()? {
            Value::Array(count) => count,
            other => return Err(other.instead_of("array")),
        };
        (0..count)
            .map(|index| {
                self.step(PathElement::Index(index))?
                    .ok_or_else(|| disagreement("an element of an array", self.offset()))
            })
            .collect()
    }

    /// The pairs of a map, in stored order. A key that is not UTF-8 is refused with 14.
    ///
    /// The library has no answer yet for "which keys does this map have", so their places are worked out by this
    /// crate (see `extent.rs`). Keys and values are read by the library, and where a key comes for the first time,
    /// its value's place is held against the library's own step to that key: if they differ the answer is
    /// [`MaxMindDbError::Disagreement`].
    pub fn pairs(&self) -> Result<Vec<(&'a str, Entry<'a>)>, MaxMindDbError> {
        let count = match self.value()? {
            Value::Map(count) => count,
            other => return Err(other.instead_of("map")),
        };
        let section = self.data_section();
        let inside = extent::inside(section, self.offset()).ok_or_else(cut_short)?;
        if inside.children != 2 * count {
            return Err(disagreement("the number of a map's pairs", self.offset()));
        }
        let mut pairs = Vec::with_capacity(count);
        let mut seen = HashSet::with_capacity(count);
        let mut place = inside.first;
        for _ in 0..count {
            let key = match self.made(section, place)?.value()? {
                Value::Text(key) => key,
                other => return Err(other.instead_of("a key's text")),
            };
            let value_place = extent::end(section, place).ok_or_else(cut_short)?;
            let made = self.made(section, value_place)?;
            pairs.push((key, self.held_against_step(key, made, seen.insert(key))?));
            place = extent::end(section, value_place).ok_or_else(cut_short)?;
        }
        Ok(pairs)
    }

    /// An entry at a place that this crate has worked out. At the section's end, where the library would say 15, a map
    /// is cut short.
    fn made(&self, section: &[u8], place: usize) -> Result<Entry<'a>, MaxMindDbError> {
        if place < section.len() {
            Ok(Entry::new(self.image, self.handle, place))
        } else {
            Err(cut_short())
        }
    }

    /// The value of a key, with what the step to it charges. A step leads to the first of equal keys: there the place
    /// must be the same.
    fn held_against_step(
        &self,
        key: &str,
        made: Entry<'a>,
        first: bool,
    ) -> Result<Entry<'a>, MaxMindDbError> {
        let stepped = self
            .step(PathElement::Key(key))?
            .ok_or_else(|| disagreement("a key of a map", self.offset()))?;
        if first && stepped.offset() != made.offset() {
            return Err(disagreement("the place of a map's value", made.offset()));
        }
        Ok(stepped.moved(made.offset()))
    }

    /// The same charges at another place.
    fn moved(self, place: usize) -> Entry<'a> {
        let cursor = Cursor {
            place: place as u64,
            ..self.cursor
        };
        Entry { cursor, ..self }
    }

    /// The data section: from its start to the marker, which is 14 bytes long.
    fn data_section(&self) -> &'a [u8] {
        let from = self.handle.base as usize;
        let to = (self.handle.meta as usize).saturating_sub(14);
        self.image.get(from..to).unwrap_or_default()
    }
}

/// The error, with the path on which it was met.
fn at_path(error: MaxMindDbError, path: &[PathElement<'_>]) -> MaxMindDbError {
    if path.is_empty() {
        return error;
    }
    match error {
        MaxMindDbError::Decoding { detail: None } => {
            MaxMindDbError::decoding(format!("at {}", Shown(path)))
        }
        MaxMindDbError::Decoding {
            detail: Some(detail),
        } => MaxMindDbError::decoding(format!("at {}: {detail}", Shown(path))),
        other => other,
    }
}

fn cut_short() -> MaxMindDbError {
    MaxMindDbError::decoding("a map is cut short")
}

fn disagreement(what: &str, place: usize) -> MaxMindDbError {
    MaxMindDbError::Disagreement(format!(
        "{what} at data offset {place} is not the library's"
    ))
}
