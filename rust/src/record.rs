//! A whole record.

use std::vec::IntoIter;

use crate::entry::Entry;
use crate::error::MaxMindDbError;
use crate::value::{Decode, Value};

/// The limits of one whole record: those of maxminddb's `decode`. They also end a record whose pointers lead back
/// into itself.
const MOST_VALUES: usize = 65_536;
const MOST_PAYLOAD: usize = 2 << 20;
const MOST_LEVELS: usize = 512;

/// A whole record: [`LookupResult::decode`](crate::LookupResult::decode) gives it.
///
/// It is written as JSON, on one line, or with `{:#}` on several. Bytes are a text of hex digits that begins with
/// `0x`; a double or a float that is no number is `NaN`, `inf` or `-inf`, which JSON does not have. Control
/// characters are escaped, so that a record can be shown on a terminal.
///
/// The places of a map's keys are worked out by this crate and held against the library's steps: see
/// [`Entry::pairs`].
#[derive(Clone, Debug, PartialEq)]
pub enum Record<'a> {
    /// The pairs of a map, in stored order; a key may come twice.
    Map(Vec<(&'a str, Record<'a>)>),
    /// The elements of an array.
    Array(Vec<Record<'a>>),
    /// Any other value.
    Scalar(Value<'a>),
}

impl<'a> Record<'a> {
    /// The value of a key, if this is a map that has it; the first where it comes twice.
    pub fn get(&self, key: &str) -> Option<&Record<'a>> {
        match self {
            Record::Map(pairs) => pairs.iter().find(|pair| pair.0 == key).map(|pair| &pair.1),
            _ => None,
        }
    }

    /// The value, if this is neither a map nor an array.
    pub fn scalar(&self) -> Option<Value<'a>> {
        match self {
            Record::Scalar(value) => Some(*value),
            _ => None,
        }
    }
}

/// What is left of the limits.
struct Left {
    values: usize,
    payload: usize,
}

impl Left {
    fn new() -> Left {
        Left {
            // the record counts itself
            values: MOST_VALUES - 1,
            payload: MOST_PAYLOAD,
        }
    }

    fn take_values(&mut self, count: usize) -> Result<(), MaxMindDbError> {
        less(&mut self.values, count, "values")
    }

    fn take_payload(&mut self, bytes: usize) -> Result<(), MaxMindDbError> {
        less(&mut self.payload, bytes, "bytes of text")
    }
}

fn less(left: &mut usize, taken: usize, what: &str) -> Result<(), MaxMindDbError> {
    *left = left
        .checked_sub(taken)
        .ok_or_else(|| MaxMindDbError::decoding(format!("a record has too many {what}")))?;
    Ok(())
}

/// A map or an array that is being filled: what is done of it, and the entries that are left.
enum Open<'a> {
    Map {
        done: Vec<(&'a str, Record<'a>)>,
        key: &'a str,
        rest: IntoIter<(&'a str, Entry<'a>)>,
    },
    Array {
        done: Vec<Record<'a>>,
        rest: IntoIter<Entry<'a>>,
    },
}

impl<'a> Open<'a> {
    fn next(&mut self) -> Option<Entry<'a>> {
        match self {
            Open::Map { key, rest, .. } => {
                let (name, entry) = rest.next()?;
                *key = name;
                Some(entry)
            }
            Open::Array { rest, .. } => rest.next(),
        }
    }

    fn put(&mut self, record: Record<'a>) {
        match self {
            Open::Map { done, key, .. } => done.push((key, record)),
            Open::Array { done, .. } => done.push(record),
        }
    }

    fn finished(self) -> Record<'a> {
        match self {
            Open::Map { done, .. } => Record::Map(done),
            Open::Array { done, .. } => Record::Array(done),
        }
    }
}

/// What an entry begins: a map or an array that is to be filled, or a value that is a record already.
enum Begun<'a> {
    Inside(Open<'a>),
    Done(Record<'a>),
}

fn begin<'a>(
    entry: Entry<'a>,
    outermost: bool,
    left: &mut Left,
) -> Result<Begun<'a>, MaxMindDbError> {
    let value = entry.value()?;
    match value {
        Value::Map(count) => {
            left.take_values(2 * count)?;
            let pairs = entry.pairs()?;
            left.take_payload(pairs.iter().map(|pair| pair.0.len()).sum())?;
            return Ok(Begun::Inside(Open::Map {
                done: Vec::with_capacity(count),
                key: "",
                rest: pairs.into_iter(),
            }));
        }
        Value::Array(count) => {
            left.take_values(count)?;
            return Ok(Begun::Inside(Open::Array {
                done: Vec::with_capacity(count),
                rest: entry.elements()?.into_iter(),
            }));
        }
        // a record that is one text alone has entered nothing, and is not limited
        Value::Text(text) if !outermost => left.take_payload(text.len())?,
        Value::Bytes(bytes) if !outermost => left.take_payload(bytes.len())?,
        _ => {}
    }
    Ok(Begun::Done(Record::Scalar(value)))
}

impl<'a> Decode<'a> for Record<'a> {
    /// By a list of the maps and arrays that are open, and not by calling itself: a record may have many levels.
    fn decode(entry: Entry<'a>) -> Result<Self, MaxMindDbError> {
        let mut left = Left::new();
        let mut open: Vec<Open> = Vec::new();
        let mut next = entry;
        loop {
            let mut finished = match begin(next, open.is_empty(), &mut left)? {
                Begun::Done(record) => Some(record),
                Begun::Inside(_) if open.len() == MOST_LEVELS => {
                    return Err(MaxMindDbError::decoding("a record has too many levels"));
                }
                Begun::Inside(container) => {
                    open.push(container);
                    None
                }
            };
            next = loop {
                let Some(last) = open.last_mut() else {
                    return finished.ok_or_else(|| MaxMindDbError::decoding("no record"));
                };
                if let Some(record) = finished.take() {
                    last.put(record);
                }
                match last.next() {
                    Some(entry) => break entry,
                    None => finished = open.pop().map(Open::finished),
                }
            };
        }
    }
}
