//! The text of records and values: JSON, for people and programs.

use std::fmt;

use crate::record::Record;
use crate::value::Value;

impl fmt::Display for Record<'_> {
    fn fmt(&self, f: &mut fmt::Formatter<'_>) -> fmt::Result {
        let indent = f.alternate().then_some(0);
        write_record(f, self, indent)
    }
}

impl fmt::Display for Value<'_> {
    /// As in the text of a [`Record`]; a map or an array is only counted.
    fn fmt(&self, f: &mut fmt::Formatter<'_>) -> fmt::Result {
        match self {
            Value::Text(text) => Quoted(text).fmt(f),
            Value::Bytes(bytes) => {
                f.write_str("\"0x")?;
                bytes.iter().try_for_each(|byte| write!(f, "{byte:02x}"))?;
                f.write_str("\"")
            }
            Value::Double(n) => write!(f, "{n:?}"),
            Value::Float(n) => write!(f, "{n:?}"),
            Value::U16(n) => n.fmt(f),
            Value::U32(n) => n.fmt(f),
            Value::U64(n) => n.fmt(f),
            Value::U128(n) => n.fmt(f),
            Value::I32(n) => n.fmt(f),
            Value::Boolean(b) => b.fmt(f),
            Value::Map(count) => write!(f, "a map of {count}"),
            Value::Array(count) => write!(f, "an array of {count}"),
        }
    }
}

/// A text in quotation marks, with JSON's escapes. Every control character is escaped.
pub struct Quoted<'a>(pub &'a str);

impl fmt::Display for Quoted<'_> {
    fn fmt(&self, f: &mut fmt::Formatter<'_>) -> fmt::Result {
        f.write_str("\"")?;
        for c in self.0.chars() {
            match c {
                '"' => f.write_str("\\\"")?,
                '\\' => f.write_str("\\\\")?,
                '\n' => f.write_str("\\n")?,
                '\r' => f.write_str("\\r")?,
                '\t' => f.write_str("\\t")?,
                c if c.is_control() => write!(f, "\\u{:04x}", u32::from(c))?,
                c => write!(f, "{c}")?,
            }
        }
        f.write_str("\"")
    }
}

/// Between two entries, and between the brackets and the entries: a new line with its indent, or what stands there
/// on one line.
fn write_break(f: &mut fmt::Formatter<'_>, indent: Option<usize>, one_line: &str) -> fmt::Result {
    match indent {
        Some(indent) => write!(f, "\n{:1$}", "", indent),
        None => f.write_str(one_line),
    }
}

/// Brackets around entries, each written by `entry`.
fn write_all<T>(
    f: &mut fmt::Formatter<'_>,
    indent: Option<usize>,
    brackets: [&str; 2],
    entries: &[T],
    entry: impl Fn(&mut fmt::Formatter<'_>, &T, Option<usize>) -> fmt::Result,
) -> fmt::Result {
    let inside = indent.map(|indent| indent + 2);
    f.write_str(brackets[0])?;
    for (index, one) in entries.iter().enumerate() {
        if index > 0 {
            f.write_str(",")?;
        }
        write_break(f, inside, if index > 0 { " " } else { "" })?;
        entry(f, one, inside)?;
    }
    if !entries.is_empty() {
        write_break(f, indent, "")?;
    }
    f.write_str(brackets[1])
}

fn write_record(
    f: &mut fmt::Formatter<'_>,
    record: &Record<'_>,
    indent: Option<usize>,
) -> fmt::Result {
    match record {
        Record::Map(pairs) => write_all(f, indent, ["{", "}"], pairs, |f, (key, value), inside| {
            write!(f, "{}: ", Quoted(key))?;
            write_record(f, value, inside)
        }),
        Record::Array(elements) => write_all(f, indent, ["[", "]"], elements, |f, one, inside| {
            write_record(f, one, inside)
        }),
        Record::Scalar(value) => write!(f, "{value}"),
    }
}

#[cfg(test)]
mod tests {
    use super::*;

    #[test]
    fn a_record_is_written_as_json() {
        let record = Record::Map(vec![
            ("a\"\n", Record::Scalar(Value::Text("\u{1b}[2J\u{9b}ü"))),
            (
                "b",
                Record::Array(vec![
                    Record::Scalar(Value::Bytes(&[0, 255])),
                    Record::Scalar(Value::Double(1.0)),
                    Record::Map(vec![]),
                ]),
            ),
        ]);
        assert_eq!(
            record.to_string(),
            r#"{"a\"\n": "\u001b[2J\u009bü", "b": ["0x00ff", 1.0, {}]}"#
        );
        assert_eq!(
            format!("{record:#}"),
            "{\n  \"a\\\"\\n\": \"\\u001b[2J\\u009bü\",\n  \"b\": [\n    \"0x00ff\",\n    1.0,\n    {}\n  ]\n}"
        );
    }
}
