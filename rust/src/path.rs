//! Paths into a record.

use std::fmt;

/// One step of a path: into a map by key, or into an array by index.
///
/// The macro [`path!`](crate::path) writes paths: a text is a key, a number an index, and a number below zero counts
/// from the end.
///
/// ```
/// use ermopinaw::{path, PathElement};
///
/// let path = path!["phones", -1, "name"];
/// assert_eq!(path[0], PathElement::Key("phones"));
/// assert_eq!(path[1], PathElement::IndexFromEnd(0));
/// ```
#[derive(Clone, Copy, Debug, PartialEq, Eq)]
pub enum PathElement<'a> {
    /// Into a map, to the value of a key.
    Key(&'a str),
    /// Into an array, counted from the start: 0 is the first.
    Index(usize),
    /// Into an array, counted from the end: 0 is the last.
    IndexFromEnd(usize),
}

impl<'a> From<&'a str> for PathElement<'a> {
    fn from(key: &'a str) -> Self {
        PathElement::Key(key)
    }
}

impl From<usize> for PathElement<'_> {
    fn from(index: usize) -> Self {
        PathElement::Index(index)
    }
}

impl From<isize> for PathElement<'_> {
    /// -1 is the last element. The least number there is becomes an index past any array.
    fn from(index: isize) -> Self {
        match usize::try_from(index) {
            Ok(index) => PathElement::Index(index),
            Err(_) if index == isize::MIN => PathElement::IndexFromEnd(usize::MAX),
            Err(_) => PathElement::IndexFromEnd(index.unsigned_abs() - 1),
        }
    }
}

impl From<i32> for PathElement<'_> {
    fn from(index: i32) -> Self {
        PathElement::from(index as isize)
    }
}

/// Writes a path: `path!["subdivisions", 0, "names", "en"]`, `path!["phones", -1]`.
#[macro_export]
macro_rules! path {
    ($($element:expr),* $(,)?) => {
        [$($crate::PathElement::from($element)),*]
    };
}

/// A path as errors show it: `/subdivisions/0/names`; from the end `/phones/-1`.
pub(crate) struct Shown<'a>(pub &'a [PathElement<'a>]);

impl fmt::Display for Shown<'_> {
    fn fmt(&self, f: &mut fmt::Formatter<'_>) -> fmt::Result {
        for element in self.0 {
            match element {
                PathElement::Key(key) => write!(f, "/{}", key.escape_debug())?,
                PathElement::Index(index) => write!(f, "/{index}")?,
                PathElement::IndexFromEnd(index) => write!(f, "/-{}", *index as u128 + 1)?,
            }
        }
        Ok(())
    }
}

#[cfg(test)]
mod tests {
    use super::*;

    #[test]
    fn numbers_below_zero_count_from_the_end() {
        assert_eq!(PathElement::from(0), PathElement::Index(0));
        assert_eq!(PathElement::from(-1), PathElement::IndexFromEnd(0));
        assert_eq!(
            PathElement::from(i32::MIN),
            PathElement::IndexFromEnd(i32::MAX as usize)
        );
        assert_eq!(
            PathElement::from(isize::MIN),
            PathElement::IndexFromEnd(usize::MAX)
        );
        assert_eq!(Shown(&path!["a", 2, -3]).to_string(), "/a/2/-3");
    }
}
