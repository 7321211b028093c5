//! Where values lie in the data section: the one thing that this crate works out for itself.
//!
//! The library reads values and steps to keys and indexes, but it does not say yet which keys a map has, nor where a
//! value ends. Until it does, the listing of a map's pairs ([`Entry::pairs`](crate::Entry::pairs)) takes the places
//! from here. Nothing here is proved. No value, text or number comes from here: those are read by the library,
//! and the places are held against its steps. Nothing here can loop for long or reach outside the section.

/// The kinds that lie differently from "header, then as many bytes as the size says".
const POINTER: u8 = 1;
const MAP: u8 = 7;
const ARRAY: u8 = 11;
const BOOLEAN: u8 = 14;

/// What a header says, and where the bytes after it begin. Of a pointer the size is the five low bits.
struct Header {
    kind: u8,
    size: usize,
    payload: usize,
}

/// A big-endian number of up to four bytes.
fn number(section: &[u8], place: usize, bytes: usize) -> Option<usize> {
    let bytes = section.get(place..place.checked_add(bytes)?)?;
    Some(bytes.iter().fold(0, |n, &byte| n << 8 | usize::from(byte)))
}

fn header(section: &[u8], place: usize) -> Option<Header> {
    let control = *section.get(place)?;
    let (kind, place) = match control >> 5 {
        0 => (section.get(place + 1)?.checked_add(7)?, place + 2),
        kind => (kind, place + 1),
    };
    let low = usize::from(control & 31);
    let (size, payload) = match low {
        29..=31 if kind != POINTER => {
            let bytes = low - 28;
            let least = [29, 285, 65_821][bytes - 1];
            (least + number(section, place, bytes)?, place + bytes)
        }
        _ => (low, place),
    };
    Some(Header {
        kind,
        size,
        payload,
    })
}

/// How many bytes follow a pointer's control byte.
fn pointer_bytes(size: usize) -> usize {
    size / 8 + 1
}

/// Where a pointer leads.
fn target(section: &[u8], pointer: &Header) -> Option<usize> {
    let bytes = pointer_bytes(pointer.size);
    let low = number(section, pointer.payload, bytes)?;
    let high = pointer.size % 8;
    Some(match bytes {
        1 => high << 8 | low,
        2 => (high << 16 | low) + 2_048,
        3 => (high << 24 | low) + 526_336,
        _ => low,
    })
}

/// How many values lie directly inside: a pair is two.
fn children(header: &Header) -> usize {
    match header.kind {
        MAP => 2 * header.size,
        ARRAY => header.size,
        _ => 0,
    }
}

/// The inside of a map or an array: where its first value lies, and how many there are.
pub(crate) struct Inside {
    pub first: usize,
    pub children: usize,
}

/// The inside of the map or array at a place, behind at most one pointer.
pub(crate) fn inside(section: &[u8], place: usize) -> Option<Inside> {
    let stored = header(section, place)?;
    let container = match stored.kind {
        POINTER => header(section, target(section, &stored)?)?,
        _ => stored,
    };
    Some(Inside {
        first: container.payload,
        children: children(&container),
    })
}

/// Where the value stored at a place ends: there the next begins. A pointer is not followed. Every turn takes at
/// least a byte of the section, so there are no more turns than it has bytes.
pub(crate) fn end(section: &[u8], place: usize) -> Option<usize> {
    let mut place = place;
    let mut left = 1_usize;
    while left > 0 {
        let stored = header(section, place)?;
        let bytes = match stored.kind {
            POINTER => pointer_bytes(stored.size),
            MAP | ARRAY | BOOLEAN => 0,
            _ => stored.size,
        };
        place = stored.payload.checked_add(bytes)?;
        left = left - 1 + children(&stored);
    }
    (place <= section.len()).then_some(place)
}

#[cfg(test)]
mod tests {
    use super::*;

    #[test]
    fn values_end_where_the_next_begins() {
        let cases: [(&[u8], usize); 9] = [
            (&[0x42, b'o', b'k'], 3),
            (&[0x00, 0x07], 2), // a boolean has no bytes
            (&[0x01, 0x07], 2), // nor has this one
            (&[0x20, 0x00], 2), // pointers of each class
            (&[0x28, 0x00, 0x00], 3),
            (&[0x30, 0x00, 0x00, 0x00], 4),
            (&[0x38, 0x00, 0x00, 0x00, 0x00], 5),
            (&[0x3d, 0x00, 0x00, 0x00, 0x00], 5), // the low bits of the last class say nothing
            (&[0xe1, 0x41, b'a', 0x02, 0x04, 0x20, 0x00, 0xe0], 8), // a: [pointer, {}]
        ];
        for (section, expected) in cases {
            assert_eq!(end(section, 0), Some(expected), "{section:x?}");
            assert_eq!(
                end(&section[..section.len() - 1], 0),
                None,
                "{section:x?} cut"
            );
        }
    }

    #[test]
    fn long_sizes_are_read() {
        for (control, size) in [
            (vec![0x5d, 0xff], 284),
            (vec![0x5e, 0, 0], 285),
            (vec![0x5f, 0, 0, 1], 65_822),
        ] {
            let header = control.len();
            let mut section = control;
            section.resize(header + size, b'x');
            assert_eq!(end(&section, 0), Some(header + size));
        }
    }

    #[test]
    fn nothing_runs_out_of_the_section() {
        assert_eq!(end(&[], 0), None);
        assert_eq!(end(&[0xe0], 1), None);
        assert_eq!(end(&[0xff, 0xff, 0xff, 0xff], 0), None);
        assert_eq!(end(&[0x00], 0), None);
        assert_eq!(end(&[0x00, 0xff], 0), None);
        assert!(inside(&[0x38, 0xff, 0xff, 0xff, 0xff], 0).is_none());
        // no more turns than bytes, whatever the sizes say
        assert_eq!(end(&[0xff; 4096], 0), None);
    }
}
