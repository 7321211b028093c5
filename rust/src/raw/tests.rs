//! Numbers and structs are those of the header, and what no other file can ask is refused.

#[allow(dead_code)]
#[path = "../../tests/common/mod.rs"]
mod common;

use super::*;
use crate::refusal::Refusal;
use common::{image_a, night_desk};
use std::mem::{align_of, offset_of, size_of};

const HEADER: &str = include_str!("../../../include/ermopinaw.h");

/// The number that the header gives a name.
fn number(name: &str) -> u64 {
    let words = HEADER.lines().map(str::split_whitespace);
    let line = words
        .map(|line| line.collect::<Vec<_>>())
        .find(|line| line.starts_with(&["#define", name]) || line.starts_with(&[name, "="]));
    let line = line.unwrap_or_else(|| panic!("the header has no {name}"));
    line[2].trim_end_matches(',').parse().unwrap()
}

/// The fields of a struct of the header, each with its type.
fn fields(name: &str) -> Vec<(&'static str, &'static str)> {
    let begin = format!("typedef struct {name} {{\n");
    let from = HEADER.find(&begin).unwrap() + begin.len();
    let inside = &HEADER[from..from + HEADER[from..].find('}').unwrap()];
    let lines = inside.lines().filter_map(|line| line.split_once(';'));
    lines
        .map(|line| line.0.trim().rsplit_once(' ').unwrap())
        .collect()
}

/// How many bytes a type of the header takes.
fn size(kind: &str) -> usize {
    match kind.trim() {
        "uint64_t" | "int64_t" => 8,
        "int32_t" => 4,
        name => fields(name).iter().map(|field| size(field.0)).sum(),
    }
}

/// The struct has the header's fields, in its order and at its places.
macro_rules! same_layout {
    ($type:ident, $name:literal, $($field:ident),*) => {
        let ours = [$((stringify!($field), offset_of!($type, $field))),*];
        let mut place = 0;
        let theirs: Vec<(&str, usize)> = fields($name)
            .into_iter()
            .map(|(kind, field)| {
                let at = place;
                place += size(kind);
                (field, at)
            })
            .collect();
        assert_eq!(theirs, ours, $name);
        assert_eq!(size_of::<$type>(), place.next_multiple_of(8), $name);
        assert_eq!(align_of::<$type>(), 8, $name);
    };
}

#[test]
fn structs_lie_as_in_the_header() {
    same_layout!(
        Handle,
        "erm_handle",
        version,
        nodes,
        size,
        base,
        meta,
        start4,
        depth4
    );
    same_layout!(
        Opened,
        "erm_opened",
        status,
        handle,
        major,
        minor,
        build,
        languages,
        descriptions
    );
    same_layout!(Aged, "erm_aged", status, seconds);
    same_layout!(Span, "erm_span", place, length);
    same_layout!(Found, "erm_found", offset, second);
    same_layout!(Cursor, "erm_cursor", place, values, payload);
    same_layout!(Value, "erm_value", kind, high, low, integer);
    same_layout!(Stepped, "erm_stepped", status, cursor);
    same_layout!(Filled, "erm_filled", status, rows, taken);
    same_layout!(Scratch, "erm_scratch", status, words);
    same_layout!(Verified, "erm_verified", status, offsets);
    assert_eq!(fields("erm_network").len(), ROW_WORDS);
}

#[test]
fn numbers_are_those_of_the_header() {
    assert_eq!(number("ERM_WALK_WORDS"), WALK_WORDS as u64);
    assert_eq!(number("ERM_ROW_WORDS"), ROW_WORDS as u64);
    assert_eq!(number("ERM_OK"), OK);
    assert_eq!(number("ERM_ABSENT"), ABSENT);
    assert_eq!(number("ERM_PAUSED"), PAUSED);
    assert_eq!(number("ERM_END"), END);
    assert_eq!(number("ERM_ALIASED"), ALIASED);
    assert_eq!(number("ERM_DATALESS"), DATALESS);
    assert_eq!(number("ERM_SKIP_EMPTY"), SKIP_EMPTY);
    assert_eq!(number("ERM_V4"), V4);
    assert_eq!(number("ERM_V6"), V6);
    assert_eq!(number("ERM_V4_IN_V6_SUBTREE"), V4_IN_V6_SUBTREE);
    assert_eq!(number("ERM_KIND_REFUSED"), kind::REFUSED);
    assert_eq!(number("ERM_KIND_TEXT"), kind::TEXT);
    assert_eq!(number("ERM_KIND_DOUBLE"), kind::DOUBLE);
    assert_eq!(number("ERM_KIND_BYTES"), kind::BYTES);
    assert_eq!(number("ERM_KIND_U16"), kind::U16);
    assert_eq!(number("ERM_KIND_U32"), kind::U32);
    assert_eq!(number("ERM_KIND_MAP"), kind::MAP);
    assert_eq!(number("ERM_KIND_I32"), kind::I32);
    assert_eq!(number("ERM_KIND_U64"), kind::U64);
    assert_eq!(number("ERM_KIND_U128"), kind::U128);
    assert_eq!(number("ERM_KIND_ARRAY"), kind::ARRAY);
    assert_eq!(number("ERM_KIND_BOOLEAN"), kind::BOOLEAN);
    assert_eq!(number("ERM_KIND_FLOAT"), kind::FLOAT);
    assert!(HEADER.contains("#define ERM_NO_DATA UINT64_MAX\n"));
    assert!(HEADER.contains("#define ERM_REFUSED (UINT64_MAX - 1)\n"));
    let names = [
        "NO_MARKER",
        "METADATA",
        "FORMAT_VERSION",
        "IP_VERSION",
        "NO_NODES",
        "BUILD_TIME",
        "RECORD_SIZE",
        "TREE_TOO_LONG",
        "HANDLE",
        "IPV6_IN_IPV4",
        "RECORD",
        "TOO_DEEP",
        "OUT_OF_SHAPE",
        "MALFORMED",
        "OFFSET",
        "PREFIX_LENGTH",
        "NO_DATABASE_TYPE",
        "NO_DESCRIPTION",
        "TOO_MANY_NETWORKS",
        "SEPARATOR",
        "BUDGET",
        "SCRATCH",
        "TIME",
        "IMAGE_TOO_LONG",
    ];
    for name in names {
        let refusal = Refusal::from_number(number(&format!("ERM_{name}"))).unwrap();
        let ours = format!("{refusal:?}").to_uppercase();
        assert_eq!(ours, name.replace('_', ""));
    }
}

#[test]
fn what_only_this_file_can_ask_is_refused() {
    let image = image_a().bytes();
    let handle = open(&image).handle;
    let all = Address {
        width: 32,
        high: 0,
        low: 0,
    };
    let mut walk = [7; WALK_WORDS + 1];
    assert_eq!(within(&image, handle, all, 33, 0, &mut walk), 16);
    // words past the walk's are not touched
    assert_eq!(walk[WALK_WORDS], 7);
    let odd = Address { width: 33, ..all };
    assert_eq!(within(&image, handle, odd, 0, 0, &mut walk), 13);
    assert_eq!(within(&image, handle, all, 0, 8, &mut walk), 13);
    assert_eq!(
        within(&image, handle, all, 0, 0, &mut walk[1..][..WALK_WORDS - 1]),
        13
    );
    let high = Address { high: 1, ..all };
    assert_eq!(
        lookup(&image, handle, high),
        Found {
            offset: REFUSED,
            second: 13
        }
    );
    let other = Handle { nodes: 2, ..handle };
    assert_eq!(
        lookup(&image, other, all),
        Found {
            offset: REFUSED,
            second: 9
        }
    );
    let needed = scratch_words(&image).words as usize;
    let mut scratch = vec![7; needed + 1];
    assert_eq!(verify(&image, &mut scratch[..needed - 1], 9).status, 22);
    assert_eq!(
        verify(&image, &mut scratch, 9),
        Verified {
            status: OK,
            offsets: 1
        }
    );
    // the words needed are 0 afterwards, and the rest as they were
    assert!(scratch[..needed].iter().all(|&word| word == 0));
    assert_eq!(scratch[needed], 7);
}

#[test]
fn rows_come_as_many_as_there_is_room() {
    let image = night_desk().bytes();
    let handle = open(&image).handle;
    let all = Address {
        width: 128,
        high: 0,
        low: 0,
    };
    let mut walk = [0; WALK_WORDS];
    assert_eq!(within(&image, handle, all, 0, 0, &mut walk), OK);
    let mut buffer = [9; 3 * ROW_WORDS + 2];
    let filled = rows(&image, handle, &mut walk, &mut buffer, u64::MAX);
    assert_eq!((filled.status, filled.rows), (OK, 3));
    assert_eq!(&buffer[3 * ROW_WORDS..], [9, 9]);
    let filled = rows(&image, handle, &mut walk, &mut buffer, 1);
    assert_eq!((filled.status, filled.rows, filled.taken), (PAUSED, 0, 1));
    let filled = rows(&image, handle, &mut walk, &mut buffer, u64::MAX);
    assert_eq!((filled.status, filled.rows), (END, 1));
    let filled = rows(&image, handle, &mut walk, &mut buffer, u64::MAX);
    assert_eq!((filled.status, filled.rows, filled.taken), (END, 0, 0));
}
