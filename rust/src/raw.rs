//! The boundary: the functions of `include/ermopinaw.h`, and for each a wrapper that any Rust code may call.
//!
//! This is the only file with unsafe code. The header says what a caller owes: a pointer with a length points to that
//! many bytes or aligned words, is not null even at length 0, and lent words overlap nothing else. Rust's slices
//! keep all of it, `&mut [u64]` being no one else's. Everything else may be handed in, so that the wrappers ask
//! nothing of their callers.
#![allow(unsafe_code)]

/// How many words a walk takes: `ERM_WALK_WORDS`.
pub const WALK_WORDS: usize = 519;
/// How many words a row takes: `ERM_ROW_WORDS`.
pub const ROW_WORDS: usize = 5;

/// `ERM_OK`: the call answers.
pub const OK: u64 = 0;
/// `ERM_ABSENT`: no such key or element.
pub const ABSENT: u64 = 256;
/// `ERM_PAUSED`: the budget is spent.
pub const PAUSED: u64 = 257;
/// `ERM_END`: no place waits any more.
pub const END: u64 = 258;
/// `ERM_NO_DATA`, in place of an offset.
pub const NO_DATA: u64 = u64::MAX;
/// `ERM_REFUSED`, in place of a lookup's offset.
pub const REFUSED: u64 = u64::MAX - 1;

/// The kinds of values, `ERM_KIND_..`: the type numbers of the format. `REFUSED` is no value.
pub mod kind {
    pub const REFUSED: u64 = 0;
    pub const TEXT: u64 = 2;
    pub const DOUBLE: u64 = 3;
    pub const BYTES: u64 = 4;
    pub const U16: u64 = 5;
    pub const U32: u64 = 6;
    pub const MAP: u64 = 7;
    pub const I32: u64 = 8;
    pub const U64: u64 = 9;
    pub const U128: u64 = 10;
    pub const ARRAY: u64 = 11;
    pub const BOOLEAN: u64 = 14;
    pub const FLOAT: u64 = 15;
}

/// Options of a walk, `ERM_ALIASED` and so on: a sum of these.
pub const ALIASED: u64 = 1;
pub const DATALESS: u64 = 2;
pub const SKIP_EMPTY: u64 = 4;

/// Kinds of networks: `ERM_V4`, `ERM_V6`, `ERM_V4_IN_V6_SUBTREE`.
pub const V4: u64 = 1;
#[cfg(test)]
pub const V6: u64 = 2;
pub const V4_IN_V6_SUBTREE: u64 = 3;

/// The numbers of an opened image: `erm_handle`.
#[repr(C)]
#[derive(Clone, Copy, Debug, PartialEq, Eq)]
pub struct Handle {
    pub version: u64,
    pub nodes: u64,
    pub size: u64,
    pub base: u64,
    pub meta: u64,
    pub start4: u64,
    pub depth4: u64,
}

/// `erm_opened`.
#[repr(C)]
#[derive(Clone, Copy, Debug, PartialEq, Eq)]
pub struct Opened {
    pub status: u64,
    pub handle: Handle,
    pub major: u64,
    pub minor: u64,
    pub build: u64,
    pub languages: u64,
    pub descriptions: u64,
}

/// `erm_aged`.
#[repr(C)]
#[derive(Clone, Copy, Debug, PartialEq, Eq)]
pub struct Aged {
    pub status: u64,
    pub seconds: i64,
}

/// A part of the image: `erm_span`.
#[repr(C)]
#[derive(Clone, Copy, Debug, PartialEq, Eq)]
struct Span {
    place: u64,
    length: u64,
}

/// `erm_found`.
#[repr(C)]
#[derive(Clone, Copy, Debug, PartialEq, Eq)]
pub struct Found {
    pub offset: u64,
    pub second: u64,
}

/// A place in the data section and what was charged on the way to it: `erm_cursor`.
#[repr(C)]
#[derive(Clone, Copy, Debug, PartialEq, Eq)]
pub struct Cursor {
    pub place: u64,
    pub values: u64,
    pub payload: u64,
}

/// `erm_value`.
#[repr(C)]
#[derive(Clone, Copy, Debug, PartialEq, Eq)]
pub struct Value {
    pub kind: u64,
    pub high: u64,
    pub low: u64,
    pub integer: i32,
}

/// `erm_stepped`.
#[repr(C)]
#[derive(Clone, Copy, Debug, PartialEq, Eq)]
pub struct Stepped {
    pub status: u64,
    pub cursor: Cursor,
}

/// `erm_filled`.
#[repr(C)]
#[derive(Clone, Copy, Debug, PartialEq, Eq)]
pub struct Filled {
    pub status: u64,
    pub rows: u64,
    pub taken: u64,
}

/// `erm_scratch`.
#[repr(C)]
#[derive(Clone, Copy, Debug, PartialEq, Eq)]
pub struct Scratch {
    pub status: u64,
    pub words: u64,
}

/// `erm_verified`.
#[repr(C)]
#[derive(Clone, Copy, Debug, PartialEq, Eq)]
pub struct Verified {
    pub status: u64,
    pub offsets: u64,
}

/// An address as the library takes it: its width and its bits in two halves.
#[derive(Clone, Copy, Debug, PartialEq, Eq)]
pub struct Address {
    pub width: u64,
    pub high: u64,
    pub low: u64,
}

mod c {
    use super::*;

    extern "C" {
        pub fn erm_open(image: *const u8, length: usize) -> Opened;
        pub fn erm_age(image: *const u8, length: usize, time: u64) -> Aged;
        pub fn erm_database_type(image: *const u8, length: usize) -> Span;
        pub fn erm_language(image: *const u8, length: usize, index: usize) -> Span;
        pub fn erm_description_language(image: *const u8, length: usize, index: usize) -> Span;
        pub fn erm_description(image: *const u8, length: usize, index: usize) -> Span;
        pub fn erm_lookup(
            image: *const u8,
            length: usize,
            handle: Handle,
            width: u64,
            high: u64,
            low: u64,
        ) -> Found;
        pub fn erm_read(image: *const u8, length: usize, handle: Handle, cursor: Cursor) -> Value;
        pub fn erm_text(image: *const u8, length: usize, handle: Handle, cursor: Cursor) -> Span;
        pub fn erm_bytes(image: *const u8, length: usize, handle: Handle, cursor: Cursor) -> Span;
        pub fn erm_step_key(
            image: *const u8,
            length: usize,
            handle: Handle,
            cursor: Cursor,
            key: *const u8,
            key_length: usize,
        ) -> Stepped;
        pub fn erm_step_index(
            image: *const u8,
            length: usize,
            handle: Handle,
            cursor: Cursor,
            index: usize,
        ) -> Stepped;
        pub fn erm_step_from_end(
            image: *const u8,
            length: usize,
            handle: Handle,
            cursor: Cursor,
            index: usize,
        ) -> Stepped;
        pub fn erm_within(
            image: *const u8,
            length: usize,
            handle: Handle,
            width: u64,
            high: u64,
            low: u64,
            prefix_length: u64,
            options: u64,
            walk: *mut u64,
            walk_length: usize,
        ) -> u64;
        pub fn erm_rows(
            image: *const u8,
            length: usize,
            handle: Handle,
            walk: *mut u64,
            walk_length: usize,
            rows: *mut u64,
            rows_length: usize,
            budget: u64,
        ) -> Filled;
        pub fn erm_scratch_words(image: *const u8, length: usize) -> Scratch;
        pub fn erm_verify(
            image: *const u8,
            length: usize,
            scratch: *mut u64,
            scratch_length: usize,
            budget: u64,
        ) -> Verified;
    }
}

/// The part of the image that a span names; empty where it names none.
fn part(image: &[u8], span: Span) -> &[u8] {
    let from = span.place as usize;
    let to = from.saturating_add(span.length as usize);
    image.get(from..to).unwrap_or_default()
}

pub fn open(image: &[u8]) -> Opened {
    // SAFETY: pointer and length are the slice's.
    unsafe { c::erm_open(image.as_ptr(), image.len()) }
}

pub fn age(image: &[u8], time: u64) -> Aged {
    // SAFETY: pointer and length are the slice's.
    unsafe { c::erm_age(image.as_ptr(), image.len(), time) }
}

pub fn database_type(image: &[u8]) -> &[u8] {
    // SAFETY: pointer and length are the slice's.
    part(image, unsafe {
        c::erm_database_type(image.as_ptr(), image.len())
    })
}

pub fn language(image: &[u8], index: usize) -> &[u8] {
    // SAFETY: pointer and length are the slice's.
    part(image, unsafe {
        c::erm_language(image.as_ptr(), image.len(), index)
    })
}

pub fn description_language(image: &[u8], index: usize) -> &[u8] {
    // SAFETY: pointer and length are the slice's.
    part(image, unsafe {
        c::erm_description_language(image.as_ptr(), image.len(), index)
    })
}

pub fn description(image: &[u8], index: usize) -> &[u8] {
    // SAFETY: pointer and length are the slice's.
    part(image, unsafe {
        c::erm_description(image.as_ptr(), image.len(), index)
    })
}

pub fn lookup(image: &[u8], handle: Handle, address: Address) -> Found {
    // SAFETY: pointer and length are the slice's.
    unsafe {
        c::erm_lookup(
            image.as_ptr(),
            image.len(),
            handle,
            address.width,
            address.high,
            address.low,
        )
    }
}

pub fn read(image: &[u8], handle: Handle, cursor: Cursor) -> Value {
    // SAFETY: pointer and length are the slice's.
    unsafe { c::erm_read(image.as_ptr(), image.len(), handle, cursor) }
}

pub fn text(image: &[u8], handle: Handle, cursor: Cursor) -> &[u8] {
    // SAFETY: pointer and length are the slice's.
    part(image, unsafe {
        c::erm_text(image.as_ptr(), image.len(), handle, cursor)
    })
}

pub fn bytes(image: &[u8], handle: Handle, cursor: Cursor) -> &[u8] {
    // SAFETY: pointer and length are the slice's.
    part(image, unsafe {
        c::erm_bytes(image.as_ptr(), image.len(), handle, cursor)
    })
}

pub fn step_key(image: &[u8], handle: Handle, cursor: Cursor, key: &[u8]) -> Stepped {
    // SAFETY: each pointer comes with its own slice's length.
    unsafe {
        c::erm_step_key(
            image.as_ptr(),
            image.len(),
            handle,
            cursor,
            key.as_ptr(),
            key.len(),
        )
    }
}

pub fn step_index(image: &[u8], handle: Handle, cursor: Cursor, index: usize) -> Stepped {
    // SAFETY: pointer and length are the slice's.
    unsafe { c::erm_step_index(image.as_ptr(), image.len(), handle, cursor, index) }
}

pub fn step_from_end(image: &[u8], handle: Handle, cursor: Cursor, index: usize) -> Stepped {
    // SAFETY: pointer and length are the slice's.
    unsafe { c::erm_step_from_end(image.as_ptr(), image.len(), handle, cursor, index) }
}

/// Begins a walk in the words lent; answers `OK` or the refusal.
pub fn within(
    image: &[u8],
    handle: Handle,
    address: Address,
    prefix_length: u64,
    options: u64,
    walk: &mut [u64],
) -> u64 {
    // SAFETY: each pointer comes with its own slice's length; the walk is lent to this call alone.
    unsafe {
        c::erm_within(
            image.as_ptr(),
            image.len(),
            handle,
            address.width,
            address.high,
            address.low,
            prefix_length,
            options,
            walk.as_mut_ptr(),
            walk.len(),
        )
    }
}

/// Fills rows of `ROW_WORDS` words each with the walk's next networks.
pub fn rows(
    image: &[u8],
    handle: Handle,
    walk: &mut [u64],
    rows: &mut [u64],
    budget: u64,
) -> Filled {
    // SAFETY: each pointer comes with its own slice's length; walk and rows are lent to this call alone.
    unsafe {
        c::erm_rows(
            image.as_ptr(),
            image.len(),
            handle,
            walk.as_mut_ptr(),
            walk.len(),
            rows.as_mut_ptr(),
            rows.len(),
            budget,
        )
    }
}

pub fn scratch_words(image: &[u8]) -> Scratch {
    // SAFETY: pointer and length are the slice's.
    unsafe { c::erm_scratch_words(image.as_ptr(), image.len()) }
}

pub fn verify(image: &[u8], scratch: &mut [u64], budget: u64) -> Verified {
    // SAFETY: each pointer comes with its own slice's length; the scratch is lent to this call alone.
    unsafe {
        c::erm_verify(
            image.as_ptr(),
            image.len(),
            scratch.as_mut_ptr(),
            scratch.len(),
            budget,
        )
    }
}

#[cfg(test)]
mod tests;
