//! Opening, metadata and age.

#[allow(dead_code)]
mod common;

use std::time::{Duration, UNIX_EPOCH};

use common::*;
use ermopinaw::{MaxMindDbError, Reader};

fn refused(image: Image) -> Option<u8> {
    Reader::from_source(image.bytes()).unwrap_err().number()
}

#[test]
fn an_image_opens_from_anything_that_lends_bytes() {
    let bytes = image_a().bytes();
    Reader::from_source(&bytes[..]).unwrap();
    Reader::from_source(&bytes).unwrap();
    Reader::from_source(bytes.clone().into_boxed_slice()).unwrap();
    Reader::from_source(std::sync::Arc::<[u8]>::from(&bytes[..])).unwrap();
    Reader::from_source(bytes).unwrap();
}

#[test]
fn no_marker_is_1() {
    let mut bytes = image_a().bytes();
    let marker = bytes.windows(14).rposition(|w| w == MARKER).unwrap();
    bytes[marker] = 0;
    assert_eq!(Reader::from_source(bytes).unwrap_err().number(), Some(1));
    assert_eq!(Reader::from_source([]).unwrap_err().number(), Some(1));
}

#[test]
fn metadata_that_are_not_the_fields_are_2() {
    assert_eq!(refused(image_a().without("languages")), Some(2));
    assert_eq!(refused(image_a().with("node_count", u16(1))), Some(2));
    assert_eq!(
        refused(image_a().with("database_type", vec![0x41, 0xff])),
        Some(2)
    );
}

#[test]
fn fields_out_of_bounds_are_3_to_8() {
    assert_eq!(
        refused(image_a().with("binary_format_major_version", u16(3))),
        Some(3)
    );
    assert_eq!(refused(image_a().with("ip_version", u16(5))), Some(4));
    assert_eq!(refused(image_a().with("node_count", u32(0))), Some(5));
    assert_eq!(
        refused(image_a().with("build_epoch", u64(1 << 63))),
        Some(6)
    );
    assert_eq!(refused(image_a().with("record_size", u16(36))), Some(7));
    assert_eq!(refused(image_a().with("node_count", u32(2))), Some(8));
}

#[test]
fn an_image_past_the_bound_is_24() {
    // only its length is looked at: the pages are never there
    let image = vec![0; 1 << 31];
    assert_eq!(Reader::from_source(image).unwrap_err().number(), Some(24));
}

#[test]
fn a_file_that_is_not_there_is_no_refusal() {
    let error = Reader::open_readfile("no/such/file").unwrap_err();
    assert!(matches!(error, MaxMindDbError::Io(_)));
    assert_eq!(error.number(), None);
}

#[test]
fn a_reader_is_shared_between_threads() {
    fn shared<T: Send + Sync>(_: &T) {}
    shared(&Reader::from_source(image_a().bytes()).unwrap());
}

#[test]
fn metadata_have_their_fields() {
    let reader = Reader::from_source(night_desk().bytes()).unwrap();
    let metadata = reader.metadata();
    assert_eq!(metadata.binary_format_major_version, 2);
    assert_eq!(metadata.binary_format_minor_version, 0);
    assert_eq!(metadata.build_epoch, 1_794_787_200);
    assert_eq!(
        metadata.build_time().unwrap(),
        UNIX_EPOCH + Duration::from_secs(1_794_787_200)
    );
    assert_eq!(metadata.database_type, "Night-Desk");
    assert_eq!(metadata.description.len(), 2);
    assert_eq!(metadata.description["en"], "Which nurse drives where");
    assert_eq!(
        metadata.description["de"],
        "Welche Pflegefachfrau wohin fährt"
    );
    assert_eq!(metadata.ip_version, 6);
    assert_eq!(metadata.languages, ["de", "en"]);
    assert_eq!(metadata.node_count as usize, night_desk().nodes.len());
    assert_eq!(metadata.record_size, 28);
}

#[test]
fn of_a_language_that_comes_twice_the_last_description_stays() {
    let twice = map(&[("en", text("first")), ("en", text("last"))]);
    let reader = Reader::from_source(image_a().with("description", twice).bytes()).unwrap();
    assert_eq!(reader.metadata().description["en"], "last");
}

#[test]
fn an_age_may_be_below_zero() {
    let reader = Reader::from_source(image_a().bytes()).unwrap();
    assert_eq!(reader.age(1_000).unwrap(), 0);
    assert_eq!(reader.age(1_060).unwrap(), 60);
    assert_eq!(reader.age(999).unwrap(), -1);
    assert_eq!(reader.age((1 << 63) - 1).unwrap(), i64::MAX - 1_000);
    assert_eq!(reader.age(1 << 63).unwrap_err().number(), Some(23));
    let latest = image_a().with("build_epoch", u64((1 << 63) - 1));
    let reader = Reader::from_source(latest.bytes()).unwrap();
    assert_eq!(reader.age(0).unwrap(), -i64::MAX);
}
