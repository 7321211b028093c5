//! Values, paths and whole records.

#[allow(dead_code)]
mod common;

use std::collections::BTreeMap;

use common::*;
use ermopinaw::{path, Entry, MaxMindDbError, PathElement, Reader, Value};

type Whole<'a> = ermopinaw::Record<'a>;

/// An image whose data section is given, opened.
fn opened(data: Vec<u8>) -> Reader<Vec<u8>> {
    let nodes = vec![[Record::Data(0), Record::NoData]];
    Reader::from_source(Image::new(4, 24, nodes, data).bytes()).unwrap()
}

fn number<T: std::fmt::Debug>(result: Result<T, MaxMindDbError>) -> Option<u8> {
    result.unwrap_err().number()
}

#[test]
fn values_of_every_kind_are_read() {
    let cases = [
        (text("Grüße"), Value::Text("Grüße")),
        (text(""), Value::Text("")),
        (double(-0.5), Value::Double(-0.5)),
        (bytes(&[1, 2, 255]), Value::Bytes(&[1, 2, 255])),
        (bytes(&[]), Value::Bytes(&[])),
        (u16(0), Value::U16(0)),
        (u16(65_535), Value::U16(65_535)),
        (u32(u32::MAX), Value::U32(u32::MAX)),
        (map(&[("a", u16(1))]), Value::Map(1)),
        (i32(-1), Value::I32(-1)),
        (i32(i32::MIN), Value::I32(i32::MIN)),
        (u64(u64::MAX), Value::U64(u64::MAX)),
        (u128(u128::MAX - 1), Value::U128(u128::MAX - 1)),
        (array(&[u16(1), u16(2)]), Value::Array(2)),
        (boolean(true), Value::Boolean(true)),
        (boolean(false), Value::Boolean(false)),
        (float(1.5), Value::Float(1.5)),
    ];
    for (data, expected) in cases {
        let reader = opened(data);
        assert_eq!(reader.entry(0).value().unwrap(), expected);
        assert_eq!(reader.entry(0).decode::<Value>().unwrap(), expected);
    }
}

#[test]
fn numbers_keep_their_bits() {
    let signal = f64::from_bits(0x7ff0_0000_0000_0001);
    let reader = opened(double(signal));
    assert_eq!(
        reader.entry(0).decode::<f64>().unwrap().to_bits(),
        signal.to_bits()
    );
    let signal = f32::from_bits(0xff80_0001);
    let reader = opened(float(signal));
    assert_eq!(
        reader.entry(0).decode::<f32>().unwrap().to_bits(),
        signal.to_bits()
    );
    // a short i32 is not widened by its sign
    let reader = opened(vec![0x03, 0x01, 0xff, 0xff, 0xff]);
    assert_eq!(reader.entry(0).decode::<i32>().unwrap(), 16_777_215);
}

#[test]
fn types_are_asked_for_exactly() {
    let reader = opened(u16(7));
    let entry = reader.entry(0);
    assert_eq!(entry.decode::<u16>().unwrap(), 7);
    assert_eq!(entry.value().unwrap().as_u128(), Some(7));
    assert_eq!(number(entry.decode::<u32>()), Some(14));
    assert_eq!(number(entry.decode::<u64>()), Some(14));
    assert_eq!(number(entry.decode::<i32>()), Some(14));
    assert_eq!(number(entry.decode::<bool>()), Some(14));
    assert_eq!(number(entry.decode::<f64>()), Some(14));
    assert_eq!(number(entry.decode::<&[u8]>()), Some(14));
    assert_eq!(number(entry.decode::<Vec<u16>>()), Some(14));
    assert_eq!(number(entry.decode::<BTreeMap<String, u16>>()), Some(14));
    let error = entry.decode::<String>().unwrap_err();
    assert!(error
        .to_string()
        .ends_with("(text was asked for, u16 was found)"));
}

#[test]
fn paths_lead_into_maps_and_arrays() {
    let data = map(&[
        ("a", array(&[u16(1), map(&[("b", text("deep"))]), u16(3)])),
        ("empty", array(&[])),
        ("a", u16(9)),
    ]);
    let reader = opened(data);
    let entry = reader.entry(0);
    let at = |path: &[PathElement]| entry.decode_path::<Value>(path);
    assert_eq!(at(&path!["a", 0]).unwrap(), Some(Value::U16(1)));
    assert_eq!(at(&path!["a", 1, "b"]).unwrap(), Some(Value::Text("deep")));
    assert_eq!(at(&path!["a", -1]).unwrap(), Some(Value::U16(3)));
    assert_eq!(at(&path!["a", -3]).unwrap(), Some(Value::U16(1)));
    assert_eq!(at(&[]).unwrap(), Some(Value::Map(3)));
    for absent in [
        &path!["c"][..],
        &path!["a", 3],
        &path!["a", -4],
        &path!["empty", 0],
    ] {
        assert_eq!(at(absent).unwrap(), None);
    }
    // the wrong kind on the way
    let error = at(&path!["a", "b"]).unwrap_err();
    assert_eq!(error.number(), Some(14));
    assert!(error.to_string().ends_with("(at /a/b)"));
    assert_eq!(number(at(&path![0])), Some(14));
    assert_eq!(number(at(&path!["a", 0, "x"])), Some(14));
    // and the wrong type at the end
    let error = entry.decode_path::<String>(&path!["a", -1]).unwrap_err();
    assert!(error
        .to_string()
        .ends_with("(at /a/-1: text was asked for, u16 was found)"));
}

#[test]
fn maps_and_arrays_become_collections() {
    let reader = opened(map(&[("x", array(&[u32(1), u32(2)])), ("y", array(&[]))]));
    let whole: BTreeMap<String, Vec<u32>> = reader.entry(0).decode().unwrap();
    assert_eq!(whole["x"], [1, 2]);
    assert!(whole["y"].is_empty());
    let pairs = reader.entry(0).pairs().unwrap();
    let keys: Vec<&str> = pairs.iter().map(|pair| pair.0).collect();
    assert_eq!(keys, ["x", "y"]);
    let entries: Vec<Entry> = reader.entry(0).decode_path(&path!["x"]).unwrap().unwrap();
    assert_eq!(entries[1].decode::<u32>().unwrap(), 2);
}

#[test]
fn malformed_values_are_14_and_places_outside_15() {
    let reader = opened(vec![0x45, b'a', 0xff]);
    assert_eq!(number(reader.entry(0).value()), Some(14));
    assert_eq!(number(reader.entry(3).value()), Some(15));
    assert_eq!(number(reader.entry(usize::MAX).value()), Some(15));
    assert_eq!(
        number(reader.entry(3).step(PathElement::Index(0))),
        Some(15)
    );
    let not_utf8 = opened(vec![0x41, 0xff]);
    assert_eq!(number(not_utf8.entry(0).decode::<String>()), Some(14));
    // a pointer to a pointer
    let twice = opened([text("ok"), pointer(0), pointer(3)].concat());
    assert_eq!(twice.entry(3).decode::<&str>().unwrap(), "ok");
    assert_eq!(number(twice.entry(5).decode::<&str>()), Some(14));
}

fn whole(reader: &Reader<Vec<u8>>, place: usize) -> Result<String, MaxMindDbError> {
    Ok(reader.entry(place).decode::<Whole>()?.to_string())
}

#[test]
fn whole_records_are_written_as_text() {
    let data = map(&[
        (
            "a",
            array(&[u16(1), map(&[("b", text("x\"\u{1b}"))]), boolean(true)]),
        ),
        ("c", u128(1 << 100)),
        ("d", double(1e300)),
        ("e", bytes(&[0xab])),
        ("f", map(&[])),
        ("a", i32(-5)),
        ("", float(0.25)),
    ]);
    let reader = opened(data);
    let expected = concat!(
        r#"{"a": [1, {"b": "x\"\u001b"}, true], "c": 1267650600228229401496703205376, "d": 1e300, "#,
        r#""e": "0xab", "f": {}, "a": -5, "": 0.25}"#
    );
    assert_eq!(whole(&reader, 0).unwrap(), expected);
    let record: Whole = reader.entry(0).decode().unwrap();
    assert_eq!(
        record.get("e").unwrap().scalar(),
        Some(Value::Bytes(&[0xab]))
    );
    assert_eq!(record.get("none"), None);
}

#[test]
fn records_behind_pointers_are_written() {
    // at 0 a key, at 4 a text, at 8 a map by pointers, at the end a pointer to it
    let at_8 = [
        vec![0xe2],
        pointer(0),
        pointer(4),
        text("k"),
        array(&[pointer(4)]),
    ]
    .concat();
    let end = 8 + at_8.len();
    let reader = opened([text("key"), text("val"), at_8, pointer(8)].concat());
    let expected = r#"{"key": "val", "k": ["val"]}"#;
    assert_eq!(whole(&reader, 8).unwrap(), expected);
    assert_eq!(whole(&reader, end).unwrap(), expected);
}

#[test]
fn long_texts_and_many_pairs_are_written() {
    let names: Vec<String> = (0..400)
        .map(|n| format!("key{n}{}", "x".repeat(n)))
        .collect();
    let pairs: Vec<(&str, Vec<u8>)> = names.iter().map(|name| (&name[..], text(name))).collect();
    let reader = opened(map(&pairs));
    let record: Whole = reader.entry(0).decode().unwrap();
    for name in &names {
        assert_eq!(record.get(name).unwrap().scalar(), Some(Value::Text(name)));
    }
}

#[test]
fn records_without_end_are_refused() {
    // a map that holds itself, an array that holds itself twice, one that is its own pointer
    let map_in_itself = opened([vec![0xe1], text("a"), pointer(0)].concat());
    assert_eq!(number(whole(&map_in_itself, 0)), Some(14));
    let twice = opened([vec![0x02, 0x04], pointer(0), pointer(0)].concat());
    assert_eq!(number(whole(&twice, 0)), Some(14));
    assert_eq!(number(whole(&opened(pointer(0)), 0)), Some(14));
    // arrays inside each other that double at every level
    let mut doubling = text("end");
    let mut place = 0;
    for _ in 0..40 {
        let next = doubling.len();
        doubling.extend([vec![0x02, 0x04], pointer(place), pointer(place)].concat());
        place = next;
    }
    assert_eq!(number(whole(&opened(doubling), place)), Some(14));
}

#[test]
fn records_may_have_512_levels() {
    let nested = |levels: usize| {
        let mut data = [0x01, 0x04].repeat(levels);
        data.extend(u16(7));
        opened(data)
    };
    let text = whole(&nested(512), 0).unwrap();
    assert_eq!(text, format!("{}7{}", "[".repeat(512), "]".repeat(512)));
    assert_eq!(number(whole(&nested(513), 0)), Some(14));
}

#[test]
fn records_have_at_most_65536_values_and_2_mib_of_text() {
    // elements of an array by pointers to one array of 255
    let many = |elements: usize, more: usize| {
        let inner = array(&vec![boolean(true); 255]);
        let mut outer: Vec<Vec<u8>> = vec![pointer(0); elements];
        outer.extend(vec![boolean(true); more]);
        (inner.len(), opened([inner, array(&outer)].concat()))
    };
    // 1 + 255 * (1 + 255) + 255 = 65,536
    let (place, reader) = many(255, 255);
    whole(&reader, place).unwrap();
    let (place, reader) = many(255, 256);
    assert_eq!(number(whole(&reader, place)), Some(14));
    let long = |elements: usize| {
        let inner = text(&"x".repeat(1 << 16));
        (
            inner.len(),
            opened([inner, array(&vec![pointer(0); elements])].concat()),
        )
    };
    let (place, reader) = long(32);
    assert_eq!(whole(&reader, place).unwrap().len(), 32 * 65_540);
    let (place, reader) = long(33);
    assert_eq!(number(whole(&reader, place)), Some(14));
}

#[test]
fn damaged_records_are_refused() {
    let good = map(&[
        ("a", array(&[u16(1), text("two")])),
        ("b", map(&[("c", u32(3))])),
    ]);
    for length in 1..good.len() {
        let reader = opened(good[..length].to_vec());
        assert_eq!(number(whole(&reader, 0)), Some(14), "cut at {length}");
    }
    // a key that is no text
    let reader = opened([vec![0xe1], u16(1), u16(2)].concat());
    assert_eq!(number(whole(&reader, 0)), Some(14));
    // any byte changed to anything: an answer or 14, and never a disagreement
    for place in 0..good.len() {
        for byte in 0..=255 {
            let mut data = good.clone();
            data[place] = byte;
            if let Err(error) = whole(&opened(data), 0) {
                assert_eq!(error.number(), Some(14), "{place} {byte}: {error}");
            }
        }
    }
}
