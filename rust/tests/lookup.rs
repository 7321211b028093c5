//! Lookups and the networks that they show.

#[allow(dead_code)]
mod common;

use std::cell::Cell;
use std::net::IpAddr;

use common::*;
use ermopinaw::{path, MaxMindDbError, Reader};

fn ip(text: &str) -> IpAddr {
    text.parse().unwrap()
}

/// Network and offset of an address, or the number of the refusal.
fn found(image: &Image, address: &str) -> Result<(String, Option<usize>), u8> {
    let reader = Reader::from_source(image.bytes()).unwrap();
    let result = match reader.lookup(ip(address)) {
        Ok(result) => result,
        Err(error) => return Err(error.number().unwrap()),
    };
    assert_eq!(result.has_data(), result.offset().is_some());
    Ok((result.network().unwrap().to_string(), result.offset()))
}

fn is(network: &str, offset: Option<usize>) -> Result<(String, Option<usize>), u8> {
    Ok((network.to_string(), offset))
}

#[test]
fn image_a_has_data_in_its_left_half() {
    for size in [24, 28, 32] {
        let mut image = image_a().with("record_size", u16(size));
        image.size = size;
        assert_eq!(found(&image, "1.2.3.4"), is("0.0.0.0/1", Some(0)));
        assert_eq!(found(&image, "200.0.0.1"), is("128.0.0.0/1", None));
        assert_eq!(found(&image, "::1"), Err(10));
    }
}

#[test]
fn records_that_lead_nowhere_are_11() {
    for (record, expected) in [
        (2, Err(11)),
        (16, Err(11)),
        (17, is("0.0.0.0/1", Some(0))),
        (18, Err(11)),
    ] {
        let mut image = image_a();
        image.nodes[0][0] = Record::Number(record);
        assert_eq!(found(&image, "1.2.3.4"), expected);
    }
}

#[test]
fn a_node_at_full_width_has_no_data() {
    let mut image = image_a();
    image.nodes[0][0] = Record::Node(0);
    assert_eq!(found(&image, "0.0.0.0"), is("0.0.0.0/32", None));
    assert_eq!(found(&image, "64.0.0.0"), is("64.0.0.0/2", None));
}

#[test]
fn an_ipv4_address_has_an_ipv4_network_in_an_ipv6_image() {
    let image = night_desk();
    assert_eq!(found(&image, "203.0.113.9"), is("203.0.113.0/24", Some(0)));
    assert_eq!(found(&image, "203.0.112.9"), is("203.0.112.0/24", None));
    let same = found(&image, "203.0.113.9").unwrap().1;
    // the same data by its IPv6 ways: the network is then one of IPv6
    assert_eq!(found(&image, "::203.0.113.9"), is("::cb00:7100/120", same));
    assert_eq!(
        found(&image, "::ffff:203.0.113.9"),
        is("::ffff:203.0.113.0/120", same)
    );
    let reader = Reader::from_source(image.bytes()).unwrap();
    let third = reader.lookup(ip("2001:db8:1::1")).unwrap();
    assert_eq!(third.network().unwrap().to_string(), "2001:db8:1::/48");
    assert_eq!(
        reader.lookup(ip("198.51.100.100")).unwrap().offset(),
        third.offset()
    );
}

#[test]
fn without_an_ipv4_subtree_the_network_is_one_of_ipv6() {
    // case 11 of docs/SCOPE.md: records 1 (no data) and 17
    let nodes = vec![[Record::NoData, Record::Data(0)]];
    let image = Image::new(6, 24, nodes, map(&[]));
    assert_eq!(found(&image, "1.2.3.4"), is("::/1", None));
    assert_eq!(found(&image, "8000::"), is("8000::/1", Some(0)));
    // the IPv4 start may have data too
    let nodes = vec![[Record::Data(0), Record::NoData]];
    let image = Image::new(6, 24, nodes, map(&[]));
    assert_eq!(found(&image, "255.2.3.4"), is("::/1", Some(0)));
}

#[test]
fn a_result_reads_its_data() {
    let reader = Reader::from_source(night_desk().bytes()).unwrap();
    let result = reader.lookup(ip("198.51.100.100")).unwrap();
    let nurse: Option<String> = result.decode_path(&path!["nurse"]).unwrap();
    assert_eq!(nurse.as_deref(), Some("Jörg Amstad"));
    let copy = result;
    assert_eq!(
        copy.decode_path::<u16>(&path!["ventilators"]).unwrap(),
        Some(1)
    );
    let nothing = reader.lookup(ip("198.51.100.1")).unwrap();
    assert!(!nothing.has_data());
    assert_eq!(
        nothing.decode_path::<u16>(&path!["ventilators"]).unwrap(),
        None
    );
    assert_eq!(nothing.decode::<u16>().unwrap(), None);
    assert!(nothing.entry().is_none());
}

/// Lends fewer bytes once it is told to.
struct Changing<'a> {
    bytes: Vec<u8>,
    shorter: &'a Cell<bool>,
}

impl AsRef<[u8]> for Changing<'_> {
    fn as_ref(&self) -> &[u8] {
        match self.shorter.get() {
            true => &self.bytes[..10],
            false => &self.bytes,
        }
    }
}

#[test]
fn a_source_that_changes_is_refused_with_9() {
    let shorter = Cell::new(false);
    let source = Changing {
        bytes: night_desk().bytes(),
        shorter: &shorter,
    };
    let reader = Reader::from_source(source).unwrap();
    let changed = |error: MaxMindDbError| {
        assert!(matches!(error, MaxMindDbError::InvalidInput(_)));
        assert_eq!(error.number(), Some(9));
    };
    let mut walk = reader.networks(Default::default()).unwrap();
    let result = reader.lookup(ip("203.0.113.9")).unwrap();
    shorter.set(true);
    changed(reader.lookup(ip("203.0.113.9")).unwrap_err());
    changed(result.decode::<String>().unwrap_err());
    changed(reader.networks(Default::default()).unwrap_err());
    // a walk says so once, and ends
    changed(walk.next().unwrap().unwrap_err());
    assert!(walk.next().is_none());
    assert!(walk.next().is_none());
    assert_eq!(reader.verify().unwrap_err().number(), Some(1));
}
