//! Walks: which networks they hand out, in which order, and how they go on after errors.

#[allow(dead_code)]
mod common;

use common::*;
use ermopinaw::{IpNetwork, MaxMindDbError, Reader, WithinOptions};

/// Each network as `NETWORK OFFSET` or `NETWORK -`, each error as its number.
fn lines<'a>(
    walk: impl Iterator<Item = Result<ermopinaw::LookupResult<'a, Vec<u8>>, MaxMindDbError>>,
) -> Vec<String> {
    walk.map(|result| match result {
        Ok(network) => {
            let offset = network.offset().map_or("-".to_string(), |o| o.to_string());
            format!("{} {offset}", network.network().unwrap())
        }
        Err(error) => error.number().unwrap().to_string(),
    })
    .collect()
}

fn listed(image: &Image, range: Option<&str>, options: WithinOptions) -> Vec<String> {
    let reader = Reader::from_source(image.bytes()).unwrap();
    match range {
        Some(range) => lines(reader.within(range.parse().unwrap(), options).unwrap()),
        None => lines(reader.networks(options).unwrap()),
    }
}

fn all() -> WithinOptions {
    WithinOptions::default()
        .include_aliased_networks()
        .include_networks_without_data()
}

#[test]
fn image_a_has_two_networks() {
    assert_eq!(
        listed(&image_a(), None, Default::default()),
        ["0.0.0.0/1 0"]
    );
    assert_eq!(
        listed(&image_a(), None, all()),
        ["0.0.0.0/1 0", "128.0.0.0/1 -"]
    );
    let not_empty = WithinOptions::default().skip_empty_values();
    assert!(listed(&image_a(), None, not_empty).is_empty());
    assert_eq!(
        listed(&image_a(), None, not_empty.include_networks_without_data()),
        ["128.0.0.0/1 -"]
    );
}

#[test]
fn a_range_has_the_networks_inside_it_or_the_one_around_it() {
    let image = night_desk();
    assert_eq!(
        listed(&image, Some("203.0.113.0/24"), Default::default()),
        ["203.0.113.0/24 0"]
    );
    // bits past the prefix do not count, and a smaller range has the network around it
    assert_eq!(
        listed(&image, Some("203.0.113.77/28"), Default::default()),
        ["203.0.113.0/24 0"]
    );
    assert!(listed(&image, Some("10.0.0.0/8"), Default::default()).is_empty());
    assert_eq!(
        listed(&image, Some("192.0.2.0/24"), all()),
        [
            &format!("192.0.2.0/25 {}", second(&image)),
            "192.0.2.128/25 -"
        ]
    );
}

fn second(image: &Image) -> usize {
    let reader = Reader::from_source(image.bytes()).unwrap();
    let found = reader.lookup("192.0.2.1".parse().unwrap()).unwrap();
    found.offset().unwrap()
}

#[test]
fn aliases_are_left_out_unless_asked_for() {
    let image = night_desk();
    let plain = listed(&image, None, Default::default());
    assert_eq!(plain.len(), 4);
    assert_eq!(plain[2], "203.0.113.0/24 0");
    assert!(plain[3].starts_with("2001:db8:1::/48 "));
    let aliased = listed(
        &image,
        None,
        WithinOptions::default().include_aliased_networks(),
    );
    assert_eq!(aliased.len(), 7);
    assert_eq!(aliased[5], "::ffff:203.0.113.0/120 0");
}

#[test]
fn ranges_of_an_image_without_ipv4_subtree() {
    let nodes = vec![[Record::NoData, Record::Data(0)]];
    let image = Image::new(6, 24, nodes, map(&[]));
    assert_eq!(listed(&image, Some("10.0.0.0/8"), all()), ["::/1 -"]);
    // case 10 of docs/SCOPE.md: the right half is an alias of the left
    let nodes = vec![[Record::Data(0), Record::Data(0)]];
    let image = Image::new(6, 24, nodes, map(&[]));
    assert_eq!(listed(&image, None, Default::default()), ["::/1 0"]);
    assert_eq!(listed(&image, None, all()), ["::/1 0", "8000::/1 0"]);
}

#[test]
fn a_walk_goes_on_after_12() {
    let mut image = image_a();
    image.nodes[0][0] = Record::Node(0);
    let lines = listed(&image, None, all());
    assert_eq!(lines.len(), 33);
    assert_eq!(lines[0], "12");
    assert_eq!(lines[1], "0.0.0.1/32 -");
    assert_eq!(lines[32], "128.0.0.0/1 -");
}

#[test]
fn a_walk_goes_on_after_11_and_14_and_ends() {
    // 0/2 leads nowhere, 64/2 to a pointer past the section, 128/1 to an empty array
    let nodes = vec![
        [Record::Node(1), Record::Data(3)],
        [Record::Data(9), Record::Data(0)],
    ];
    let image = Image::new(4, 32, nodes, [pointer(99), u16(7), array(&[])].concat());
    assert_eq!(
        listed(&image, None, Default::default()),
        ["11", "64.0.0.0/2 0", "128.0.0.0/1 3"]
    );
    let reader = Reader::from_source(image.bytes()).unwrap();
    let mut walk = reader
        .networks(WithinOptions::default().skip_empty_values())
        .unwrap();
    assert_eq!(walk.next().unwrap().unwrap_err().number(), Some(11));
    assert_eq!(walk.next().unwrap().unwrap_err().number(), Some(14));
    // the array is not empty at its place: it begins one byte later
    assert_eq!(walk.by_ref().count(), 1);
    assert!(walk.next().is_none());
    assert!(walk.next().is_none());
    assert_eq!(walk.places_taken(), 5);
}

#[test]
fn a_walk_of_many_networks_comes_in_several_calls() {
    // every address of a /20 with its own answer, odd ones with data
    let mut tree = Tree::default();
    for address in 0..4096_u32 {
        let record = match address % 2 {
            0 => Record::NoData,
            _ => Record::Data(0),
        };
        tree.put_v4([10, 0, (address >> 8) as u8, address as u8], 32, record);
    }
    let image = Image::new(4, 32, tree.nodes, u16(1));
    let expected: Vec<String> = (0..4096_u32)
        .map(|a| {
            format!(
                "10.0.{}.{}/32 {}",
                a >> 8,
                a & 255,
                ["-", "0"][a as usize % 2]
            )
        })
        .collect();
    assert_eq!(listed(&image, Some("10.0.0.0/20"), all()), expected);
    assert_eq!(listed(&image, None, Default::default()).len(), 2048);
}

#[test]
fn ipv6_of_an_ipv4_image_is_10() {
    let reader = Reader::from_source(image_a().bytes()).unwrap();
    let range: IpNetwork = "2001:db8::/32".parse().unwrap();
    let error = reader.within(range, Default::default()).unwrap_err();
    assert!(matches!(error, MaxMindDbError::InvalidInput(_)));
    assert_eq!(error.number(), Some(10));
}

#[test]
fn every_network_of_a_walk_is_that_of_its_lookups() {
    let image = night_desk();
    let reader = Reader::from_source(image.bytes()).unwrap();
    for network in reader.networks(all()).unwrap() {
        let network = network.unwrap();
        let shown = network.network().unwrap();
        let found = reader.lookup(shown.network()).unwrap();
        assert_eq!(found.network().unwrap(), shown);
        assert_eq!(found.offset(), network.offset());
    }
}
