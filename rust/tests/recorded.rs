//! Networks as maxminddb 0.32.0 shows them: its answers, recorded by tests/record_networks, asked of this crate.

use ermopinaw::{IpNetwork, LookupResult, MaxMindDbError, Reader, WithinOptions};

type Bytes = Vec<u8>;

fn unhex(hex: &str) -> Bytes {
    let digit = |at: usize| u8::from_str_radix(&hex[at..at + 2], 16).unwrap();
    (0..hex.len()).step_by(2).map(digit).collect()
}

/// The networks of both sides in the form of this crate.
fn same(network: &str) -> String {
    network.parse::<IpNetwork>().unwrap().to_string()
}

fn shown(result: Result<LookupResult<Bytes>, MaxMindDbError>) -> String {
    match result {
        Ok(network) => {
            let offset = network.offset().map_or("-".to_string(), |o| o.to_string());
            format!("{} {offset}", network.network().unwrap())
        }
        Err(error) => error.number().unwrap().to_string(),
    }
}

/// An answer of the record in the same form.
fn expected(words: &[&str]) -> String {
    match words {
        [network, offset] => format!("{} {offset}", same(network)),
        [number] => number.to_string(),
        _ => panic!("{words:?}"),
    }
}

fn walk(reader: &Reader<Bytes>, range: &str, letters: &str) -> Vec<String> {
    let mut options = WithinOptions::default();
    if letters.contains('a') {
        options = options.include_aliased_networks();
    }
    if letters.contains('n') {
        options = options.include_networks_without_data();
    }
    if letters.contains('s') {
        options = options.skip_empty_values();
    }
    let walk = match range {
        "all" => reader.networks(options),
        range => reader.within(range.parse().unwrap(), options),
    };
    match walk {
        Ok(walk) => walk.map(shown).collect(),
        Err(error) => vec![error.number().unwrap().to_string()],
    }
}

#[test]
fn networks_are_shown_as_recorded() {
    let mut reader = None;
    let mut left: Vec<String> = vec![];
    let (mut lookups, mut networks) = (0, 0);
    for line in include_str!("recorded.txt").lines() {
        let words: Vec<&str> = line.split(' ').collect();
        if words[0] != "+" {
            assert!(left.is_empty(), "more networks than recorded before {line}");
        }
        match (&words[..], &reader) {
            (["image", hex], _) => reader = Some(Reader::from_source(unhex(hex)).unwrap()),
            (["lookup", address, answer @ ..], Some(reader)) => {
                let found = reader.lookup(address.parse().unwrap());
                assert_eq!(shown(found), expected(answer), "{line}");
                lookups += 1;
            }
            (["walk", range, options], Some(reader)) => {
                left = walk(reader, range, options);
                left.reverse();
            }
            (["+", answer @ ..], _) => {
                assert_eq!(left.pop(), Some(expected(answer)), "{line}");
                networks += 1;
            }
            _ => panic!("{line}"),
        }
    }
    assert!(left.is_empty());
    assert!(lookups >= 1200 && networks >= 1000, "{lookups} {networks}");
}
