// Writes small images, for the tests and for the sample. Each of them uses a part of it.

use std::collections::BTreeMap;

pub const MARKER: &[u8] = b"\xab\xcd\xefMaxMind.com";

// ---- values ----

/// The bytes before a payload.
pub fn control(kind: u8, size: usize) -> Vec<u8> {
    let (code, more) = match size {
        0..=28 => (size as u8, vec![]),
        29..=284 => (29, vec![(size - 29) as u8]),
        285..=65_820 => (30, ((size - 285) as u16).to_be_bytes().to_vec()),
        _ => (31, ((size - 65_821) as u32).to_be_bytes()[1..].to_vec()),
    };
    let mut bytes = if kind < 8 {
        vec![kind << 5 | code]
    } else {
        vec![code, kind - 7]
    };
    bytes.extend(more);
    bytes
}

fn value(kind: u8, payload: &[u8]) -> Vec<u8> {
    [control(kind, payload.len()), payload.to_vec()].concat()
}

/// A whole number in as few bytes as it takes.
fn whole(kind: u8, n: u128) -> Vec<u8> {
    let bytes = n.to_be_bytes();
    let zeros = bytes.iter().take_while(|&&byte| byte == 0).count();
    value(kind, &bytes[zeros..])
}

pub fn text(s: &str) -> Vec<u8> {
    value(2, s.as_bytes())
}

pub fn double(n: f64) -> Vec<u8> {
    value(3, &n.to_bits().to_be_bytes())
}

pub fn bytes(b: &[u8]) -> Vec<u8> {
    value(4, b)
}

pub fn u16(n: u16) -> Vec<u8> {
    whole(5, n.into())
}

pub fn u32(n: u32) -> Vec<u8> {
    whole(6, n.into())
}

pub fn i32(n: i32) -> Vec<u8> {
    value(8, &n.to_be_bytes())
}

pub fn u64(n: u64) -> Vec<u8> {
    whole(9, n.into())
}

pub fn u128(n: u128) -> Vec<u8> {
    whole(10, n)
}

pub fn boolean(b: bool) -> Vec<u8> {
    control(14, b.into())
}

pub fn float(n: f32) -> Vec<u8> {
    value(15, &n.to_bits().to_be_bytes())
}

pub fn array(elements: &[Vec<u8>]) -> Vec<u8> {
    [control(11, elements.len()), elements.concat()].concat()
}

pub fn map(pairs: &[(&str, Vec<u8>)]) -> Vec<u8> {
    let mut bytes = control(7, pairs.len());
    for (key, value) in pairs {
        bytes.extend(text(key));
        bytes.extend(value);
    }
    bytes
}

/// A pointer to a place below 2,048.
pub fn pointer(place: usize) -> Vec<u8> {
    assert!(place < 2_048);
    vec![0x20 | (place >> 8) as u8, place as u8]
}

// ---- images ----

/// What a record of the tree says.
#[derive(Clone, Copy)]
pub enum Record {
    Node(u32),
    NoData,
    Data(u32),
    /// The very number.
    Number(u64),
}

pub struct Image {
    pub nodes: Vec<[Record; 2]>,
    pub data: Vec<u8>,
    pub separator: [u8; 16],
    pub size: u16,
    /// The metadata's fields, each with its value's bytes.
    pub fields: BTreeMap<&'static str, Vec<u8>>,
}

impl Image {
    pub fn new(version: u16, size: u16, nodes: Vec<[Record; 2]>, data: Vec<u8>) -> Image {
        let count = nodes.len() as u32;
        Image {
            nodes,
            data,
            separator: [0; 16],
            size,
            fields: BTreeMap::from([
                ("binary_format_major_version", u16(2)),
                ("binary_format_minor_version", u16(0)),
                ("build_epoch", u64(1_000)),
                ("database_type", text("Test")),
                ("description", map(&[("en", text("an image for tests"))])),
                ("ip_version", u16(version)),
                ("languages", array(&[text("en")])),
                ("node_count", u32(count)),
                ("record_size", u16(size)),
            ]),
        }
    }

    /// The same image with another field.
    pub fn with(mut self, field: &'static str, value: Vec<u8>) -> Image {
        self.fields.insert(field, value);
        self
    }

    pub fn without(mut self, field: &str) -> Image {
        self.fields.remove(field);
        self
    }

    fn record(&self, record: Record) -> u32 {
        let count = self.nodes.len() as u64;
        let number = match record {
            Record::Node(node) => node.into(),
            Record::NoData => count,
            Record::Data(offset) => count + 16 + u64::from(offset),
            Record::Number(number) => number,
        };
        number as u32
    }

    pub fn tree(&self) -> Vec<u8> {
        let mut tree = vec![];
        for &[left, right] in &self.nodes {
            let (l, r) = (
                self.record(left).to_be_bytes(),
                self.record(right).to_be_bytes(),
            );
            match self.size {
                28 => {
                    tree.extend(&l[1..]);
                    tree.push(l[0] << 4 | r[0] & 15);
                    tree.extend(&r[1..]);
                }
                32 => tree.extend([l, r].concat()),
                _ => tree.extend([&l[1..], &r[1..]].concat()),
            }
        }
        tree
    }

    pub fn metadata(&self) -> Vec<u8> {
        let fields = self
            .fields
            .iter()
            .map(|(&name, value)| (name, value.clone()));
        map(&fields.collect::<Vec<_>>())
    }

    pub fn bytes(&self) -> Vec<u8> {
        [
            &self.tree()[..],
            &self.separator,
            &self.data,
            MARKER,
            &self.metadata(),
        ]
        .concat()
    }
}

/// A tree that grows by networks: keys of 128 bits with their first bit at the top.
pub struct Tree {
    pub nodes: Vec<[Record; 2]>,
}

impl Default for Tree {
    fn default() -> Tree {
        Tree {
            nodes: vec![[Record::NoData; 2]],
        }
    }
}

impl Tree {
    /// Gives a network its record. No network that is there already may contain it.
    pub fn put(&mut self, key: u128, length: u32, record: Record) {
        let mut node = 0;
        for depth in 0..length {
            let bit = (key >> (127 - depth) & 1) as usize;
            if depth + 1 == length {
                self.nodes[node][bit] = record;
                return;
            }
            node = match self.nodes[node][bit] {
                Record::Node(next) => next as usize,
                _ => {
                    self.nodes.push([Record::NoData; 2]);
                    let next = self.nodes.len() - 1;
                    self.nodes[node][bit] = Record::Node(next as u32);
                    next
                }
            };
        }
    }

    /// An IPv4 network of an IPv4 tree.
    pub fn put_v4(&mut self, network: [u8; 4], length: u32, record: Record) {
        self.put(
            u128::from(u32::from_be_bytes(network)) << 96,
            length,
            record,
        );
    }

    /// An IPv4 network of an IPv6 tree.
    pub fn put_v4_in_v6(&mut self, network: [u8; 4], length: u32, record: Record) {
        self.put(u32::from_be_bytes(network).into(), 96 + length, record);
    }

    /// The node at the end of a way of zeros.
    pub fn zeros(&self, depth: usize) -> u32 {
        (0..depth).fold(0, |node, _| match self.nodes[node as usize][0] {
            Record::Node(next) => next,
            _ => panic!("the way of zeros ends early"),
        })
    }
}

// ---- images that several tests ask ----

/// Image A of docs/SCOPE.md: 0.0.0.0/1 has an empty map, the rest no data.
pub fn image_a() -> Image {
    let nodes = vec![[Record::Data(0), Record::NoData]];
    Image::new(4, 24, nodes, map(&[]))
}

/// The night desk's image: which nurse drives where. IPv6, with IPv4 networks inside; ::ffff:0:0/96 leads to them too.
pub fn night_desk() -> Image {
    let house = |street: &str, latitude: f64, longitude: f64| {
        map(&[
            ("street", text(street)),
            ("latitude", double(latitude)),
            ("longitude", double(longitude)),
        ])
    };
    let records = [
        map(&[
            ("nurse", text("Ana Pires")),
            ("house", house("Lindenweg 4", 47.5, 7.625)),
            ("phone", array(&[text("555-0101"), text("555-0102")])),
            ("ventilators", u16(1)),
        ]),
        map(&[
            ("nurse", text("Jörg Amstad")),
            ("house", house("Am Bach 12", 47.25, 7.5)),
            ("phone", array(&[text("555-0103")])),
            ("ventilators", u16(2)),
        ]),
    ];
    let second = records[0].len() as u32;
    let third = second + records[1].len() as u32;
    let mut data = records.concat();
    // the third house has the second's nurse
    data.extend(map(&[
        ("nurse", pointer(second as usize + 1 + 6)),
        ("house", house("Rainstrasse 7", 47.375, 7.75)),
        ("phone", array(&[])),
        ("ventilators", u16(1)),
    ]));
    let mut tree = Tree::default();
    tree.put_v4_in_v6([192, 0, 2, 0], 25, Record::Data(second));
    tree.put_v4_in_v6([198, 51, 100, 64], 26, Record::Data(third));
    tree.put_v4_in_v6([203, 0, 113, 0], 24, Record::Data(0));
    tree.put(0x2001_0db8_0001 << 80, 48, Record::Data(third));
    let ipv4 = tree.zeros(96);
    tree.put(0xffff << 32, 96, Record::Node(ipv4));
    Image::new(6, 28, tree.nodes, data)
        .with("database_type", text("Night-Desk"))
        .with(
            "description",
            map(&[
                ("de", text("Welche Pflegefachfrau wohin fährt")),
                ("en", text("Which nurse drives where")),
            ]),
        )
        .with("languages", array(&[text("de"), text("en")]))
        .with("build_epoch", u64(1_794_787_200))
}
