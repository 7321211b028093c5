//! Verification: each of its refusals.

#[allow(dead_code)]
mod common;

use common::*;
use ermopinaw::{MaxMindDbError, Reader};

fn verdict(image: &Image) -> Result<u64, u8> {
    let reader = Reader::from_source(image.bytes()).unwrap();
    reader.verify().map_err(|error| error.number().unwrap())
}

#[test]
fn sound_images_are_accepted() {
    assert_eq!(verdict(&image_a()), Ok(1));
    assert_eq!(verdict(&night_desk()), Ok(3));
}

#[test]
fn faults_of_the_metadata() {
    assert_eq!(verdict(&image_a().with("database_type", text(""))), Err(17));
    assert_eq!(verdict(&image_a().with("description", map(&[]))), Err(18));
    // an unknown field whose key is not UTF-8: it opens, and is not sound
    let mut image = image_a().bytes();
    let map = image.windows(14).rposition(|w| w == MARKER).unwrap() + 14;
    image[map] += 1;
    image.extend([0x41, 0xff, 0xa0]);
    let reader = Reader::from_source(image).unwrap();
    let error = reader.verify().unwrap_err();
    assert!(matches!(error, MaxMindDbError::Decoding { .. }));
    assert_eq!(error.number(), Some(14));
}

#[test]
fn faults_of_the_tree() {
    let mut image = image_a();
    image.nodes[0][0] = Record::Number(18);
    assert_eq!(verdict(&image), Err(11));
    image.nodes[0][0] = Record::Node(0);
    assert_eq!(verdict(&image), Err(12));
    // two nodes that lead to each other's networks again and again
    let nodes = vec![
        [Record::NoData, Record::Node(1)],
        [Record::NoData, Record::Node(0)],
    ];
    assert_eq!(verdict(&Image::new(4, 24, nodes, vec![0xe0])), Err(19));
}

#[test]
fn faults_of_separator_and_data() {
    let mut image = image_a();
    image.separator[15] = 1;
    assert_eq!(verdict(&image), Err(20));
    let mut image = image_a();
    image.data = vec![0x45];
    assert_eq!(verdict(&image), Err(14));
}

#[test]
fn work_without_end_is_21() {
    // 41 nodes that double the way, and every end an alias of the IPv4 start, which has no data
    let mut nodes: Vec<[Record; 2]> = (1..41).map(|next| [Record::Node(next); 2]).collect();
    nodes.push([Record::NoData; 2]);
    nodes.push([Record::NoData, Record::Node(0)]);
    // the tree's first node leads left to the IPv4 start and right into the doubling
    nodes.rotate_right(1);
    for node in &mut nodes {
        for record in node {
            if let Record::Node(next) = record {
                *next += 1;
            }
        }
    }
    let image = Image::new(6, 24, nodes, vec![0xe0]);
    let reader = Reader::from_source(image.bytes()).unwrap();
    let error = reader.verify().unwrap_err();
    assert!(matches!(error, MaxMindDbError::ResourceLimit(_)));
    assert_eq!(error.number(), Some(21));
    let reader = Reader::from_source(image_a().bytes()).unwrap();
    assert_eq!(reader.verify_with_budget(2).unwrap_err().number(), Some(21));
    assert_eq!(reader.verify_with_budget(3).unwrap(), 1);
}
