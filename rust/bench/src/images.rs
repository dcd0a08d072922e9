//! The images that are timed: one tree, spread over a base, batches and live, grown to a given length.

use oracle::builders::{directory, directory_delta, empty_store, file_delta, node};
use oracle::image::{Batch, Body, Change, Delta, Fields, Image, Node, Record, Time};

const NOW: Time = Time { seconds: 1_700_000_000, nanos: 123_456_789 };

/// What the calls ask for, in every image.
pub const ROOT: u64 = 1;
pub const NAME: &str = "entry-00002";
pub const FILE: u64 = 2;
pub const LINK: u64 = 3;
pub const DIRECTORY: u64 = 9;
/// No image has it.
pub const FRESH: u64 = 1_000_000;

fn stamped(node: Node) -> Node {
    Node { atime: NOW, mtime: NOW, ctime: NOW, owner: 1000, group: 1000, ..node }
}

/// The node of an inode in the base: files, links among them, and directories.
fn kept(inode: u64) -> Node {
    stamped(match inode % 10 {
        3 => node(Body::Symlink { target: format!("../target/of/{inode}").into_bytes() }),
        7 => directory(ROOT, &[("one", inode + 1), ("two", inode + 2)]),
        _ => node(Body::File { size: inode * 4096 }),
    })
    .with(&[("user.note", "kept in the base")])
}

fn fields() -> Fields {
    Fields { mode: Some(0o640), owner: Some(1000), mtime: Some(NOW), ctime: Some(NOW), ..Fields::default() }
}

/// A record for an inode that a layer makes, or for one that is in the base.
fn record(inode: u64, made: bool) -> Record {
    let delta = match inode % 10 {
        3 => {
            Delta { fields: Fields::default(), change: Change::Symlink { target: made.then(|| b"elsewhere".to_vec()) } }
        }
        7 => directory_delta(made.then_some(ROOT), &[("three", inode)], &[]),
        _ => file_delta(Some(inode)),
    };
    Record::Delta(Delta { fields: fields(), ..delta })
}

fn name(inode: u64) -> String {
    format!("entry-{inode:05}")
}

/// An entry of the root that a layer adds.
fn enter(image: &mut Image, layer: usize, inode: u64) {
    let records = if layer < image.batches.len() { &mut image.batches[layer].records } else { &mut image.live };
    let root = records.entry(ROOT).or_insert_with(|| Record::Delta(directory_delta(None, &[], &[])));
    if let Record::Delta(Delta { change: Change::Directory { added, .. }, .. }) = root {
        added.insert(name(inode).into_bytes(), inode);
    }
    records.insert(inode, record(inode, true));
}

/// The root with three nodes, as many batches as asked for, and live; each layer has an entry of the root's.
fn seedling(batches: u64) -> Image {
    let mut image = empty_store();
    image.base.insert(ROOT, stamped(directory(ROOT, &[(NAME, FILE), ("entry-00003", LINK)])));
    image.base.insert(FILE, kept(FILE));
    image.base.insert(LINK, kept(LINK));
    image.base.insert(DIRECTORY, stamped(directory(ROOT, &[])));
    for id in 1..=batches {
        image.batches.push(Batch {
            id,
            bytes: 4096,
            operations: 3,
            reason: 5,
            commit: NOW,
            records: Default::default(),
        });
        enter(&mut image, id as usize - 1, 3 + id);
    }
    enter(&mut image, batches as usize, 4 + batches);
    image.next_id = batches + 1;
    image
}

/// Document 01's root on paper.
pub fn root() -> Vec<u8> {
    oracle::builders::base([(ROOT, directory(ROOT, &[]))]).write()
}

/// The least image in which no call is refused: the root and three nodes, a batch and live with one file each.
pub fn least() -> Vec<u8> {
    seedling(1).write()
}

/// Just below `length` bytes, in a base, four batches and live: six of ten inodes in the base, with a record in one layer, four made in a layer.
pub fn of_length(length: usize) -> Vec<u8> {
    let mut image = seedling(4);
    let mut bytes = image.write();
    for inode in 10.. {
        let layer = inode as usize % 5;
        if inode % 10 < 6 {
            if let Body::Directory { entries, .. } = &mut image.base.get_mut(&ROOT).expect("the root").body {
                entries.insert(name(inode).into_bytes(), inode);
            }
            image.base.insert(inode, kept(inode));
            if inode % 3 == 0 {
                let records = if layer < 4 { &mut image.batches[layer].records } else { &mut image.live };
                records.insert(inode, record(inode, false));
            }
        } else {
            enter(&mut image, layer, inode);
        }
        let grown = image.write();
        if grown.len() > length {
            break;
        }
        bytes = grown;
    }
    bytes
}
