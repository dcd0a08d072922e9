//! Parts of images, and changes that are not refused.

use crate::calls::{Answer, Call, run};
use crate::image::{Batch, Body, Change, Delta, Fields, Image, MAX_IMAGE, Node, Record, Records, Time};
use std::collections::BTreeMap;

pub const NOW: Time = Time { seconds: 7, nanos: 8 };

pub fn empty_store() -> Image {
    Image {
        base: BTreeMap::new(),
        batches: Vec::new(),
        live: BTreeMap::new(),
        next_id: 1,
        staged_bytes: 0,
        staged_operations: 0,
        request: 0,
    }
}

pub fn base<const N: usize>(nodes: [(u64, Node); N]) -> Image {
    Image { base: nodes.into(), ..empty_store() }
}

impl Image {
    /// With one more batch, at the back.
    pub fn batch<const N: usize>(mut self, records: [(u64, Record); N]) -> Image {
        let records = records.into();
        self.batches.push(Batch {
            id: self.next_id,
            bytes: 0,
            operations: 0,
            reason: 5,
            commit: Time::default(),
            records,
        });
        self.next_id += 1;
        self
    }

    pub fn live<const N: usize>(self, records: [(u64, Record); N]) -> Image {
        Image { live: Records::from(records), ..self }
    }
}

fn entries(list: &[(&str, u64)]) -> BTreeMap<Vec<u8>, u64> {
    list.iter().map(|(name, inode)| (name.as_bytes().to_vec(), *inode)).collect()
}

pub fn node(body: Body) -> Node {
    let zero = Time::default();
    let attributes = BTreeMap::new();
    Node { perm: 0o755, links: 2, owner: 0, group: 0, atime: zero, mtime: zero, ctime: zero, attributes, body }
}

pub fn directory(parent: u64, list: &[(&str, u64)]) -> Node {
    node(Body::Directory { parent, entries: entries(list) })
}

pub fn symlink(target: &str) -> Node {
    node(Body::Symlink { target: target.as_bytes().to_vec() })
}

impl Node {
    pub fn with(self, attributes: &[(&str, &str)]) -> Node {
        let attributes = attributes.iter().map(|(name, value)| (name.as_bytes().to_vec(), value.as_bytes().to_vec()));
        Node { attributes: attributes.collect(), ..self }
    }
}

pub fn delta(change: Change) -> Delta {
    Delta { fields: Fields::default(), change }
}

pub fn directory_delta(parent: Option<u64>, added: &[(&str, u64)], removed: &[&str]) -> Delta {
    let removed = removed.iter().map(|name| name.as_bytes().to_vec()).collect();
    delta(Change::Directory { parent, added: entries(added), removed })
}

pub fn symlink_delta(target: Option<&str>) -> Delta {
    delta(Change::Symlink { target: target.map(|text| text.as_bytes().to_vec()) })
}

pub fn file_delta(size: Option<u64>) -> Delta {
    delta(Change::File { size })
}

impl Delta {
    pub fn setting(self, fields: Fields) -> Record {
        Record::Delta(Delta { fields, ..self })
    }

    /// With changes of extended attributes; no value removes.
    pub fn with(self, changes: &[(&str, Option<&str>)]) -> Record {
        let change = |(name, value): &(&str, Option<&str>)| {
            (name.as_bytes().to_vec(), value.map(|text| text.as_bytes().to_vec()))
        };
        self.setting(Fields { attributes: Some(changes.iter().map(change).collect()), ..Fields::default() })
    }

    pub fn record(self) -> Record {
        Record::Delta(self)
    }
}

/// The image after a change.
///
/// # Panics
/// If the change is refused.
pub fn changed(image: &[u8], call: Call) -> Vec<u8> {
    match run(image, &call, MAX_IMAGE) {
        Answer::Image(new) => new,
        other => panic!("{call:?}: {other:?}"),
    }
}

pub fn freeze() -> Call {
    Call::Freeze { depth: u64::MAX, bytes: u64::MAX, operations: u64::MAX, now: NOW }
}

pub fn fold_and_pop(image: &[u8]) -> Vec<u8> {
    let folded = changed(image, Call::Fold);
    let id = Image::read(&folded).expect("an image").batches[0].id;
    changed(&folded, Call::Pop { id })
}

pub fn freeze_fold_pop(image: &[u8]) -> Vec<u8> {
    fold_and_pop(&changed(image, freeze()))
}
