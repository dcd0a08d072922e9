//! A difference made small: parts of the image and of the arguments are left out while the two sides still differ.

use crate::compare::{Comparer, Difference};
use oracle::calls::Call;
use oracle::image::{Body, Change, Delta, Fields, Image, Node, Record, Records, Time};
use std::collections::{BTreeMap, BTreeSet};

const MOST_TRIES: usize = 20_000;

/// The smallest difference found.
pub fn shrink(comparer: &mut Comparer, mut found: Difference) -> Difference {
    let mut tries = 0;
    loop {
        let smaller = candidates(&found).into_iter().find_map(|(image, call, room)| {
            tries += 1;
            if tries > MOST_TRIES { None } else { comparer.again(&image, &call, room) }
        });
        match smaller {
            Some(difference) => found = difference,
            None => return found,
        }
    }
}

/// Everything one step simpler, the greatest steps first.
fn candidates(found: &Difference) -> Vec<(Vec<u8>, Call, usize)> {
    let mut list = Vec::new();
    let images = match Image::read(&found.image) {
        Ok(image) => simpler_images(&image).iter().map(Image::write).collect(),
        Err(_) => simpler_bytes(&found.image),
    };
    // The room keeps its distance from the image's length, so that 5 stays 5.
    for image in images {
        let shorter = found.image.len().saturating_sub(image.len());
        let room =
            if found.room > oracle::image::MAX_IMAGE / 2 { found.room } else { found.room.saturating_sub(shorter) };
        list.push((image.clone(), found.call.clone(), room));
        list.push((image, found.call.clone(), found.room));
    }
    for call in simpler_calls(&found.call) {
        list.push((found.image.clone(), call, found.room));
    }
    list.retain(|(image, call, _)| image.len() <= found.image.len() && (*image != found.image || *call != found.call));
    list
}

fn simpler_bytes(bytes: &[u8]) -> Vec<Vec<u8>> {
    let mut list = Vec::new();
    let mut width = bytes.len() / 2;
    while width > 0 {
        for start in (0..bytes.len()).step_by(width) {
            let end = (start + width).min(bytes.len());
            list.push([&bytes[..start], &bytes[end..]].concat());
        }
        width /= 2;
    }
    for place in 0..bytes.len().min(200) {
        if bytes[place] != 0 {
            let mut zeroed = bytes.to_vec();
            zeroed[place] = 0;
            list.push(zeroed);
        }
    }
    list
}

/// A map without its first half, without its second, and without each of its rows, if they are few.
fn fewer<K: Ord + Clone, V: Clone>(map: &BTreeMap<K, V>) -> Vec<BTreeMap<K, V>> {
    let rows: Vec<_> = map.iter().map(|(k, v)| (k.clone(), v.clone())).collect();
    let half = rows.len() / 2;
    let mut list = Vec::new();
    if rows.len() > 1 {
        list.push(BTreeMap::new());
        list.push(rows[half..].iter().cloned().collect());
        list.push(rows[..half].iter().cloned().collect());
    }
    let step = rows.len().div_ceil(16).max(1);
    for start in (0..rows.len()).step_by(step) {
        let rest = rows[..start].iter().chain(&rows[(start + step).min(rows.len())..]);
        list.push(rest.cloned().collect());
    }
    list
}

/// A map with one of its values replaced by each simpler one.
fn simpler_values<K: Ord + Clone, V: Clone>(map: &BTreeMap<K, V>, simpler: fn(&V) -> Vec<V>) -> Vec<BTreeMap<K, V>> {
    let mut list = Vec::new();
    for (key, value) in map.iter().take(40) {
        for value in simpler(value) {
            let mut map = map.clone();
            map.insert(key.clone(), value);
            list.push(map);
        }
    }
    list
}

fn simpler_images(image: &Image) -> Vec<Image> {
    let mut list = Vec::new();
    list.extend(fewer(&image.base).into_iter().map(|base| Image { base, ..image.clone() }));
    for at in 0..image.batches.len() {
        let mut fewer = image.clone();
        fewer.batches.remove(at);
        list.push(fewer);
    }
    list.extend(fewer(&image.live).into_iter().map(|live| Image { live, ..image.clone() }));
    for (at, batch) in image.batches.iter().enumerate() {
        for records in simpler_records(&batch.records) {
            let mut simpler = image.clone();
            simpler.batches[at].records = records;
            list.push(simpler);
        }
        let mut plain = image.clone();
        let b = &mut plain.batches[at];
        (b.bytes, b.operations, b.reason, b.commit) = (0, 0, 5, Time::default());
        list.push(plain);
    }
    list.extend(simpler_records(&image.live).into_iter().map(|live| Image { live, ..image.clone() }));
    list.extend(simpler_values(&image.base, simpler_nodes).into_iter().map(|base| Image { base, ..image.clone() }));
    list.push(Image { staged_bytes: 0, staged_operations: 0, request: 0, ..image.clone() });
    let mut renumbered = image.clone();
    for (id, batch) in (1..).zip(&mut renumbered.batches) {
        batch.id = id;
        renumbered.next_id = id + 1;
    }
    if image.batches.is_empty() {
        renumbered.next_id = 1;
    }
    list.push(renumbered);
    list.retain(|simpler| simpler != image);
    list
}

fn simpler_records(records: &Records) -> Vec<Records> {
    let mut list = fewer(records);
    list.extend(simpler_values(records, |record| match record {
        Record::Tombstone => Vec::new(),
        Record::Delta(delta) => simpler_deltas(delta).into_iter().map(Record::Delta).collect(),
    }));
    list
}

fn simpler_nodes(node: &Node) -> Vec<Node> {
    let zero = Time::default();
    let mut list =
        vec![Node { perm: 0, links: 1, owner: 0, group: 0, atime: zero, mtime: zero, ctime: zero, ..node.clone() }];
    list.extend(fewer(&node.attributes).into_iter().map(|attributes| Node { attributes, ..node.clone() }));
    let shorter = simpler_values(&node.attributes, |value| shorter_texts(value));
    list.extend(shorter.into_iter().map(|attributes| Node { attributes, ..node.clone() }));
    match &node.body {
        Body::Directory { parent, entries } => {
            for entries in fewer(entries) {
                list.push(Node { body: Body::Directory { parent: *parent, entries }, ..node.clone() });
            }
        }
        Body::Symlink { target } => {
            for target in shorter_texts(target) {
                list.push(Node { body: Body::Symlink { target }, ..node.clone() });
            }
        }
        Body::File { size } if *size > 1 => list.push(Node { body: Body::File { size: 1 }, ..node.clone() }),
        _ => {}
    }
    list.retain(|simpler| simpler != node);
    list
}

fn simpler_deltas(delta: &Delta) -> Vec<Delta> {
    let mut list: Vec<Delta> =
        simpler_fields(&delta.fields).into_iter().map(|fields| Delta { fields, ..delta.clone() }).collect();
    match &delta.change {
        Change::Directory { parent, added, removed } => {
            let mut push = |parent: Option<u64>, added: BTreeMap<_, _>, removed: BTreeSet<_>| {
                list.push(Delta { change: Change::Directory { parent, added, removed }, ..delta.clone() });
            };
            for fewer in fewer(added) {
                push(*parent, fewer, removed.clone());
            }
            let names: BTreeMap<Vec<u8>, ()> = removed.iter().map(|name| (name.clone(), ())).collect();
            for fewer in fewer(&names) {
                push(*parent, added.clone(), fewer.into_keys().collect());
            }
            push(None, added.clone(), removed.clone());
        }
        Change::Symlink { target: Some(target) } => {
            for target in shorter_texts(target) {
                list.push(Delta { change: Change::Symlink { target: Some(target) }, ..delta.clone() });
            }
        }
        _ => {}
    }
    list.retain(|simpler| simpler != delta);
    list
}

fn simpler_fields(fields: &Fields) -> Vec<Fields> {
    let mut list = vec![Fields::default()];
    let f = || fields.clone();
    list.push(Fields { attributes: fields.attributes.clone(), ..Fields::default() });
    list.extend([
        Fields { mode: None, ..f() },
        Fields { owner: None, ..f() },
        Fields { group: None, ..f() },
        Fields { links: None, ..f() },
        Fields { atime: None, ..f() },
        Fields { mtime: None, ..f() },
        Fields { ctime: None, ..f() },
        Fields { created: None, ..f() },
        Fields { attributes: None, ..f() },
    ]);
    if let Some(changes) = &fields.attributes {
        list.extend(fewer(changes).into_iter().map(|fewer| Fields { attributes: Some(fewer), ..f() }));
        let shorter =
            simpler_values(changes, |value| value.iter().flat_map(|value| shorter_texts(value)).map(Some).collect());
        list.extend(shorter.into_iter().map(|shorter| Fields { attributes: Some(shorter), ..f() }));
    }
    list.retain(|simpler| simpler != fields);
    list
}

fn shorter_texts(text: &[u8]) -> Vec<Vec<u8>> {
    let letter = if text.is_empty() { None } else { Some(vec![b'x']) };
    [Some(Vec::new()), letter, Some(vec![b'x'; text.len() / 2])]
        .into_iter()
        .flatten()
        .filter(|t| t.len() < text.len())
        .collect()
}

fn simpler_calls(call: &Call) -> Vec<Call> {
    match call {
        Call::Insert { inode, delta } => match Delta::read(delta) {
            Ok(read) => {
                simpler_deltas(&read).iter().map(|delta| Call::Insert { inode: *inode, delta: delta.write() }).collect()
            }
            Err(_) => simpler_bytes(delta).into_iter().map(|delta| Call::Insert { inode: *inode, delta }).collect(),
        },
        Call::Update { inode, fields } => match Fields::read(fields) {
            Ok(read) => simpler_fields(&read)
                .iter()
                .map(|fields| Call::Update { inode: *inode, fields: fields.write() })
                .collect(),
            Err(_) => simpler_bytes(fields).into_iter().map(|fields| Call::Update { inode: *inode, fields }).collect(),
        },
        Call::Add { parent, name, child, now } if *now != Time::default() => {
            vec![Call::Add { parent: *parent, name: name.clone(), child: *child, now: Time::default() }]
        }
        Call::Remove { parent, name, now } if *now != Time::default() => {
            vec![Call::Remove { parent: *parent, name: name.clone(), now: Time::default() }]
        }
        _ => Vec::new(),
    }
}
