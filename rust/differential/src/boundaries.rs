//! The edges that document 01 names, one by one. They come first in every run, and are the same for every seed.

use crate::compare::{Comparer, Held};
use crate::invalid;
use crate::judge::Judge;
use crate::random::Random;
use oracle::builders::{
    NOW, base, delta, directory, directory_delta, empty_store, file_delta, freeze, node, symlink, symlink_delta,
};
use oracle::calls::Call;
use oracle::image::{
    Batch, Body, Change, Delta, Fields, Image, MAX_BATCHES, MAX_IMAGE, MAX_NAME, MAX_TARGET, MAX_VALUE, Node, Record,
    Time,
};
use std::collections::BTreeMap;

type Part = fn(&mut Comparer) -> Held<()>;

pub const PARTS: [(&str, Part); 11] = [
    ("zero lengths", zero_lengths),
    ("lengths of names, targets and values", lengths),
    ("numbers one short of each size", sizes),
    ("sixteen batches, and a directory spread over all layers", spread),
    ("ids of batches that don't rise, seventeen batches", ids),
    ("each sort of record over each sort", each_over_each),
    ("every place between freeze, fold and pop", queue_places),
    ("limits of freeze", freeze_limits),
    ("times", times),
    ("images of about 65,536 bytes", full_images),
    ("damaged images of the corpus", corpus_damaged),
];

/// Every read of the image, and every change of `inode`, in each room.
fn everything(comparer: &mut Comparer, image: &[u8], inode: u64) -> Held<()> {
    let mut judge = Judge::new(image);
    comparer.every_read(&mut judge)?;
    for call in changes(inode) {
        comparer.change_in_each_room(&mut judge, &call)?;
    }
    Ok(())
}

fn changes(inode: u64) -> Vec<Call> {
    let name = b"a".to_vec();
    let mut list = vec![
        Call::Insert { inode, delta: directory_delta(Some(2), &[("a", 3)], &[]).write() },
        Call::Insert { inode, delta: symlink_delta(Some("t")).write() },
        Call::Tombstone { inode },
        Call::Add { parent: inode, name: name.clone(), child: 7, now: NOW },
        Call::Remove { parent: inode, name, now: NOW },
        Call::SetParent { inode, parent: 300 },
        Call::Update { inode, fields: Fields::default().write() },
        Call::Update { inode, fields: every_field().write() },
        freeze(),
        Call::Fold,
        Call::Snapshot,
        Call::Note { bytes: 300 },
        Call::Request { reason: 3 },
    ];
    list.extend((0..=2).map(|id| Call::Pop { id }));
    list.extend((0..=MAX_BATCHES as u64 + 1).map(|position| Call::Normalise { position }));
    list
}

fn every_field() -> Fields {
    let attributes = BTreeMap::from([(b"b".to_vec(), Some(b"new".to_vec())), (b"c".to_vec(), None)]);
    Fields {
        mode: Some(0o100_640),
        owner: Some(300),
        group: Some(2),
        links: Some(0),
        atime: Some(Time { seconds: -1, nanos: 1 }),
        mtime: Some(Time { seconds: 2, nanos: 2 }),
        ctime: Some(Time { seconds: -3, nanos: 3 }),
        created: Some(Time { seconds: 4, nanos: 4 }),
        attributes: Some(attributes),
    }
}

fn zero_lengths(comparer: &mut Comparer) -> Held<()> {
    everything(comparer, &[], 1)?;
    everything(comparer, &empty_store().write(), 1)?;
    let mut judge = Judge::new(&[]);
    let empty = empty_store().write();
    for call in [Call::Insert { inode: 1, delta: vec![] }, Call::Update { inode: 1, fields: vec![] }] {
        comparer.change_in_each_room(&mut judge, &call)?;
        comparer.change_in_each_room(&mut Judge::new(&empty), &call)?;
    }
    // An empty target, an empty value, an empty list of attribute changes, empty lists of names.
    let none = Fields { attributes: Some(BTreeMap::new()), ..Fields::default() };
    let image = base([(5, symlink("")), (6, directory(1, &[]).with(&[("a", "")]))])
        .batch([(5, symlink_delta(Some("")).record()), (6, directory_delta(None, &[], &[]).setting(none.clone()))])
        .batch([])
        .live([(5, symlink_delta(None).setting(none)), (6, file_delta(None).with(&[("a", Some(""))]))]);
    everything(comparer, &image.write(), 5)?;
    everything(comparer, &image.write(), 6)
}

fn texts(length: usize) -> String {
    "n".repeat(length)
}

/// Names, targets and values at their limits and one to either side, as arguments and in images.
fn lengths(comparer: &mut Comparer) -> Held<()> {
    let image = base([(5, directory(1, &[("a", 7)]))]).write();
    for length in [0, 1, 127, 128, MAX_NAME - 1, MAX_NAME, MAX_NAME + 1, 300, 65_536] {
        let name = texts(length).into_bytes();
        let mut judge = Judge::new(&image);
        comparer.read(&mut judge, &Call::Child { inode: 5, name: name.clone() })?;
        comparer.read(&mut judge, &Call::Xattr { inode: 5, name: name.clone() })?;
        comparer.change_in_each_room(&mut judge, &Call::Remove { parent: 5, name: name.clone(), now: NOW })?;
        let call = Call::Add { parent: 5, name, child: 7, now: NOW };
        if let Some(new) = comparer.change_in_each_room(&mut judge, &call)? {
            everything(comparer, &new, 5)?;
        }
    }
    // The writer makes what the readers must refuse, too.
    for length in [0, 1, MAX_NAME, MAX_NAME + 1] {
        let name = texts(length);
        everything(comparer, &base([(5, directory(1, &[(&name, 7)]))]).write(), 5)?;
        everything(comparer, &base([]).live([(5, directory_delta(None, &[(&name, 7)], &[])).record_of()]).write(), 5)?;
        everything(comparer, &base([]).live([(5, directory_delta(None, &[], &[&name])).record_of()]).write(), 5)?;
        everything(comparer, &base([(5, directory(1, &[]).with(&[(&name, "v")]))]).write(), 5)?;
        everything(comparer, &base([]).live([(5, file_delta(None).with(&[(&name, None)]))]).write(), 5)?;
    }
    for length in [0, MAX_TARGET - 1, MAX_TARGET, MAX_TARGET + 1] {
        let target = texts(length);
        everything(comparer, &base([(5, symlink(&target))]).write(), 5)?;
        everything(comparer, &base([]).live([(5, symlink_delta(Some(&target)).record())]).write(), 5)?;
        let call = Call::Insert { inode: 5, delta: symlink_delta(Some(&target)).write() };
        comparer.change_in_each_room(&mut Judge::new(&image), &call)?;
    }
    for length in [0, MAX_VALUE - 1, MAX_VALUE, MAX_VALUE + 1] {
        let value = texts(length);
        everything(comparer, &base([(5, symlink("t").with(&[("a", &value)]))]).write(), 5)?;
        everything(comparer, &base([]).live([(5, file_delta(None).with(&[("a", Some(&value))]))]).write(), 5)?;
        let attributes = BTreeMap::from([(b"a".to_vec(), Some(value.into_bytes()))]);
        let fields = Fields { attributes: Some(attributes), ..Fields::default() };
        comparer.change_in_each_room(&mut Judge::new(&image), &Call::Update { inode: 5, fields: fields.write() })?;
    }
    Ok(())
}

trait RecordOf {
    fn record_of(self) -> (u64, Record);
}

impl RecordOf for (u64, Delta) {
    fn record_of(self) -> (u64, Record) {
        (self.0, self.1.record())
    }
}

/// Each number at the edges of its length in bytes and at its limit; one past the limit must be refused.
fn sizes(comparer: &mut Comparer) -> Held<()> {
    let edges = |bits: u32| {
        let lengths = (1..=9).map(|n| 1u64 << (7 * n)).take_while(move |n| bits == 64 || *n < 1 << bits);
        let most = u64::MAX >> (64 - bits);
        lengths.flat_map(|n| [n - 1, n]).chain([0, 1, most - 1, most])
    };
    for n in edges(32).map(|n| n as u32) {
        let fields = Fields { mode: Some(n), owner: Some(n), group: Some(n), links: Some(n), ..Fields::default() };
        let device = delta(Change::Character { device: n });
        let kept = Node { perm: n, links: n, owner: n, group: n, ..node(Body::Block { device: n }) };
        let image = base([(5, kept)]).batch([(5, device.clone().setting(fields.clone()))]);
        let image = Image { staged_bytes: n, staged_operations: n, ..image };
        everything(comparer, &image.write(), 5)?;
        everything(comparer, &base([]).live([(5, device.setting(fields))]).write(), 5)?;
        for more in [0, 1, u64::from(u32::MAX - n), u64::from(u32::MAX - n) + 1] {
            comparer.change_in_each_room(&mut Judge::new(&image.write()), &Call::Note { bytes: more })?;
        }
    }
    for n in edges(63) {
        let image = base([(5, node(Body::File { size: n }))]).batch([(5, file_delta(Some(n)).record())]);
        everything(comparer, &image.live([(6, file_delta(Some(n)).record())]).write(), 6)?;
        comparer.change_in_each_room(
            &mut Judge::new(&empty_store().write()),
            &Call::Insert { inode: 5, delta: file_delta(Some(n)).write() },
        )?;
    }
    for n in edges(64) {
        let image = base([(n, directory(n, &[("a", n)]))])
            .batch([(n, directory_delta(Some(n), &[("b", n)], &["c"]).record())])
            .live([(n, directory_delta(Some(n), &[("c", n)], &["a"]).record())]);
        everything(comparer, &image.write(), n)?;
        let late = Image { next_id: n, ..base([]).live([(n, Record::Tombstone)]) };
        everything(comparer, &late.write(), n)?;
        let mut judge = Judge::new(&[]);
        comparer.change(&mut judge, &Call::Pop { id: n })?;
    }
    one_past(comparer)
}

/// Numbers one past their limits, which no writer here makes, in what insert and update are given and in images.
fn one_past(comparer: &mut Comparer) -> Held<()> {
    let empty = empty_store().write();
    let mut judge = Judge::new(&empty);
    for delta in swapped(&full_delta().write()) {
        comparer.change_in_each_room(&mut judge, &Call::Insert { inode: 5, delta })?;
    }
    for fields in swapped(&full_fields().write()) {
        comparer.change_in_each_room(&mut judge, &Call::Update { inode: 5, fields })?;
    }
    let file = |size| Record::Delta(file_delta(Some(size)));
    let kept = |body| Node { perm: u32::MAX, links: u32::MAX, owner: u32::MAX, group: u32::MAX, ..node(body) };
    let most = u64::MAX >> 1;
    let mut image = base([
        (4, kept(Body::Character { device: u32::MAX })),
        (5, kept(Body::Block { device: u32::MAX })),
        (6, kept(Body::File { size: most })),
        (u64::MAX, kept(Body::Directory { parent: u64::MAX, entries: [(b"a".to_vec(), u64::MAX)].into() })),
    ])
    .batch([(5, full_delta().record()), (6, file(most))])
    .live([(5, full_delta().record()), (6, file(most)), (7, delta(Change::Socket { device: u32::MAX }).record())]);
    image.batches[0].bytes = u32::MAX;
    image.batches[0].operations = u32::MAX;
    image.batches[0].id = u64::MAX - 1;
    image.next_id = u64::MAX;
    image.staged_bytes = u32::MAX;
    image.staged_operations = u32::MAX;
    for image in swapped(&image.write()) {
        everything(comparer, &image, 5)?;
    }
    Ok(())
}

fn full_fields() -> Fields {
    let most = Some(u32::MAX);
    let time = Some(Time { seconds: i64::MIN, nanos: 999_999_999 });
    Fields {
        mode: most,
        owner: most,
        group: most,
        links: most,
        atime: time,
        mtime: time,
        ctime: time,
        created: time,
        ..every_field()
    }
}

fn full_delta() -> Delta {
    let (parent, added) = (Some(u64::MAX), BTreeMap::from([(b"a".to_vec(), u64::MAX)]));
    Delta { fields: full_fields(), change: Change::Directory { parent, added, removed: Default::default() } }
}

/// Each number at a limit, wherever it stands, replaced by one past it, and by a longer form.
fn swapped(bytes: &[u8]) -> Vec<Vec<u8>> {
    const MAX_32: &[u8] = &[0xff, 0xff, 0xff, 0xff, 0x0f];
    const MAX_63: &[u8] = &[0xff, 0xff, 0xff, 0xff, 0xff, 0xff, 0xff, 0xff, 0x7f];
    const MAX_64: &[u8] = &[0xff, 0xff, 0xff, 0xff, 0xff, 0xff, 0xff, 0xff, 0xff, 0x01];
    const NANOS: &[u8] = &[0xff, 0x93, 0xeb, 0xdc, 0x03];
    let past: [(&[u8], &[u8]); 8] = [
        (MAX_32, &[0x80, 0x80, 0x80, 0x80, 0x10]),
        (MAX_32, &[0xff, 0xff, 0xff, 0xff, 0x8f, 0x00]),
        (MAX_63, &[0x80, 0x80, 0x80, 0x80, 0x80, 0x80, 0x80, 0x80, 0x80, 0x01]),
        (MAX_63, &[0xff, 0xff, 0xff, 0xff, 0xff, 0xff, 0xff, 0xff, 0xff, 0x00]),
        (MAX_64, &[0x80, 0x80, 0x80, 0x80, 0x80, 0x80, 0x80, 0x80, 0x80, 0x02]),
        (MAX_64, &[0xff, 0xff, 0xff, 0xff, 0xff, 0xff, 0xff, 0xff, 0xff, 0x81, 0x00]),
        (NANOS, &[0x80, 0x94, 0xeb, 0xdc, 0x03]),
        (NANOS, &[0xff, 0x93, 0xeb, 0xdc, 0x83, 0x00]),
    ];
    let mut list = vec![bytes.to_vec()];
    for (limit, other) in past {
        for at in 0..bytes.len() {
            if bytes[at..].starts_with(limit) {
                list.push([&bytes[..at], other, &bytes[at + limit.len()..]].concat());
            }
        }
    }
    assert!(list.len() > 8, "numbers at their limits");
    list
}

fn layer(inode: u64, number: usize) -> Delta {
    let own = format!("own{number:02}");
    let shared = ["a", "b", "c", "d", "e", "f", "g"];
    let added: Vec<(&str, u64)> = [(shared[number % 7], number as u64), (own.as_str(), inode)].into();
    directory_delta(number.is_multiple_of(5).then_some(number as u64), &added, &[shared[(number + 3) % 7]])
}

/// A directory spread over a base, up to sixteen batches and live; removed in one layer and touched in another.
fn spread(comparer: &mut Comparer) -> Held<()> {
    for batches in [0, 1, 2, 15, 16] {
        for tombstone in (0..=batches).map(Some).chain([None]) {
            let mut image = base([(5, directory(1, &[("a", 70), ("c", 71), ("z", 72)]).with(&[("k", "base")]))]);
            for number in 0..batches {
                let record = if tombstone == Some(number) { Record::Tombstone } else { layer(5, number).record() };
                image = image.batch([(5, record), (900, file_delta(Some(number as u64)).record())]);
            }
            let record = if tombstone == Some(batches) { Record::Tombstone } else { layer(5, batches).record() };
            everything(comparer, &image.live([(5, record)]).write(), 5)?;
        }
    }
    Ok(())
}

/// Ids that are equal, fall, or are not below next id; one batch too many.
fn ids(comparer: &mut Comparer) -> Held<()> {
    for (ids, next_id) in [
        (vec![1, 1], 2),
        (vec![2, 1], 3),
        (vec![1], 1),
        (vec![1], 0),
        (vec![0], 0),
        (vec![0], 1),
        (vec![1, 300], 300),
        (vec![1, 300], 301),
        (vec![u64::MAX - 1, u64::MAX], u64::MAX),
        (vec![u64::MAX - 1], u64::MAX),
        ((1..=16).collect(), 17),
        ((1..=17).collect(), 18),
    ] {
        let batch = |id: &u64| Batch {
            id: *id,
            bytes: 1,
            operations: 1,
            reason: 1,
            commit: NOW,
            records: [(5, Record::Tombstone)].into(),
        };
        let image = Image { batches: ids.iter().map(batch).collect(), next_id, ..empty_store() };
        everything(comparer, &image.write(), 5)?;
        everything(comparer, &image.live([(5, file_delta(None).record())]).write(), 5)?;
    }
    Ok(())
}

fn every_node() -> [Node; 7] {
    let unlike = |node: Node| node.with(&[("b", "1"), ("c", "2")]);
    [
        unlike(directory(2, &[("a", 7), ("b", 8)])),
        unlike(node(Body::File { size: 9 })),
        unlike(symlink("below")),
        unlike(node(Body::Pipe)),
        unlike(node(Body::Character { device: 4 })),
        unlike(node(Body::Block { device: 5 })),
        unlike(node(Body::Socket)),
    ]
}

fn every_record() -> Vec<Record> {
    let deltas = [
        directory_delta(Some(3), &[("c", 1), ("a", 9)], &["b"]),
        directory_delta(None, &[("a", 7)], &["a"]),
        file_delta(Some(2)),
        file_delta(None),
        symlink_delta(Some("t")),
        symlink_delta(None),
        delta(Change::Pipe { device: 6 }),
        delta(Change::Character { device: 6 }),
        delta(Change::Block { device: 6 }),
        delta(Change::Socket { device: 6 }),
    ];
    let plain = deltas.iter().cloned().map(Delta::record);
    let set = deltas.iter().cloned().map(|delta| delta.setting(every_field()));
    plain.chain(set).chain([Record::Tombstone]).collect()
}

/// Every sort of record over nothing, over each node and over each other record, in two layers.
fn each_over_each(comparer: &mut Comparer) -> Held<()> {
    for below in every_record() {
        for above in every_record() {
            everything(comparer, &base([]).batch([(5, below.clone())]).live([(5, above.clone())]).write(), 5)?;
        }
        for node in every_node() {
            everything(comparer, &base([(5, node.clone())]).batch([(5, below.clone())]).write(), 5)?;
            everything(comparer, &base([(5, node)]).live([(5, below.clone())]).write(), 5)?;
        }
    }
    Ok(())
}

/// From a full queue to an empty one: reads at every place between freeze, fold and pop, folds made twice.
fn queue_places(comparer: &mut Comparer) -> Held<()> {
    let mut image = base([(5, directory(1, &[("a", 70), ("c", 71)])), (6, node(Body::File { size: 1 }))]).write();
    for number in 0..=MAX_BATCHES {
        for call in [
            Call::Insert { inode: 5, delta: layer(5, number).write() },
            Call::Update { inode: 6, fields: every_field().write() },
            if number % 3 == 2 { Call::Tombstone { inode: 6 } } else { Call::Note { bytes: 10 } },
            freeze(),
        ] {
            let new = comparer.change_in_each_room(&mut Judge::new(&image), &call)?;
            image = new.unwrap_or(image);
            comparer.every_read(&mut Judge::new(&image))?;
        }
    }
    for _ in 0..=MAX_BATCHES {
        for call in [Call::Fold, Call::Fold] {
            let new = comparer.change_in_each_room(&mut Judge::new(&image), &call)?;
            image = new.unwrap_or(image);
            everything(comparer, &image, 5)?;
        }
        let front = Image::read(&image).expect("an image").batches.first().map_or(1, |batch| batch.id);
        for id in [front.wrapping_sub(1), front + 1, front] {
            let new = comparer.change_in_each_room(&mut Judge::new(&image), &Call::Pop { id })?;
            image = new.unwrap_or(image);
        }
        everything(comparer, &image, 6)?;
    }
    Ok(())
}

/// At each count, one below and one above, for each of the three limits; 7 and 10 behind them.
fn freeze_limits(comparer: &mut Comparer) -> Held<()> {
    let batch = |id, bytes, operations| Batch {
        id,
        bytes,
        operations,
        reason: 1,
        commit: NOW,
        records: [(5, Record::Tombstone)].into(),
    };
    let most = u64::MAX;
    for count in [0, 1, 2, 15, 16] {
        for (bytes, operations) in [(0, 0), (100, 3), (u32::MAX, u32::MAX)] {
            let batches = (1..=count).map(|id| batch(id, bytes, operations)).collect();
            let sums = [count, count * u64::from(bytes), count * u64::from(operations)];
            for (live, next_id) in [(true, count + 1), (false, count + 1), (true, most), (true, most - 1)] {
                let records = if live { [(6, Record::Tombstone)].into() } else { BTreeMap::new() };
                let image = Image { batches: Clone::clone(&batches), live: records, next_id, ..empty_store() }.write();
                let mut judge = Judge::new(&image);
                for (which, sum) in sums.into_iter().enumerate() {
                    for limit in [sum.saturating_sub(1), sum, sum + 1, 0, most, 1 << 32, (1 << 32) + sum] {
                        let mut limits = [most; 3];
                        limits[which] = limit;
                        let [depth, bytes, operations] = limits;
                        comparer
                            .change_in_each_room(&mut judge, &Call::Freeze { depth, bytes, operations, now: NOW })?;
                    }
                }
                let now = Time { nanos: 1_000_000_000, ..NOW };
                comparer.change_in_each_room(&mut judge, &Call::Freeze { depth: 0, bytes: 0, operations: 0, now })?;
            }
        }
    }
    for request in 0..=5 {
        let image = Image { request, ..base([]).live([(6, Record::Tombstone)]) };
        everything(comparer, &image.write(), 6)?;
    }
    for reason in (0..=7).chain([most, 1 << 32, (1 << 32) + 1, 256, 257]) {
        comparer.change_in_each_room(&mut Judge::new(&empty_store().write()), &Call::Request { reason })?;
    }
    Ok(())
}

/// Before 1970, at the ends of 64 bits, and nanoseconds at their limit.
fn times(comparer: &mut Comparer) -> Held<()> {
    let seconds = [0, 1, -1, -2, 63, 64, -64, -65, i64::MAX, i64::MIN, i64::MIN + 1, -1_000_000_000_000];
    for seconds in seconds {
        for nanos in [0, 1, 127, 128, 999_999_999, 1_000_000_000, 1_000_000_001, u32::MAX] {
            let now = Time { seconds, nanos };
            let image = base([(5, directory(1, &[]))]).live([(6, Record::Tombstone)]).write();
            let mut judge = Judge::new(&image);
            let name = b"a".to_vec();
            let most = u64::MAX;
            for call in [
                Call::Add { parent: 5, name: name.clone(), child: 1, now },
                Call::Remove { parent: 5, name, now },
                Call::Freeze { depth: most, bytes: most, operations: most, now },
            ] {
                if let Some(new) = comparer.change_in_each_room(&mut judge, &call)? {
                    everything(comparer, &new, 5)?;
                }
            }
            // Also where the layout must refuse it.
            let fields = Fields {
                atime: Some(now),
                mtime: Some(now),
                ctime: Some(now),
                created: Some(now),
                ..Fields::default()
            };
            comparer.change_in_each_room(&mut judge, &Call::Update { inode: 5, fields: fields.write() })?;
            let kept = Node { atime: now, mtime: now, ctime: now, ..directory(1, &[]) };
            everything(comparer, &base([(5, kept)]).live([(5, file_delta(None).setting(fields))]).write(), 5)?;
        }
    }
    Ok(())
}

/// An image of exactly `length` bytes, most of them attributes of inode 9, with a directory 5 in three layers.
pub fn of_length(length: usize) -> Vec<u8> {
    let small = base([(5, directory(1, &[("a", 7)]))])
        .batch([(5, directory_delta(None, &[("b", 8)], &["a"]).record())])
        .live([(5, directory_delta(None, &[("c", 9)], &[]).record())]);
    let with = |values: &[usize], name: usize| {
        let mut image = small.clone();
        let mut node = node(Body::File { size: 3 });
        for (number, value) in values.iter().enumerate() {
            node.attributes.insert(format!("v{number:02}").into_bytes(), vec![b'x'; *value]);
        }
        node.attributes.insert(vec![b'w'; name], vec![]);
        image.base.insert(9, node);
        image.write()
    };
    let least = with(&[], 1).len();
    let each = MAX_VALUE + 6;
    let mut values = vec![MAX_VALUE; length.saturating_sub(least) / each];
    let missing = length - with(&values, 1).len();
    values.push(missing.saturating_sub(8));
    // The last bytes are the name's, which is short enough to have a length of one byte.
    let image = (1..100).map(|name| with(&values, name)).find(|image| image.len() == length);
    image.expect("some name's length fits")
}

/// At 65,536 bytes exactly, around it, and changes that reach it exactly or pass it by one byte.
fn full_images(comparer: &mut Comparer) -> Held<()> {
    for length in [MAX_IMAGE - 1, MAX_IMAGE, MAX_IMAGE + 1] {
        everything(comparer, &of_length(length), 5)?;
        everything(comparer, &of_length(length), 9)?;
    }
    everything(comparer, &vec![0; MAX_IMAGE], 1)?;
    everything(comparer, &vec![0; MAX_IMAGE + 1], 1)?;
    // A tombstone for a new inode adds two bytes; for one with two bytes, three.
    for short in 0..=4 {
        let image = of_length(MAX_IMAGE - short);
        for call in [
            Call::Tombstone { inode: 6 },
            Call::Tombstone { inode: 300 },
            Call::Note { bytes: 200 },
            Call::Request { reason: 1 },
            Call::Add { parent: 5, name: b"d".to_vec(), child: 1, now: Time::default() },
            Call::Insert { inode: 6, delta: vec![2, 0, 0] },
        ] {
            comparer.change_in_each_room(&mut Judge::new(&image), &call)?;
        }
    }
    Ok(())
}

/// Small images that have every construct between them.
pub fn corpus() -> Vec<Vec<u8>> {
    let mut list = vec![empty_store().write(), base([(1, directory(1, &[]))]).write()];
    for node in every_node() {
        list.push(base([(5, node)]).write());
    }
    for record in every_record() {
        list.push(base([]).live([(5, record.clone())]).write());
    }
    let [file, set, ..] = [file_delta(Some(300)).record(), symlink_delta(Some("t")).setting(every_field())];
    list.push(
        base([(1, directory(1, &[("a", 2), ("aa", 300)])), (300, symlink("x"))])
            .batch([(2, file)])
            .batch([(300, set)])
            .write(),
    );
    let mut deep = base([]);
    for inode in 0..MAX_BATCHES as u64 {
        deep = deep.batch([(inode, Record::Tombstone)]);
    }
    list.push(deep.write());
    list
}

fn corpus_damaged(comparer: &mut Comparer) -> Held<()> {
    let mut random = Random::new(0);
    for image in corpus() {
        invalid::damaged(comparer, &mut random, &image)?;
    }
    Ok(())
}
