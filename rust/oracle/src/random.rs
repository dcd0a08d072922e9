//! Images and reads from a seed: few inodes and names, so that layers meet often.

use crate::builders::{changed, directory, empty_store, fold_and_pop, freeze, node};
use crate::calls::{Answer, Call, run};
use crate::image::{Batch, Body, Change, Delta, Fields, Image, Node, Record, Records, Time};
use std::collections::BTreeMap;

const NAMES: [&str; 5] = ["a", "b", "aa", "\u{e9}", "z"];
const TEXTS: [&str; 4] = ["", "t", "\u{e9}/u", "xyz"];
const DIRECTORY: u8 = 0;
const SYMLINK: u8 = 2;

/// xorshift64*.
pub struct Random(u64);

impl Random {
    pub fn new(seed: u64) -> Random {
        Random(seed.wrapping_mul(0x9e37_79b9_7f4a_7c15) | 1)
    }

    fn below(&mut self, n: u64) -> u64 {
        self.0 ^= self.0 >> 12;
        self.0 ^= self.0 << 25;
        self.0 ^= self.0 >> 27;
        (self.0.wrapping_mul(0x2545_f491_4f6c_dd1d) >> 16) % n
    }

    fn chance(&mut self, of: u64) -> bool {
        self.below(of) == 0
    }

    fn pick<T: Copy>(&mut self, items: &[T]) -> T {
        items[self.below(items.len() as u64) as usize]
    }

    fn option<T>(&mut self, of: u64, item: fn(&mut Self) -> T) -> Option<T> {
        self.chance(of).then(|| item(self))
    }

    fn few<T>(&mut self, most: u64, item: impl Fn(&mut Self) -> T) -> Vec<T> {
        (0..self.below(most + 1)).map(|_| item(self)).collect()
    }

    fn inode(&mut self) -> u64 {
        self.pick(&[1, 2, 2, 3, 3, 4])
    }

    fn name(&mut self) -> Vec<u8> {
        self.pick(&NAMES).as_bytes().to_vec()
    }

    fn text(&mut self) -> Vec<u8> {
        self.pick(&TEXTS).as_bytes().to_vec()
    }

    fn number(&mut self) -> u32 {
        self.pick(&[0, 1, 2, 3, 127, 128, 1000, u32::MAX])
    }

    fn mode(&mut self) -> u32 {
        self.pick(&[0o644, 0o755, 0o600, 0o7777, 0o100644, u32::MAX, 0])
    }

    fn size(&mut self) -> u64 {
        self.pick(&[0, 1, 127, 128, 1 << 32, (1 << 63) - 1])
    }

    fn time(&mut self) -> Time {
        let seconds = self.pick(&[0, 0, 1, -1, 63, 64, -64, -65, 1_700_000_000]);
        Time { seconds, nanos: self.pick(&[0, 0, 0, 1, 127, 999_999_999]) }
    }

    fn entries(&mut self) -> BTreeMap<Vec<u8>, u64> {
        self.few(2, |r| (r.name(), r.inode())).into_iter().collect()
    }

    fn fields(&mut self) -> Fields {
        Fields {
            mode: self.option(6, Self::mode),
            owner: self.option(8, Self::number),
            group: self.option(8, Self::number),
            links: self.option(6, Self::number),
            atime: self.option(8, Self::time),
            mtime: self.option(8, Self::time),
            ctime: self.option(8, Self::time),
            created: self.option(8, Self::time),
            attributes: self.option(3, |r| r.few(2, |r| (r.name(), r.option(2, Self::text))).into_iter().collect()),
        }
    }

    fn change(&mut self) -> Change {
        let device = self.number();
        match self.below(14) {
            0..=2 => Change::File { size: self.option(2, Self::size) },
            3..=5 => Change::Symlink { target: self.option(2, Self::text) },
            6 => Change::Pipe { device },
            7 => Change::Character { device },
            8 => Change::Block { device },
            9 => Change::Socket { device },
            _ => Change::Directory {
                parent: self.option(2, Self::inode),
                added: self.entries(),
                removed: self.few(2, Self::name).into_iter().collect(),
            },
        }
    }

    fn node(&mut self) -> Node {
        let body = match self.below(14) {
            0..=2 => Body::File { size: self.size() },
            3..=5 => Body::Symlink { target: self.text() },
            6 => Body::Pipe,
            7 => Body::Character { device: self.number() },
            8 => Body::Block { device: self.number() },
            9 => Body::Socket,
            _ => Body::Directory { parent: self.inode(), entries: self.entries() },
        };
        Node {
            perm: self.mode(),
            links: self.number(),
            owner: self.number(),
            group: self.number(),
            atime: self.time(),
            mtime: self.time(),
            ctime: self.time(),
            attributes: self.few(2, |r| (r.name(), r.text())).into_iter().collect(),
            body,
        }
    }

    fn records(&mut self) -> Records {
        let record = |r: &mut Self| match r.below(5) {
            0 => Record::Tombstone,
            _ => Record::Delta(Delta { fields: r.fields(), change: r.change() }),
        };
        self.few(3, |r| (r.inode(), record(r))).into_iter().collect()
    }

    /// Layers that no list of calls need have made.
    pub fn disorderly(&mut self) -> Vec<u8> {
        let mut image = empty_store();
        image.base = self.few(2, |r| (r.inode(), r.node())).into_iter().collect();
        for _ in 0..self.below(3) {
            let (bytes, operations, reason) = (self.number(), self.number(), self.pick(&[1, 2, 3, 4, 5]));
            let (commit, records) = (self.time(), self.records());
            image.batches.push(Batch { id: image.next_id, bytes, operations, reason, commit, records });
            image.next_id += 1 + self.below(2);
        }
        image.live = self.records();
        image.write()
    }

    /// A small tree in the base, and calls within document 01's conditions.
    pub fn orderly(&mut self) -> Vec<u8> {
        let mut image = empty_store();
        image.base.insert(1, directory(1, &[("a", 2), ("b", 3)]));
        image.base.insert(2, directory(1, &[("z", 3)]));
        image.base.insert(3, if self.chance(2) { self.node() } else { node(Body::File { size: 5 }) });
        let mut image = image.write();
        let mut fresh = 4;
        for _ in 0..3 + self.below(6) {
            image = self.step(image, &mut fresh);
        }
        image
    }

    fn step(&mut self, image: Vec<u8>, fresh: &mut u64) -> Vec<u8> {
        let inode = 1 + self.below(*fresh - 1);
        let kind = match run(&image, &Call::Type { inode }, 0) {
            Answer::Type(kind) => Some(kind),
            _ => None,
        };
        let call = match self.below(10) {
            0 | 1 if kind == Some(DIRECTORY) => {
                *fresh += 1;
                let image = changed(&image, Call::Insert { inode: *fresh - 1, delta: self.complete(inode).write() });
                return changed(
                    &image,
                    Call::Add { parent: inode, name: self.name(), child: *fresh - 1, now: self.time() },
                );
            }
            2 if kind == Some(DIRECTORY) => {
                Call::Add { parent: inode, name: self.name(), child: 1 + self.below(*fresh - 1), now: self.time() }
            }
            3 | 4 if kind == Some(DIRECTORY) => Call::Remove { parent: inode, name: self.name(), now: self.time() },
            5 if kind == Some(DIRECTORY) => Call::SetParent { inode, parent: 1 + self.below(*fresh - 1) },
            6 if inode != 1 => Call::Tombstone { inode },
            7 if !Image::read(&image).unwrap().live.is_empty() => freeze(),
            8 if !Image::read(&image).unwrap().batches.is_empty() => return fold_and_pop(&image),
            _ => {
                let mut fields = self.fields();
                fields.mode = fields.mode.filter(|_| kind != Some(SYMLINK));
                Call::Update { inode, fields: fields.write() }
            }
        };
        changed(&image, call)
    }

    /// A delta that may stand on nothing.
    fn complete(&mut self, parent: u64) -> Delta {
        let mut delta = Delta { fields: self.fields(), change: self.change() };
        match &mut delta.change {
            Change::Directory { parent: above, removed, .. } => {
                *above = Some(parent);
                removed.clear();
            }
            Change::Symlink { target } => {
                *target = Some(self.text());
                delta.fields.mode = None;
            }
            _ => {}
        }
        delta
    }

    /// Reads of one sort, of inodes that an image from here may show.
    pub fn reads(&mut self, count: usize) -> Vec<Call> {
        let sort = self.below(9);
        (0..count).map(|_| self.read(sort)).collect()
    }

    fn read(&mut self, sort: u64) -> Call {
        let inode = 1 + self.below(5);
        match sort {
            0 => Call::Exists { inode },
            1 => Call::Type { inode },
            2 => Call::Child { inode, name: self.name() },
            3 => Call::Attr { inode },
            4 => Call::List { inode, rows: self.pick(&[0, 1, 2, 8, 8, 8, 8]) },
            5 => Call::Link { inode },
            6 => Call::Parent { inode },
            7 => Call::Xattr { inode, name: self.name() },
            _ => Call::Names { inode, rows: self.pick(&[0, 1, 8, 8, 8, 8]) },
        }
    }

    /// A change with any arguments, the refused ones among them.
    pub fn change_call(&mut self) -> Call {
        let inode = 1 + self.below(5);
        let now = self.any_time();
        match self.below(9) {
            0 => Call::Insert { inode, delta: self.any_delta() },
            1 => Call::Tombstone { inode },
            2 => Call::Add { parent: inode, name: self.any_name(), child: self.inode(), now },
            3 => Call::Remove { parent: inode, name: self.any_name(), now },
            4 => Call::SetParent { inode, parent: self.inode() },
            5 => {
                let limit = |r: &mut Self| r.pick(&[u64::MAX, u64::MAX, u64::MAX, 1, 2, 1000]);
                Call::Freeze { depth: limit(self), bytes: limit(self), operations: limit(self), now }
            }
            6 => Call::Pop { id: 1 + self.below(3) },
            7 => Call::Note { bytes: self.pick(&[0, 1, 127, 1000, u64::from(u32::MAX), u64::MAX]) },
            _ => Call::Request { reason: self.below(7) },
        }
    }

    /// An update with any arguments, normalising, a fold or a snapshot.
    pub fn layer_call(&mut self) -> Call {
        match self.below(4) {
            0 => Call::Update { inode: 1 + self.below(5), fields: self.fields().write() },
            1 => Call::Normalise { position: self.below(4) },
            2 => Call::Fold,
            _ => Call::Snapshot,
        }
    }

    fn any_name(&mut self) -> Vec<u8> {
        if self.chance(12) { Vec::new() } else { self.name() }
    }

    fn any_time(&mut self) -> Time {
        let time = self.time();
        if self.chance(12) { Time { nanos: 1_000_000_000, ..time } } else { time }
    }

    /// A delta, now and then with a byte too many or too few, or a tombstone.
    fn any_delta(&mut self) -> Vec<u8> {
        let mut delta = Delta { fields: self.fields(), change: self.change() }.write();
        match self.below(12) {
            0 => delta.push(0),
            1 => drop(delta.pop()),
            2 => delta = vec![0],
            _ => {}
        }
        delta
    }
}
