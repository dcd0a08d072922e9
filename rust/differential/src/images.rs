//! Random images, and the arguments of calls on them: few inodes and names, so that layers meet often.

use crate::random::Random;
use oracle::calls::Call;
use oracle::image::{Batch, Body, Change, Delta, Fields, Image, Node, Record, Records, Time};
use std::collections::{BTreeMap, BTreeSet};

/// How much of each thing an image has, at most.
#[derive(Debug, Clone, Copy)]
pub struct Style {
    pub inodes: u64,
    pub names: u64,
    pub nodes: u64,
    pub batches: u64,
    pub records: u64,
    pub entries: u64,
    pub attributes: u64,
    pub text: u64,
    /// Names, targets and values at their greatest lengths among them.
    pub long: bool,
}

const TINY: Style =
    Style { inodes: 3, names: 3, nodes: 2, batches: 2, records: 2, entries: 2, attributes: 2, text: 3, long: false };
const SMALL: Style =
    Style { inodes: 5, names: 5, nodes: 4, batches: 3, records: 4, entries: 4, attributes: 3, text: 8, long: false };
const DEEP: Style =
    Style { inodes: 2, names: 6, nodes: 2, batches: 16, records: 2, entries: 4, attributes: 3, text: 4, long: false };
const WIDE: Style = Style {
    inodes: 3,
    names: 60,
    nodes: 3,
    batches: 4,
    records: 3,
    entries: 50,
    attributes: 20,
    text: 20,
    long: false,
};
const MANY: Style = Style {
    inodes: 200,
    names: 8,
    nodes: 100,
    batches: 8,
    records: 40,
    entries: 4,
    attributes: 2,
    text: 8,
    long: false,
};
const LONG: Style =
    Style { inodes: 4, names: 12, nodes: 3, batches: 3, records: 3, entries: 6, attributes: 3, text: 300, long: true };
const LARGE: Style = Style {
    inodes: 6,
    names: 300,
    nodes: 6,
    batches: 16,
    records: 3,
    entries: 250,
    attributes: 60,
    text: 60,
    long: true,
};

impl Style {
    pub fn any(random: &mut Random) -> Style {
        match random.below(64) {
            0..=23 => TINY,
            24..=43 => SMALL,
            44..=52 => DEEP,
            53..=56 => WIDE,
            57..=59 => MANY,
            60..=62 => LONG,
            _ => LARGE,
        }
    }

    /// For images that are changed byte by byte.
    pub fn short(random: &mut Random) -> Style {
        random.pick(&[TINY, TINY, SMALL])
    }
}

const INODES: [u64; 8] = [1, 2, 3, 4, 300, 0, u64::MAX, 127];
/// By bytes: a name before its longer one, a control, letters of two, three and four bytes.
const NAMES: [&str; 8] = ["a", "b", "aa", "\u{e9}", "a\0", "\u{0}", "\u{ffff}", "\u{10000}"];
const LONGEST: [usize; 6] = [127, 128, 253, 254, 255, 200];

/// Makes the parts of images in one style.
pub struct Maker<'a> {
    pub random: &'a mut Random,
    pub style: Style,
}

impl Maker<'_> {
    pub fn inode(&mut self) -> u64 {
        let n = self.random.below(self.style.inodes);
        INODES.get(n as usize).copied().unwrap_or(n * 3)
    }

    pub fn name(&mut self) -> Vec<u8> {
        let n = self.random.below(self.style.names) as usize;
        if self.style.long && self.random.chance(12) {
            return [vec![b'a' + (n % 3) as u8], vec![b'n'; LONGEST[n % LONGEST.len()] - 1]].concat();
        }
        NAMES.get(n).map_or_else(|| format!("n{n:03}").into_bytes(), |name| name.as_bytes().to_vec())
    }

    /// A name as an argument: now and then empty, too long, or one that no image here has.
    pub fn given_name(&mut self) -> Vec<u8> {
        match self.random.below(40) {
            0 => Vec::new(),
            1 => vec![b'n'; 256],
            2 => vec![b'n'; 255],
            3 => b"absent".to_vec(),
            4 => vec![b'n'; 300 + self.random.below(200) as usize],
            _ => self.name(),
        }
    }

    fn text(&mut self, most: usize) -> Vec<u8> {
        if self.style.long && self.random.chance(20) {
            let length = self.random.pick(&[most, most - 1, 128, 127]);
            return vec![b'x'; length];
        }
        let letters = self.random.below(self.style.text + 1);
        (0..letters).map(|_| self.random.pick(&["x", "y", "/", "\u{e9}"])).collect::<String>().into_bytes()
    }

    fn few<T>(&mut self, most: u64, mut item: impl FnMut(&mut Self) -> T) -> Vec<T> {
        let count = self.random.below(most + 1);
        (0..count).map(|_| item(self)).collect()
    }

    fn entries(&mut self) -> BTreeMap<Vec<u8>, u64> {
        self.few(self.style.entries, |m| (m.name(), m.inode())).into_iter().collect()
    }

    /// Each field with a chance of one in `of`.
    pub fn fields(&mut self, of: u64) -> Fields {
        let random = &mut *self.random;
        let mut fields = Fields {
            mode: random.option(of, Random::mode),
            owner: random.option(of, Random::number32),
            group: random.option(of, Random::number32),
            links: random.option(of, Random::number32),
            atime: random.option(of, Random::time),
            mtime: random.option(of, Random::time),
            ctime: random.option(of, Random::time),
            created: random.option(of, Random::time),
            attributes: None,
        };
        if self.random.chance(of.div_ceil(2)) {
            let change = |m: &mut Self| {
                let name = m.name();
                (name, if m.random.chance(3) { None } else { Some(m.text(4096)) })
            };
            fields.attributes = Some(self.few(self.style.attributes, change).into_iter().collect());
        }
        fields
    }

    fn any_fields(&mut self) -> Fields {
        let of = self.random.pick(&[1, 3, 8, 8, 16]);
        self.fields(of)
    }

    fn change(&mut self) -> Change {
        let device = self.random.number32();
        match self.random.below(16) {
            0..=2 => Change::File { size: self.random.option(2, |r| r.number(63)) },
            3..=5 => Change::Symlink { target: if self.random.chance(2) { Some(self.text(4095)) } else { None } },
            6 => Change::Pipe { device },
            7 => Change::Character { device },
            8 => Change::Block { device },
            9 => Change::Socket { device },
            _ => self.directory(),
        }
    }

    fn directory(&mut self) -> Change {
        let parent = if self.random.chance(2) { Some(self.inode()) } else { None };
        let added = self.entries();
        let removed: BTreeSet<_> = self.few(self.style.entries, Self::name).into_iter().collect();
        Change::Directory { parent, added, removed }
    }

    pub fn delta(&mut self) -> Delta {
        Delta { fields: self.any_fields(), change: self.change() }
    }

    pub fn node(&mut self) -> Node {
        let body = match self.random.below(16) {
            0..=2 => Body::File { size: self.random.number(63) },
            3..=5 => Body::Symlink { target: self.text(4095) },
            6 => Body::Pipe,
            7 => Body::Character { device: self.random.number32() },
            8 => Body::Block { device: self.random.number32() },
            9 => Body::Socket,
            _ => Body::Directory { parent: self.inode(), entries: self.entries() },
        };
        let attributes = self.few(self.style.attributes, |m| (m.name(), m.text(4096))).into_iter().collect();
        let random = &mut *self.random;
        Node {
            perm: random.mode(),
            links: random.number32(),
            owner: random.number32(),
            group: random.number32(),
            atime: random.time(),
            mtime: random.time(),
            ctime: random.time(),
            attributes,
            body,
        }
    }

    fn records(&mut self) -> Records {
        let record = |m: &mut Self| match m.random.below(6) {
            0 => Record::Tombstone,
            1 | 2 => Record::Delta(Delta { fields: m.fields(8), change: m.directory() }),
            _ => Record::Delta(m.delta()),
        };
        self.few(self.style.records, |m| (m.inode(), record(m))).into_iter().collect()
    }

    /// Layers that no list of calls need have made.
    pub fn disorderly(&mut self) -> Image {
        let base = self.few(self.style.nodes, |m| (m.inode(), m.node())).into_iter().collect();
        let mut next_id = self.random.below(3);
        let mut batches = Vec::new();
        let deep = self.style.batches == 16 && self.random.chance(2);
        for _ in 0..if deep { 16 } else { self.random.below(self.style.batches + 1) } {
            let records = self.records();
            let random = &mut *self.random;
            batches.push(Batch {
                id: next_id,
                bytes: random.number32(),
                operations: random.number32(),
                reason: 1 + random.below(5) as u8,
                commit: random.time(),
                records,
            });
            next_id += 1 + self.random.below(3) * self.random.below(100);
        }
        let live = self.records();
        let random = &mut *self.random;
        Image {
            base,
            batches,
            live,
            next_id: if random.chance(16) { u64::MAX - random.below(2) } else { next_id },
            staged_bytes: random.number32(),
            staged_operations: random.number32(),
            request: random.below(6) as u8,
        }
    }

    /// Any image within the length that a call takes.
    pub fn image(&mut self) -> Vec<u8> {
        loop {
            let bytes = self.disorderly().write();
            if bytes.len() <= oracle::image::MAX_IMAGE {
                return bytes;
            }
            self.style = Style { entries: self.style.entries / 2, attributes: self.style.attributes / 2, ..self.style };
        }
    }

    // --- calls with any arguments, the refused ones among them ---

    pub fn read(&mut self, sort: u64) -> Call {
        let inode = self.inode();
        let rows = |m: &mut Self| if m.random.chance(4) { m.random.below(8) as usize } else { 400 };
        match sort % 9 {
            0 => Call::Exists { inode },
            1 => Call::Type { inode },
            2 => Call::Child { inode, name: self.given_name() },
            3 => Call::Attr { inode },
            4 => Call::List { inode, rows: rows(self) },
            5 => Call::Link { inode },
            6 => Call::Parent { inode },
            7 => Call::Xattr { inode, name: self.given_name() },
            _ => Call::Names { inode, rows: rows(self) },
        }
    }

    pub fn change_call(&mut self, sort: u64) -> Call {
        let inode = self.inode();
        let now = self.random.given_time();
        match sort % 13 {
            0 => Call::Insert { inode, delta: self.given_delta() },
            1 => Call::Tombstone { inode },
            2 => Call::Add { parent: inode, name: self.given_name(), child: self.inode(), now },
            3 => Call::Remove { parent: inode, name: self.given_name(), now },
            4 => Call::SetParent { inode, parent: self.inode() },
            5 => Call::Update { inode, fields: self.given_fields() },
            6 => Call::Normalise { position: self.random.below(self.style.batches + 2) },
            7 => self.freeze(now),
            8 => Call::Fold,
            9 => Call::Pop { id: self.random.below(4) },
            10 => Call::Snapshot,
            11 if self.random.chance(8) => Call::Note { bytes: self.random.number(64) },
            11 => Call::Note { bytes: self.random.number(20) },
            _ if self.random.chance(8) => Call::Request { reason: self.random.number(64) },
            _ => Call::Request { reason: self.random.below(7) },
        }
    }

    fn freeze(&mut self, now: Time) -> Call {
        let mut limit = || if self.random.chance(4) { self.random.number(33) } else { u64::MAX };
        Call::Freeze { depth: limit(), bytes: limit(), operations: limit(), now }
    }

    /// A delta, now and then with a byte changed, too many or too few, or a tombstone.
    fn given_delta(&mut self) -> Vec<u8> {
        let mut delta = self.delta().write();
        self.damage(&mut delta);
        if self.random.chance(30) { vec![0] } else { delta }
    }

    fn given_fields(&mut self) -> Vec<u8> {
        let mut fields = self.any_fields().write();
        self.damage(&mut fields);
        fields
    }

    fn damage(&mut self, bytes: &mut Vec<u8>) {
        let place = self.random.below(bytes.len() as u64) as usize;
        match self.random.below(30) {
            0 => bytes.push(0),
            1 => bytes.truncate(place),
            2 => bytes[place] = self.random.bits() as u8,
            _ => {}
        }
    }
}
