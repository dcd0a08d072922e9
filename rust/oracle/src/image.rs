//! The store as bytes, by the section "The image" of document 01: a reader, a writer, and the
//! same for the two arguments that are given as bytes (insert's record, update's fields).
//!
//! Written from the document alone. It knows nothing of the Rust under test, nor of the port.

use std::collections::{BTreeMap, BTreeSet};

pub const MAX_IMAGE: usize = 65_536;
pub const MAX_NAME: usize = 255;
pub const MAX_TARGET: usize = 4_095;
pub const MAX_VALUE: usize = 4_096;
pub const MAX_BATCHES: usize = 16;
pub const NANOS: u32 = 1_000_000_000;

#[derive(Debug, Clone, Copy, Default, PartialEq, Eq, PartialOrd, Ord)]
pub struct Time {
    pub seconds: i64,
    pub nanos: u32,
}

/// What a base node of each kind holds besides its attributes, in the order of the kinds.
#[derive(Debug, Clone, PartialEq, Eq)]
pub enum Body {
    Directory { parent: u64, entries: BTreeMap<Vec<u8>, u64> },
    File { size: u64 },
    Symlink { target: Vec<u8> },
    Pipe,
    Character { device: u32 },
    Block { device: u32 },
    Socket,
}

#[derive(Debug, Clone, PartialEq, Eq)]
pub struct Node {
    pub perm: u32,
    pub links: u32,
    pub owner: u32,
    pub group: u32,
    pub atime: Time,
    pub mtime: Time,
    pub ctime: Time,
    pub attributes: BTreeMap<Vec<u8>, Vec<u8>>,
    pub body: Body,
}

/// A mask and its fields.
#[derive(Debug, Clone, Default, PartialEq, Eq)]
pub struct Fields {
    pub mode: Option<u32>,
    pub owner: Option<u32>,
    pub group: Option<u32>,
    pub links: Option<u32>,
    pub atime: Option<Time>,
    pub mtime: Option<Time>,
    pub ctime: Option<Time>,
    pub created: Option<Time>,
    /// `None` under a name is "removed".
    pub attributes: Option<BTreeMap<Vec<u8>, Option<Vec<u8>>>>,
}

/// What a delta of each kind changes besides the fields, in the order of the kinds.
#[derive(Debug, Clone, PartialEq, Eq)]
pub enum Change {
    Directory { parent: Option<u64>, added: BTreeMap<Vec<u8>, u64>, removed: BTreeSet<Vec<u8>> },
    File { size: Option<u64> },
    Symlink { target: Option<Vec<u8>> },
    Pipe { device: u32 },
    Character { device: u32 },
    Block { device: u32 },
    Socket { device: u32 },
}

#[derive(Debug, Clone, PartialEq, Eq)]
pub struct Delta {
    pub fields: Fields,
    pub change: Change,
}

#[derive(Debug, Clone, PartialEq, Eq)]
#[allow(clippy::large_enum_variant)]
pub enum Record {
    Tombstone,
    Delta(Delta),
}

pub type Records = BTreeMap<u64, Record>;

#[derive(Debug, Clone, PartialEq, Eq)]
pub struct Batch {
    pub id: u64,
    pub bytes: u32,
    pub operations: u32,
    /// 1 to 5: Fsync, Fsyncdir, Quiesce, Periodic, Threshold.
    pub reason: u8,
    pub commit: Time,
    pub records: Records,
}

#[derive(Debug, Clone, PartialEq, Eq)]
pub struct Image {
    pub base: BTreeMap<u64, Node>,
    /// Front first.
    pub batches: Vec<Batch>,
    pub live: Records,
    pub next_id: u64,
    pub staged_bytes: u32,
    pub staged_operations: u32,
    /// 0 none, else as a batch's reason.
    pub request: u8,
}

/// The bytes are not by the layout.
#[derive(Debug, Clone, Copy, PartialEq, Eq)]
pub struct Bad;

impl Body {
    pub fn kind(&self) -> u8 {
        match self {
            Body::Directory { .. } => 0,
            Body::File { .. } => 1,
            Body::Symlink { .. } => 2,
            Body::Pipe => 3,
            Body::Character { .. } => 4,
            Body::Block { .. } => 5,
            Body::Socket => 6,
        }
    }
}

impl Change {
    pub fn kind(&self) -> u8 {
        match self {
            Change::Directory { .. } => 0,
            Change::File { .. } => 1,
            Change::Symlink { .. } => 2,
            Change::Pipe { .. } => 3,
            Change::Character { .. } => 4,
            Change::Block { .. } => 5,
            Change::Socket { .. } => 6,
        }
    }
}

// --- reading ---

impl Image {
    /// Reads an image of any length; the limit of 65,536 bytes is refusal 1, not the layout.
    pub fn read(bytes: &[u8]) -> Result<Image, Bad> {
        Image::read_marked(bytes).map(|(image, _)| image)
    }

    /// The image, and where each text starts, in the order of the layout.
    pub fn read_marked(bytes: &[u8]) -> Result<(Image, Vec<usize>), Bad> {
        let mut r = Reader::new(bytes);
        let base = r.rising(Reader::number, Reader::node)?;
        let count = r.number()?;
        if count > MAX_BATCHES as u64 {
            return Err(Bad);
        }
        let mut batches: Vec<Batch> = Vec::new();
        for _ in 0..count {
            let batch = r.batch()?;
            if batches.last().is_some_and(|last| last.id >= batch.id) {
                return Err(Bad);
            }
            batches.push(batch);
        }
        let live = r.records()?;
        let next_id = r.number()?;
        if batches.last().is_some_and(|last| last.id >= next_id) {
            return Err(Bad);
        }
        let image = Image {
            base,
            batches,
            live,
            next_id,
            staged_bytes: r.number32()?,
            staged_operations: r.number32()?,
            request: r.code(0, 5)?,
        };
        r.end()?;
        Ok((image, r.marks))
    }
}

impl Delta {
    /// Insert's argument: a record from its code on, and not a tombstone.
    pub fn read(bytes: &[u8]) -> Result<Delta, Bad> {
        let mut r = Reader::new(bytes);
        let record = r.record()?;
        r.end()?;
        match record {
            Record::Tombstone => Err(Bad),
            Record::Delta(delta) => Ok(delta),
        }
    }
}

impl Fields {
    /// Update's argument: a mask and its fields.
    pub fn read(bytes: &[u8]) -> Result<Fields, Bad> {
        let mut r = Reader::new(bytes);
        let fields = r.fields()?;
        r.end()?;
        Ok(fields)
    }
}

/// One number on its own (P3).
pub fn read_number(bytes: &[u8]) -> Result<u64, Bad> {
    let mut r = Reader::new(bytes);
    let n = r.number()?;
    r.end()?;
    Ok(n)
}

struct Reader<'a> {
    rest: &'a [u8],
    length: usize,
    marks: Vec<usize>,
}

impl<'a> Reader<'a> {
    fn new(bytes: &'a [u8]) -> Self {
        Reader { rest: bytes, length: bytes.len(), marks: Vec::new() }
    }

    fn end(&self) -> Result<(), Bad> {
        if self.rest.is_empty() { Ok(()) } else { Err(Bad) }
    }

    fn byte(&mut self) -> Result<u8, Bad> {
        let (&first, rest) = self.rest.split_first().ok_or(Bad)?;
        self.rest = rest;
        Ok(first)
    }

    fn number(&mut self) -> Result<u64, Bad> {
        let mut n: u128 = 0;
        for place in 0..10 {
            let b = self.byte()?;
            n |= u128::from(b & 0x7f) << (7 * place);
            if b & 0x80 == 0 {
                if b == 0 && place > 0 {
                    return Err(Bad); // not the shortest form
                }
                return u64::try_from(n).map_err(|_| Bad);
            }
        }
        Err(Bad)
    }

    fn number32(&mut self) -> Result<u32, Bad> {
        u32::try_from(self.number()?).map_err(|_| Bad)
    }

    fn size(&mut self) -> Result<u64, Bad> {
        let n = self.number()?;
        if n < 1 << 63 { Ok(n) } else { Err(Bad) }
    }

    fn code(&mut self, least: u8, most: u8) -> Result<u8, Bad> {
        let n = self.number()?;
        if u64::from(least) <= n && n <= u64::from(most) { Ok(n as u8) } else { Err(Bad) }
    }

    fn time(&mut self) -> Result<Time, Bad> {
        let n = self.number()?;
        let half = (n >> 1) as i64;
        let seconds = if n & 1 == 0 { half } else { -half - 1 };
        let nanos = self.number32()?;
        if nanos >= NANOS {
            return Err(Bad);
        }
        Ok(Time { seconds, nanos })
    }

    fn text(&mut self, least: usize, most: usize) -> Result<Vec<u8>, Bad> {
        let n = self.number()?;
        if n < least as u64 || n > most as u64 || n > self.rest.len() as u64 {
            return Err(Bad);
        }
        self.marks.push(self.length - self.rest.len());
        let (text, rest) = self.rest.split_at(n as usize);
        self.rest = rest;
        Ok(text.to_vec())
    }

    fn name(&mut self) -> Result<Vec<u8>, Bad> {
        self.text(1, MAX_NAME)
    }

    fn value(&mut self) -> Result<Vec<u8>, Bad> {
        self.text(0, MAX_VALUE)
    }

    fn option<T>(&mut self, item: fn(&mut Self) -> Result<T, Bad>) -> Result<Option<T>, Bad> {
        match self.code(0, 1)? {
            0 => Ok(None),
            _ => item(self).map(Some),
        }
    }

    fn when<T>(&mut self, present: bool, item: fn(&mut Self) -> Result<T, Bad>) -> Result<Option<T>, Bad> {
        if present { item(self).map(Some) } else { Ok(None) }
    }

    /// A counted list whose keys rise strictly.
    fn rising<K: Ord, V>(
        &mut self,
        key: fn(&mut Self) -> Result<K, Bad>,
        value: fn(&mut Self) -> Result<V, Bad>,
    ) -> Result<BTreeMap<K, V>, Bad> {
        let mut map = BTreeMap::new();
        for _ in 0..self.number()? {
            let k = key(self)?;
            if map.last_key_value().is_some_and(|(last, _)| *last >= k) {
                return Err(Bad);
            }
            let v = value(self)?;
            map.insert(k, v);
        }
        Ok(map)
    }

    fn node(&mut self) -> Result<Node, Bad> {
        let kind = self.code(0, 6)?;
        Ok(Node {
            perm: self.number32()?,
            links: self.number32()?,
            owner: self.number32()?,
            group: self.number32()?,
            atime: self.time()?,
            mtime: self.time()?,
            ctime: self.time()?,
            attributes: self.rising(Self::name, Self::value)?,
            body: match kind {
                0 => Body::Directory { parent: self.number()?, entries: self.rising(Self::name, Self::number)? },
                1 => Body::File { size: self.size()? },
                2 => Body::Symlink { target: self.text(0, MAX_TARGET)? },
                3 => Body::Pipe,
                4 => Body::Character { device: self.number32()? },
                5 => Body::Block { device: self.number32()? },
                _ => Body::Socket,
            },
        })
    }

    fn batch(&mut self) -> Result<Batch, Bad> {
        Ok(Batch {
            id: self.number()?,
            bytes: self.number32()?,
            operations: self.number32()?,
            reason: self.code(1, 5)?,
            commit: self.time()?,
            records: self.records()?,
        })
    }

    fn records(&mut self) -> Result<Records, Bad> {
        self.rising(Self::number, Self::record)
    }

    fn record(&mut self) -> Result<Record, Bad> {
        let code = self.code(0, 7)?;
        if code == 0 {
            return Ok(Record::Tombstone);
        }
        Ok(Record::Delta(Delta {
            fields: self.fields()?,
            change: match code - 1 {
                0 => Change::Directory {
                    parent: self.option(Self::number)?,
                    added: self.rising(Self::name, Self::number)?,
                    removed: self.rising(Self::name, |_| Ok(()))?.into_keys().collect(),
                },
                1 => Change::File { size: self.option(Self::size)? },
                2 => Change::Symlink { target: self.option(|r| r.text(0, MAX_TARGET))? },
                3 => Change::Pipe { device: self.number32()? },
                4 => Change::Character { device: self.number32()? },
                5 => Change::Block { device: self.number32()? },
                _ => Change::Socket { device: self.number32()? },
            },
        }))
    }

    fn fields(&mut self) -> Result<Fields, Bad> {
        let mask = self.number()?;
        if mask >> 9 != 0 {
            return Err(Bad);
        }
        let bit = |n: u32| mask >> n & 1 == 1;
        Ok(Fields {
            mode: self.when(bit(0), Self::number32)?,
            owner: self.when(bit(1), Self::number32)?,
            group: self.when(bit(2), Self::number32)?,
            links: self.when(bit(3), Self::number32)?,
            atime: self.when(bit(4), Self::time)?,
            mtime: self.when(bit(5), Self::time)?,
            ctime: self.when(bit(6), Self::time)?,
            created: self.when(bit(7), Self::time)?,
            attributes: self.when(bit(8), |r| r.rising(Self::name, |r| r.option(Self::value)))?,
        })
    }
}

// --- writing ---

impl Image {
    pub fn write(&self) -> Vec<u8> {
        let mut w = Writer::default();
        w.number(self.base.len() as u64);
        for (&inode, node) in &self.base {
            w.number(inode);
            w.node(node);
        }
        w.number(self.batches.len() as u64);
        for batch in &self.batches {
            w.number(batch.id);
            w.number(batch.bytes.into());
            w.number(batch.operations.into());
            w.number(batch.reason.into());
            w.time(batch.commit);
            w.records(&batch.records);
        }
        w.records(&self.live);
        w.number(self.next_id);
        w.number(self.staged_bytes.into());
        w.number(self.staged_operations.into());
        w.number(self.request.into());
        w.0
    }
}

impl Delta {
    pub fn write(&self) -> Vec<u8> {
        let mut w = Writer::default();
        w.delta(self);
        w.0
    }
}

impl Fields {
    pub fn write(&self) -> Vec<u8> {
        let mut w = Writer::default();
        w.fields(self);
        w.0
    }
}

#[derive(Default)]
struct Writer(Vec<u8>);

impl Writer {
    fn number(&mut self, mut n: u64) {
        while n >= 0x80 {
            self.0.push(n as u8 | 0x80);
            n >>= 7;
        }
        self.0.push(n as u8);
    }

    fn time(&mut self, t: Time) {
        let doubled = i128::from(t.seconds) * 2;
        self.number(if t.seconds < 0 { -doubled - 1 } else { doubled } as u64);
        self.number(t.nanos.into());
    }

    fn text(&mut self, text: &[u8]) {
        self.number(text.len() as u64);
        self.0.extend_from_slice(text);
    }

    fn entries(&mut self, entries: &BTreeMap<Vec<u8>, u64>) {
        self.number(entries.len() as u64);
        for (name, &inode) in entries {
            self.text(name);
            self.number(inode);
        }
    }

    fn option<T>(&mut self, item: &Option<T>, write: impl Fn(&mut Self, &T)) {
        match item {
            None => self.number(0),
            Some(item) => {
                self.number(1);
                write(self, item);
            }
        }
    }

    fn node(&mut self, node: &Node) {
        self.number(node.body.kind().into());
        for n in [node.perm, node.links, node.owner, node.group] {
            self.number(n.into());
        }
        for t in [node.atime, node.mtime, node.ctime] {
            self.time(t);
        }
        self.number(node.attributes.len() as u64);
        for (name, value) in &node.attributes {
            self.text(name);
            self.text(value);
        }
        match &node.body {
            Body::Directory { parent, entries } => {
                self.number(*parent);
                self.entries(entries);
            }
            Body::File { size } => self.number(*size),
            Body::Symlink { target } => self.text(target),
            Body::Character { device } | Body::Block { device } => self.number((*device).into()),
            Body::Pipe | Body::Socket => {}
        }
    }

    fn records(&mut self, records: &Records) {
        self.number(records.len() as u64);
        for (&inode, record) in records {
            self.number(inode);
            match record {
                Record::Tombstone => self.number(0),
                Record::Delta(delta) => self.delta(delta),
            }
        }
    }

    fn delta(&mut self, delta: &Delta) {
        self.number(u64::from(delta.change.kind()) + 1);
        self.fields(&delta.fields);
        match &delta.change {
            Change::Directory { parent, added, removed } => {
                self.option(parent, |w, &p| w.number(p));
                self.entries(added);
                self.number(removed.len() as u64);
                for name in removed {
                    self.text(name);
                }
            }
            Change::File { size } => self.option(size, |w, &s| w.number(s)),
            Change::Symlink { target } => self.option(target, |w, t| w.text(t)),
            Change::Pipe { device }
            | Change::Character { device }
            | Change::Block { device }
            | Change::Socket { device } => self.number((*device).into()),
        }
    }

    fn fields(&mut self, f: &Fields) {
        let numbers = [f.mode, f.owner, f.group, f.links];
        let times = [f.atime, f.mtime, f.ctime, f.created];
        let mut mask = 0;
        for (bit, n) in numbers.iter().enumerate() {
            mask |= u64::from(n.is_some()) << bit;
        }
        for (bit, t) in times.iter().enumerate() {
            mask |= u64::from(t.is_some()) << (4 + bit);
        }
        mask |= u64::from(f.attributes.is_some()) << 8;
        self.number(mask);
        for n in numbers.into_iter().flatten() {
            self.number(n.into());
        }
        for t in times.into_iter().flatten() {
            self.time(t);
        }
        if let Some(attributes) = &f.attributes {
            self.number(attributes.len() as u64);
            for (name, value) in attributes {
                self.text(name);
                self.option(value, |w, v| w.text(v));
            }
        }
    }
}
