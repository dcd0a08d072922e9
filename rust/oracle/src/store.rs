//! The Rust under test behind an image: an image becomes a real `FsInner`, the real functions
//! run on it, and what is left becomes an image again.
//!
//! Nothing here decides anything about layers. Where a method has more than one line, the rest
//! is carrying arguments in and results out. Refusals are not here; see calls.rs.

use crate::image::{Batch, Body, Change, Delta, Fields, Image, Node, Record, Records, Time};
use appendfs::extent_map::ExtentMap;
use appendfs::fs::{BatchCompletion, FlushBatch, FlushReason, FsInner, LockManager, ShutdownState, WriteArena};
use appendfs::node as real;
use appendfs::shim::{FileAttr, FileType};
use std::collections::{BTreeMap, HashMap, VecDeque};
use std::sync::Arc;
use std::time::{Duration, SystemTime, UNIX_EPOCH};

/// A name or target that is not UTF-8: outside the domain, for the Rust holds them as `String`.
#[derive(Debug, Clone, Copy, PartialEq, Eq)]
pub struct NotUtf8;

/// The attributes a read shows. (`FileAttr` without its inode, in the image's terms.)
#[derive(Debug, Clone, Copy, PartialEq, Eq)]
pub struct Attr {
    pub kind: u8,
    pub perm: u32,
    pub links: u32,
    pub owner: u32,
    pub group: u32,
    pub device: u32,
    pub size: i64,
    pub atime: Time,
    pub mtime: Time,
    pub ctime: Time,
}

pub struct Store {
    inner: FsInner,
}

impl Store {
    // --- in and out ---

    pub fn from_image(image: &Image) -> Result<Store, NotUtf8> {
        let mut inner = empty();
        for (&inode, node) in &image.base {
            inner.base.insert(inode, Arc::new(node_in(node)?));
        }
        for batch in &image.batches {
            inner.flushing_bytes += batch.bytes as usize;
            inner.flushing_ops += batch.operations as usize;
            inner.flushing.push_back(Arc::new(FlushBatch {
                id: batch.id,
                entries: records_in(&batch.records)?,
                arena: WriteArena::new(),
                bytes: batch.bytes as usize,
                ops: batch.operations as usize,
                completion: BatchCompletion::new(),
                reason: FlushReason::ALL[batch.reason as usize - 1],
                frozen_at: Duration::ZERO,
                commit_timestamp: time_in(batch.commit),
            }));
        }
        inner.live = records_in(&image.live)?;
        // "`None` exactly when `live` is empty", which freeze_live asserts.
        inner.live_staged_at = (!inner.live.is_empty()).then_some(Duration::ZERO);
        inner.next_batch_id = image.next_id;
        inner.staged_bytes = image.staged_bytes as usize;
        inner.staged_ops = image.staged_operations as usize;
        inner.freeze_requested = reason_in(image.request);
        Ok(Store { inner })
    }

    pub fn to_image(&self) -> Image {
        let inner = &self.inner;
        let batches: Vec<Batch> = inner
            .flushing
            .iter()
            .map(|b| Batch {
                id: b.id,
                bytes: b.bytes.try_into().unwrap(),
                operations: b.ops.try_into().unwrap(),
                reason: b.reason.index() as u8 + 1,
                commit: time_out(b.commit_timestamp),
                records: records_out(&b.entries),
            })
            .collect();
        // The Rust keeps these sums beside the queue; an image has no place for them.
        assert_eq!(inner.flushing_bytes, batches.iter().map(|b| b.bytes as usize).sum());
        assert_eq!(inner.flushing_ops, batches.iter().map(|b| b.operations as usize).sum());
        Image {
            base: base_out(&inner.base),
            batches,
            live: records_out(&inner.live),
            next_id: inner.next_batch_id,
            staged_bytes: inner.staged_bytes.try_into().unwrap(),
            staged_operations: inner.staged_ops.try_into().unwrap(),
            request: inner.freeze_requested.map_or(0, |r| r.index() as u8 + 1),
        }
    }

    // --- reads ---

    pub fn exists(&self, inode: u64) -> bool {
        self.inner.with_inode_layers(inode, |layers| layers.exists())
    }

    pub fn file_type(&self, inode: u64) -> Option<u8> {
        self.inner.with_inode_layers(inode, |layers| layers.file_type()).map(kind_out)
    }

    pub fn attr(&self, inode: u64) -> Option<Attr> {
        self.inner.get_attr(inode).map(attr_out)
    }

    pub fn lookup_child(&self, inode: u64, name: &str) -> Option<u64> {
        self.inner.lookup_child(inode, name)
    }

    pub fn list_directory(&self, inode: u64) -> Option<Vec<(Vec<u8>, u64)>> {
        let list = self.inner.list_directory(inode)?;
        Some(list.into_iter().map(|(name, child)| (name.into_bytes(), child)).collect())
    }

    pub fn read_link(&self, inode: u64) -> Option<Vec<u8>> {
        self.inner.read_link(inode).map(String::into_bytes)
    }

    pub fn parent(&self, inode: u64) -> Option<u64> {
        self.inner.get_parent_dir_inode(inode)
    }

    pub fn get_xattr(&self, inode: u64, name: &str) -> Option<Vec<u8>> {
        self.inner.get_xattr(inode, name)
    }

    pub fn list_xattrs(&self, inode: u64) -> Option<Vec<Vec<u8>>> {
        let names = self.inner.list_xattrs(inode)?;
        Some(names.into_iter().map(String::into_bytes).collect())
    }

    // --- changes ---

    pub fn insert(&mut self, inode: u64, delta: &Delta) -> Result<(), NotUtf8> {
        self.inner.insert_new_node(inode, delta_in(delta)?);
        Ok(())
    }

    pub fn tombstone(&mut self, inode: u64) {
        self.inner.tombstone(inode);
    }

    pub fn add_entry(&mut self, parent: u64, name: &str, child: u64, now: Time) {
        self.inner.add_dir_entry(parent, name, child, time_in(now));
    }

    pub fn remove_entry(&mut self, parent: u64, name: &str, now: Time) {
        self.inner.remove_dir_entry(parent, name, time_in(now));
    }

    pub fn set_parent(&mut self, inode: u64, parent: u64) {
        self.inner.update_dir_parent(inode, parent);
    }

    pub fn update(&mut self, inode: u64, fields: &Fields) -> Result<(), NotUtf8> {
        self.inner.update_attr_delta(inode, fields_in(fields)?);
        Ok(())
    }

    /// `position` is at most the number of batches, which stands for live.
    pub fn normalise(&mut self, position: usize) {
        if position == self.inner.flushing.len() {
            let mut live = std::mem::take(&mut self.inner.live);
            self.inner.normalize_directory_deltas(&mut live, position);
            self.inner.live = live;
        } else {
            // Batches are shared and never altered in the Rust, which normalises a copy.
            let old = Arc::clone(&self.inner.flushing[position]);
            let mut entries = old.entries.clone();
            self.inner.normalize_directory_deltas(&mut entries, position);
            self.inner.flushing[position] = Arc::new(FlushBatch {
                id: old.id,
                entries,
                arena: old.arena.clone(),
                bytes: old.bytes,
                ops: old.ops,
                completion: old.completion.clone(),
                reason: old.reason,
                frozen_at: old.frozen_at,
                commit_timestamp: old.commit_timestamp,
            });
        }
    }

    /// Whether the queue is at one of the limits.
    pub fn at_capacity(&self, depth: u64, bytes: u64, operations: u64) -> bool {
        self.inner.flushing_at_capacity(depth as usize, bytes as usize, operations as usize)
    }

    /// Whether a batch was frozen.
    pub fn freeze(&mut self, depth: u64, bytes: u64, operations: u64, now: Time) -> bool {
        self.inner.freeze_live(depth as usize, bytes as usize, operations as usize, Duration::ZERO, time_in(now))
    }

    /// Folds the front batch, which stays in the queue.
    ///
    /// # Panics
    /// If there is no batch.
    pub fn fold(&mut self) {
        let entries = self.inner.flushing.front().expect("a batch").entries.clone();
        self.inner.fold_entries(entries);
    }

    /// # Panics
    /// As the Rust does: if there is no batch, or the front's id is another.
    pub fn pop(&mut self, id: u64) {
        self.inner.pop_flushed_batch(id);
    }

    pub fn snapshot(&mut self) {
        let base = self.inner.snapshot_all();
        let next_batch_id = self.inner.next_batch_id;
        self.inner = FsInner { base, next_batch_id, ..empty() };
    }

    pub fn note(&mut self, bytes: u64) {
        self.inner.record_mutation(bytes as usize, Duration::ZERO);
    }

    /// `reason` is 0 for none. The published Rust has no function that sets this field; the
    /// one that does is in a file that isn't published.
    pub fn request(&mut self, reason: u8) {
        self.inner.freeze_requested = reason_in(reason);
    }
}

fn empty() -> FsInner {
    FsInner {
        base: HashMap::new(),
        flushing: VecDeque::new(),
        next_batch_id: 1,
        live: HashMap::new(),
        live_arena: WriteArena::new(),
        live_completion: BatchCompletion::new(),
        live_staged_at: None,
        freeze_requested: None,
        handles: HashMap::new(),
        open_counts: HashMap::new(),
        next_fh: 1,
        recovered_time: None,
        staged_bytes: 0,
        staged_ops: 0,
        flushing_bytes: 0,
        flushing_ops: 0,
        locks: LockManager::new(),
        shutdown_state: ShutdownState::Running,
    }
}

// --- image to Rust ---

fn utf8(text: &[u8]) -> Result<String, NotUtf8> {
    String::from_utf8(text.to_vec()).map_err(|_| NotUtf8)
}

/// Whole seconds rounded down, as a `SystemTime` itself holds them. (clock.rs has another pair
/// of conversions, for its log, that loses the sign of times within a second before 1970.)
fn time_in(t: Time) -> SystemTime {
    let whole = Duration::from_secs(t.seconds.unsigned_abs());
    let whole = if t.seconds < 0 { UNIX_EPOCH - whole } else { UNIX_EPOCH + whole };
    whole + Duration::from_nanos(t.nanos.into())
}

fn reason_in(request: u8) -> Option<FlushReason> {
    request.checked_sub(1).map(|index| FlushReason::ALL[index as usize])
}

fn node_in(node: &Node) -> Result<real::Node, NotUtf8> {
    let mut xattrs = BTreeMap::new();
    for (name, value) in &node.attributes {
        xattrs.insert(utf8(name)?, value.clone());
    }
    let kind = match &node.body {
        Body::Directory { parent, entries } => {
            let mut list = Vec::new();
            for (name, &child) in entries {
                list.push((utf8(name)?, child));
            }
            real::NodeKind::Directory { parent: *parent, entries: list }
        }
        Body::File { size } => real::NodeKind::File { extent_map: ExtentMap::new(), size: *size },
        Body::Symlink { target } => real::NodeKind::Symlink { target: utf8(target)? },
        Body::Pipe => real::NodeKind::Fifo,
        Body::Character { device } => real::NodeKind::CharDevice { rdev: *device },
        Body::Block { device } => real::NodeKind::BlockDevice { rdev: *device },
        Body::Socket => real::NodeKind::Socket,
    };
    let meta = real::InodeMeta {
        perm: node.perm,
        nlink: node.links,
        uid: node.owner,
        gid: node.group,
        atime: time_in(node.atime),
        mtime: time_in(node.mtime),
        ctime: time_in(node.ctime),
        xattrs: (!xattrs.is_empty()).then(|| Arc::new(xattrs)),
    };
    Ok(real::Node { meta, kind })
}

fn fields_in(f: &Fields) -> Result<real::AttrDelta, NotUtf8> {
    let xattrs = match &f.attributes {
        None => None,
        Some(changes) => {
            let mut map = HashMap::new();
            for (name, value) in changes {
                map.insert(utf8(name)?, value.clone());
            }
            Some(map)
        }
    };
    Ok(real::AttrDelta {
        mode: f.mode,
        uid: f.owner,
        gid: f.group,
        nlink: f.links,
        atime: f.atime.map(time_in),
        mtime: f.mtime.map(time_in),
        ctime: f.ctime.map(time_in),
        created_at: f.created.map(time_in),
        xattrs,
    })
}

fn delta_in(delta: &Delta) -> Result<real::NodeDelta, NotUtf8> {
    use real::NodeDelta as D;
    let attr_delta = fields_in(&delta.fields)?;
    Ok(match &delta.change {
        Change::Directory { parent, added, removed } => {
            let mut d = real::DirectoryDelta { parent: *parent, attr_delta, ..Default::default() };
            for (name, &child) in added {
                d.added.insert(utf8(name)?, child);
            }
            for name in removed {
                d.removed.insert(utf8(name)?);
            }
            D::Directory(d)
        }
        Change::File { size } => D::File(real::FileDelta { extents: ExtentMap::new(), size: *size, attr_delta }),
        Change::Symlink { target } => {
            let target = target.as_deref().map(utf8).transpose()?;
            D::Symlink(real::SymlinkDelta { target, attr_delta })
        }
        Change::Pipe { device } => D::Fifo(real::SpecialDelta { rdev: *device, attr_delta }),
        Change::Character { device } => D::CharDevice(real::SpecialDelta { rdev: *device, attr_delta }),
        Change::Block { device } => D::BlockDevice(real::SpecialDelta { rdev: *device, attr_delta }),
        Change::Socket { device } => D::Socket(real::SpecialDelta { rdev: *device, attr_delta }),
    })
}

fn records_in(records: &Records) -> Result<HashMap<u64, real::EntryDelta>, NotUtf8> {
    let mut map = HashMap::new();
    for (&inode, record) in records {
        let entry = match record {
            Record::Tombstone => real::EntryDelta::Tombstone,
            Record::Delta(delta) => real::EntryDelta::Node(delta_in(delta)?),
        };
        map.insert(inode, entry);
    }
    Ok(map)
}

// --- Rust to image ---

fn time_out(t: SystemTime) -> Time {
    match t.duration_since(UNIX_EPOCH) {
        Ok(after) => Time { seconds: after.as_secs() as i64, nanos: after.subsec_nanos() },
        Err(e) => {
            let before = e.duration();
            let up = i128::from(before.subsec_nanos() > 0);
            Time {
                seconds: (-i128::from(before.as_secs()) - up) as i64,
                nanos: (1_000_000_000 - before.subsec_nanos()) % 1_000_000_000,
            }
        }
    }
}

fn kind_out(t: FileType) -> u8 {
    match t {
        FileType::Directory => 0,
        FileType::RegularFile => 1,
        FileType::Symlink => 2,
        FileType::NamedPipe => 3,
        FileType::CharDevice => 4,
        FileType::BlockDevice => 5,
        FileType::Socket => 6,
    }
}

fn attr_out(a: FileAttr) -> Attr {
    Attr {
        kind: kind_out(a.file_type),
        perm: a.perm,
        links: a.nlink,
        owner: a.uid,
        group: a.gid,
        device: a.rdev,
        size: a.size,
        atime: time_out(a.atime),
        mtime: time_out(a.mtime),
        ctime: time_out(a.ctime),
    }
}

fn base_out(base: &HashMap<u64, Arc<real::Node>>) -> BTreeMap<u64, Node> {
    base.iter().map(|(&inode, node)| (inode, node_out(node))).collect()
}

fn node_out(node: &real::Node) -> Node {
    let meta = &node.meta;
    let attributes = match &meta.xattrs {
        None => BTreeMap::new(),
        Some(map) => {
            assert!(!map.is_empty(), "the Rust keeps no empty attribute map");
            map.iter().map(|(name, value)| (name.clone().into_bytes(), value.clone())).collect()
        }
    };
    let body = match &node.kind {
        real::NodeKind::Directory { parent, entries } => {
            assert!(entries.is_sorted_by(|a, b| a.0 < b.0), "the Rust keeps entries sorted, each name once");
            let entries = entries.iter().map(|(name, child)| (name.clone().into_bytes(), *child)).collect();
            Body::Directory { parent: *parent, entries }
        }
        real::NodeKind::File { extent_map, size } => {
            assert!(extent_map.is_empty());
            Body::File { size: *size }
        }
        real::NodeKind::Symlink { target } => Body::Symlink { target: target.clone().into_bytes() },
        real::NodeKind::Fifo => Body::Pipe,
        real::NodeKind::CharDevice { rdev } => Body::Character { device: *rdev },
        real::NodeKind::BlockDevice { rdev } => Body::Block { device: *rdev },
        real::NodeKind::Socket => Body::Socket,
    };
    Node {
        perm: meta.perm,
        links: meta.nlink,
        owner: meta.uid,
        group: meta.gid,
        atime: time_out(meta.atime),
        mtime: time_out(meta.mtime),
        ctime: time_out(meta.ctime),
        attributes,
        body,
    }
}

fn fields_out(d: &real::AttrDelta) -> Fields {
    Fields {
        mode: d.mode,
        owner: d.uid,
        group: d.gid,
        links: d.nlink,
        atime: d.atime.map(time_out),
        mtime: d.mtime.map(time_out),
        ctime: d.ctime.map(time_out),
        created: d.created_at.map(time_out),
        attributes: d
            .xattrs
            .as_ref()
            .map(|map| map.iter().map(|(name, value)| (name.clone().into_bytes(), value.clone())).collect()),
    }
}

fn delta_out(delta: &real::NodeDelta) -> Delta {
    use real::NodeDelta as D;
    let change = match delta {
        D::Directory(d) => Change::Directory {
            parent: d.parent,
            added: d.added.iter().map(|(name, &child)| (name.clone().into_bytes(), child)).collect(),
            removed: d.removed.iter().map(|name| name.clone().into_bytes()).collect(),
        },
        D::File(f) => {
            assert!(f.extents.is_empty());
            Change::File { size: f.size }
        }
        D::Symlink(s) => Change::Symlink { target: s.target.clone().map(String::into_bytes) },
        D::Fifo(s) => Change::Pipe { device: s.rdev },
        D::CharDevice(s) => Change::Character { device: s.rdev },
        D::BlockDevice(s) => Change::Block { device: s.rdev },
        D::Socket(s) => Change::Socket { device: s.rdev },
    };
    Delta { fields: fields_out(delta.attr_delta()), change }
}

fn records_out(entries: &HashMap<u64, real::EntryDelta>) -> Records {
    entries
        .iter()
        .map(|(&inode, entry)| {
            let record = match entry {
                real::EntryDelta::Tombstone => Record::Tombstone,
                real::EntryDelta::Node(delta) => Record::Delta(delta_out(delta)),
            };
            (inode, record)
        })
        .collect()
}
