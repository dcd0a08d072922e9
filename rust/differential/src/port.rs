//! The port, through its static library: one function for each call. Only this file knows the library's header.
//!
//! Every answer is held to what document 01 says of all calls: a refusal has length 0 and alters nothing; a change
//! alters no byte past the new image; a listing no row past the last.

use crate::judge::{Reply, Row};
use oracle::calls::Call;
use oracle::image::{MAX_IMAGE, Time};
use oracle::store::Attr;

#[repr(C)]
struct YesNoReply {
    refusal: u32,
    yes: bool,
}

#[repr(C)]
struct TypeReply {
    refusal: u32,
    found: bool,
    kind: u32,
}

#[repr(C)]
struct InodeReply {
    refusal: u32,
    found: bool,
    inode: u64,
}

#[repr(C)]
#[derive(Clone, Copy)]
struct Timestamp {
    seconds: i64,
    nanos: u32,
}

#[repr(C)]
struct FileAttr {
    ino: u64,
    kind: u32,
    perm: u32,
    nlink: u32,
    uid: u32,
    gid: u32,
    rdev: u32,
    size: u64,
    atime: Timestamp,
    mtime: Timestamp,
    ctime: Timestamp,
}

#[repr(C)]
struct AttrReply {
    refusal: u32,
    found: bool,
    attr: FileAttr,
}

#[repr(C)]
struct TextReply {
    refusal: u32,
    found: bool,
    start: usize,
    length: usize,
}

#[repr(C)]
struct ChangeReply {
    refusal: u32,
    length: usize,
}

#[repr(C)]
struct RowsReply {
    refusal: u32,
    found: bool,
    count: usize,
}

#[repr(C)]
#[derive(Clone, Copy, PartialEq, Eq)]
struct Entry {
    start: usize,
    length: usize,
    inode: u64,
}

/// A slice as the library takes it: two words.
type Bytes = *const u8;
type Target = *mut u8;

unsafe extern "C" {
    fn appendfs_exists(img: Bytes, len: usize, ino: u64) -> YesNoReply;
    fn appendfs_file_type(img: Bytes, len: usize, ino: u64) -> TypeReply;
    fn appendfs_attr(img: Bytes, len: usize, ino: u64) -> AttrReply;
    fn appendfs_parent_dir_inode(img: Bytes, len: usize, ino: u64) -> InodeReply;
    fn appendfs_lookup_child(img: Bytes, len: usize, ino: u64, name: Bytes, name_len: usize) -> InodeReply;
    fn appendfs_has_link(img: Bytes, len: usize, ino: u64) -> YesNoReply;
    fn appendfs_has_xattr(img: Bytes, len: usize, ino: u64, name: Bytes, name_len: usize) -> YesNoReply;
    fn appendfs_read_link(img: Bytes, len: usize, ino: u64) -> TextReply;
    fn appendfs_get_xattr(img: Bytes, len: usize, ino: u64, name: Bytes, name_len: usize) -> TextReply;
    fn appendfs_list_directory(img: Bytes, len: usize, ino: u64, rows: *mut Entry, count: usize) -> RowsReply;
    fn appendfs_list_xattrs(img: Bytes, len: usize, ino: u64, rows: *mut Entry, count: usize) -> RowsReply;
    fn appendfs_insert_new_node(
        img: Bytes,
        len: usize,
        ino: u64,
        delta: Bytes,
        delta_len: usize,
        target: Target,
        room: usize,
    ) -> ChangeReply;
    fn appendfs_tombstone(img: Bytes, len: usize, ino: u64, target: Target, room: usize) -> ChangeReply;
    fn appendfs_add_dir_entry(
        img: Bytes,
        len: usize,
        ino: u64,
        name: Bytes,
        name_len: usize,
        inode: u64,
        seconds: i64,
        nanos: u32,
        target: Target,
        room: usize,
    ) -> ChangeReply;
    fn appendfs_remove_dir_entry(
        img: Bytes,
        len: usize,
        ino: u64,
        name: Bytes,
        name_len: usize,
        seconds: i64,
        nanos: u32,
        target: Target,
        room: usize,
    ) -> ChangeReply;
    fn appendfs_update_dir_parent(
        img: Bytes,
        len: usize,
        ino: u64,
        parent: u64,
        target: Target,
        room: usize,
    ) -> ChangeReply;
    fn appendfs_update_attr_delta(
        img: Bytes,
        len: usize,
        ino: u64,
        delta: Bytes,
        delta_len: usize,
        target: Target,
        room: usize,
    ) -> ChangeReply;
    fn appendfs_normalize_directory_deltas(
        img: Bytes,
        len: usize,
        position: u64,
        target: Target,
        room: usize,
    ) -> ChangeReply;
    fn appendfs_freeze_live(
        img: Bytes,
        len: usize,
        depth: u64,
        bytes: u64,
        operations: u64,
        seconds: i64,
        nanos: u32,
        target: Target,
        room: usize,
    ) -> ChangeReply;
    fn appendfs_fold_entries(img: Bytes, len: usize, target: Target, room: usize) -> ChangeReply;
    fn appendfs_pop_flushed_batch(img: Bytes, len: usize, batch_id: u64, target: Target, room: usize) -> ChangeReply;
    fn appendfs_record_mutation(img: Bytes, len: usize, bytes: u64, target: Target, room: usize) -> ChangeReply;
    fn appendfs_request(img: Bytes, len: usize, reason: u64, target: Target, room: usize) -> ChangeReply;
    fn appendfs_snapshot_all(img: Bytes, len: usize, target: Target, room: usize) -> ChangeReply;
}

/// Before and behind what is lent.
const GUARD: usize = 64;
const MOST_ROWS: usize = 40_000;
/// A target may be longer than any image.
const MOST_ROOM: usize = MAX_IMAGE + 4096;

const EMPTY_ROW: Entry = Entry { start: 0xaaaa_aaaa, length: 0x5555_5555, inode: 0xa5a5_a5a5_a5a5_a5a5 };

/// What stands in a buffer before a call; differs from byte to byte.
fn pattern(place: usize) -> u8 {
    (place as u8).wrapping_mul(37) ^ 0xa5
}

/// The library, with the buffers that are lent to it.
pub struct Port {
    target: Vec<u8>,
    pattern: Vec<u8>,
    rows: Vec<Entry>,
}

fn time(t: Timestamp) -> Time {
    Time { seconds: t.seconds, nanos: t.nanos }
}

fn broken(what: &str) -> Reply {
    Reply::Broken(what.to_string())
}

/// A refusal, or what the values say; a refusal, and none, have zeros for values.
fn answer(refusal: u32, found: bool, zeros: bool, some: impl FnOnce() -> Reply) -> Reply {
    match (refusal, found) {
        (0, true) => some(),
        _ if found || !zeros => broken("a refusal, or none, with a value"),
        (0, false) => Reply::None,
        (1..=11, false) => Reply::Refused(refusal as u8),
        _ => broken("a refusal that has no number in document 01"),
    }
}

fn truth(reply: YesNoReply) -> Reply {
    match reply.refusal {
        0 => Reply::Truth(reply.yes),
        refusal => answer(refusal, reply.yes, true, || unreachable!("a refusal")),
    }
}

fn inode(reply: InodeReply) -> Reply {
    answer(reply.refusal, reply.found, reply.inode == 0, || Reply::Inode(reply.inode))
}

/// A text, beside the yes or no that tells whether there is one.
fn text(image: &[u8], has: YesNoReply, reply: TextReply) -> Reply {
    if (has.refusal, has.yes) != (reply.refusal, reply.found) {
        return broken("a text, and whether there is one, differ");
    }
    answer(reply.refusal, reply.found, reply.start == 0 && reply.length == 0, || {
        match reply.start.checked_add(reply.length).and_then(|end| image.get(reply.start..end)) {
            None => broken("a text that is not a part of the image"),
            Some([]) => Reply::Text { start: 0, text: Vec::new() },
            Some(text) => Reply::Text { start: reply.start, text: text.to_vec() },
        }
    })
}

impl Default for Port {
    fn default() -> Port {
        let pattern: Vec<u8> = (0..MOST_ROOM + 2 * GUARD).map(pattern).collect();
        Port { target: pattern.clone(), pattern, rows: vec![EMPTY_ROW; MOST_ROWS] }
    }
}

impl Port {
    /// Runs `call` on the image. `room` is the length of the lent target, for the changes.
    pub fn run(&mut self, image: &[u8], call: &Call, room: usize) -> Reply {
        let (img, len) = (image.as_ptr(), image.len());
        // SAFETY: each slice is lent with its own length, targets and rows exclusively, for the call alone.
        unsafe {
            match call {
                Call::Exists { inode } => truth(appendfs_exists(img, len, *inode)),
                Call::Type { inode } => {
                    let reply = appendfs_file_type(img, len, *inode);
                    answer(reply.refusal, reply.found, reply.kind == 0, || Reply::Type(reply.kind as u8))
                }
                Call::Child { inode: dir, name } => {
                    inode(appendfs_lookup_child(img, len, *dir, name.as_ptr(), name.len()))
                }
                Call::Attr { inode } => attr(*inode, appendfs_attr(img, len, *inode)),
                Call::List { inode, rows } => {
                    self.rows(*rows, |at, count| appendfs_list_directory(img, len, *inode, at, count))
                }
                Call::Names { inode, rows } => {
                    self.rows(*rows, |at, count| appendfs_list_xattrs(img, len, *inode, at, count))
                }
                Call::Link { inode } => {
                    text(image, appendfs_has_link(img, len, *inode), appendfs_read_link(img, len, *inode))
                }
                Call::Parent { inode: dir } => inode(appendfs_parent_dir_inode(img, len, *dir)),
                Call::Xattr { inode, name } => {
                    let (at, length) = (name.as_ptr(), name.len());
                    let has = appendfs_has_xattr(img, len, *inode, at, length);
                    text(image, has, appendfs_get_xattr(img, len, *inode, at, length))
                }
                _ => self.change(room, |target, room| change(image, call, target, room)),
            }
        }
    }

    fn rows(&mut self, count: usize, list: impl FnOnce(*mut Entry, usize) -> RowsReply) -> Reply {
        let guards = 2;
        let reply = list(self.rows[guards..].as_mut_ptr(), count);
        let filled = reply.count.min(count);
        let made = &self.rows[guards..guards + filled];
        let rows: Vec<Row> =
            made.iter().map(|row| Row { start: row.start, length: row.length, inode: row.inode }).collect();
        self.rows[guards..guards + filled].fill(EMPTY_ROW);
        let around = &mut self.rows[..guards + count + guards];
        if around.iter().any(|row| *row != EMPTY_ROW) {
            around.fill(EMPTY_ROW);
            return broken("a row past the last, or one on a refusal, was altered");
        }
        answer(reply.refusal, reply.found, reply.count == 0, || {
            if reply.count > count { broken("more rows than were lent") } else { Reply::Rows(rows) }
        })
    }

    fn change(&mut self, room: usize, call: impl FnOnce(*mut u8, usize) -> ChangeReply) -> Reply {
        assert!(room <= MOST_ROOM);
        let reply = call(self.target[GUARD..].as_mut_ptr(), room);
        let end = GUARD + room + GUARD;
        let filled = if reply.refusal == 0 { GUARD + reply.length.min(room) } else { GUARD };
        let new = self.target[GUARD..filled].to_vec();
        let kept =
            self.target[..GUARD] == self.pattern[..GUARD] && self.target[filled..end] == self.pattern[filled..end];
        self.target[..end].copy_from_slice(&self.pattern[..end]);
        if !kept {
            return broken("a byte past the new image, or one on a refusal, was altered");
        }
        answer(reply.refusal, reply.refusal == 0, reply.length == 0, || {
            if reply.length > room { broken("an image longer than its target") } else { Reply::Image(new) }
        })
    }
}

/// Buffers for a bare call, as the benchmarks make it: nothing is looked at but the refusal.
pub struct Lent {
    target: Vec<u8>,
    rows: Vec<Entry>,
}

impl Default for Lent {
    fn default() -> Lent {
        Lent { target: vec![0; MAX_IMAGE], rows: vec![EMPTY_ROW; MOST_ROWS] }
    }
}

impl Lent {
    /// The refusal, 0 for none.
    pub fn call(&mut self, image: &[u8], call: &Call) -> u32 {
        let (img, len) = (image.as_ptr(), image.len());
        let rows = self.rows.as_mut_ptr();
        // SAFETY: each slice is lent with its own length, targets and rows exclusively, for the call alone.
        unsafe {
            match call {
                Call::Exists { inode } => appendfs_exists(img, len, *inode).refusal,
                Call::Type { inode } => appendfs_file_type(img, len, *inode).refusal,
                Call::Child { inode, name } => {
                    appendfs_lookup_child(img, len, *inode, name.as_ptr(), name.len()).refusal
                }
                Call::Attr { inode } => appendfs_attr(img, len, *inode).refusal,
                Call::List { inode, rows: count } => appendfs_list_directory(img, len, *inode, rows, *count).refusal,
                Call::Link { inode } => appendfs_read_link(img, len, *inode).refusal,
                Call::Parent { inode } => appendfs_parent_dir_inode(img, len, *inode).refusal,
                Call::Xattr { inode, name } => appendfs_get_xattr(img, len, *inode, name.as_ptr(), name.len()).refusal,
                Call::Names { inode, rows: count } => appendfs_list_xattrs(img, len, *inode, rows, *count).refusal,
                _ => change(image, call, self.target.as_mut_ptr(), self.target.len()).refusal,
            }
        }
    }
}

fn attr(inode: u64, reply: AttrReply) -> Reply {
    let a = &reply.attr;
    let shown = Attr {
        kind: a.kind as u8,
        perm: a.perm,
        links: a.nlink,
        owner: a.uid,
        group: a.gid,
        device: a.rdev,
        size: a.size as i64,
        atime: time(a.atime),
        mtime: time(a.mtime),
        ctime: time(a.ctime),
    };
    let zero = Time::default();
    let none = Attr {
        kind: 0,
        perm: 0,
        links: 0,
        owner: 0,
        group: 0,
        device: 0,
        size: 0,
        atime: zero,
        mtime: zero,
        ctime: zero,
    };
    answer(reply.refusal, reply.found, a.ino == 0 && shown == none, || {
        if a.ino == inode { Reply::Attr(shown) } else { broken("attributes of another inode") }
    })
}

/// # Safety
/// `target` must be valid for writes of `room` bytes, and overlap no slice that is lent beside it.
unsafe fn change(image: &[u8], call: &Call, target: *mut u8, room: usize) -> ChangeReply {
    let (img, len) = (image.as_ptr(), image.len());
    // SAFETY: as the caller says.
    unsafe {
        match call {
            Call::Insert { inode, delta } => {
                appendfs_insert_new_node(img, len, *inode, delta.as_ptr(), delta.len(), target, room)
            }
            Call::Tombstone { inode } => appendfs_tombstone(img, len, *inode, target, room),
            Call::Add { parent, name, child, now } => {
                let (at, length) = (name.as_ptr(), name.len());
                appendfs_add_dir_entry(img, len, *parent, at, length, *child, now.seconds, now.nanos, target, room)
            }
            Call::Remove { parent, name, now } => {
                let (at, length) = (name.as_ptr(), name.len());
                appendfs_remove_dir_entry(img, len, *parent, at, length, now.seconds, now.nanos, target, room)
            }
            Call::SetParent { inode, parent } => appendfs_update_dir_parent(img, len, *inode, *parent, target, room),
            Call::Update { inode, fields } => {
                appendfs_update_attr_delta(img, len, *inode, fields.as_ptr(), fields.len(), target, room)
            }
            Call::Normalise { position } => appendfs_normalize_directory_deltas(img, len, *position, target, room),
            Call::Freeze { depth, bytes, operations, now } => {
                appendfs_freeze_live(img, len, *depth, *bytes, *operations, now.seconds, now.nanos, target, room)
            }
            Call::Fold => appendfs_fold_entries(img, len, target, room),
            Call::Pop { id } => appendfs_pop_flushed_batch(img, len, *id, target, room),
            Call::Snapshot => appendfs_snapshot_all(img, len, target, room),
            Call::Note { bytes } => appendfs_record_mutation(img, len, *bytes, target, room),
            Call::Request { reason } => appendfs_request(img, len, *reason, target, room),
            _ => unreachable!("a read"),
        }
    }
}
