//! The calls as lines of text, and their answers, as crates/vectors reads and writes them.
//!
//! Words have one blank between them. Texts and images are hexadecimal, `-` where empty.
//!
//! ```text
//! exists INODE IMAGE          yes, no
//! type INODE IMAGE            d, -, l, p, c, b or s; none
//! child INODE NAME IMAGE      inode N; none
//! attr INODE IMAGE            TYPE PERM LINKS UID GID RDEV SIZE ATIME MTIME CTIME; none
//! list INODE ROWS IMAGE       COUNT NAME:INODE NAME:INODE ..; none
//! link INODE IMAGE            text HEX; none
//! parent INODE IMAGE          inode N; none
//! xattr INODE NAME IMAGE      text HEX; none
//! names INODE ROWS IMAGE      COUNT NAME NAME ..; none
//! ```
//!
//! PERM is octal, a time is SECONDS.NANOS, both without padding; all else is decimal. Each call may be
//! `refused N` as well.
//!
//! The changes. ROOM is the length of the lent target, SECONDS has its sign before it. Each answers `image HEX`.
//!
//! ```text
//! insert INODE DELTA ROOM IMAGE
//! tombstone INODE ROOM IMAGE
//! add INODE NAME CHILD SECONDS NANOS ROOM IMAGE
//! remove INODE NAME SECONDS NANOS ROOM IMAGE
//! setparent INODE PARENT ROOM IMAGE
//! update INODE FIELDS ROOM IMAGE
//! normalise POSITION ROOM IMAGE
//! freeze DEPTH BYTES OPERATIONS SECONDS NANOS ROOM IMAGE
//! fold ROOM IMAGE
//! pop ID ROOM IMAGE
//! note BYTES ROOM IMAGE
//! request REASON ROOM IMAGE
//! snapshot ROOM IMAGE
//! ```

use crate::calls::{Answer, Call, run};
use crate::image::Time;
use crate::store::Attr;
use std::fmt::Write;

pub fn hex(bytes: &[u8]) -> String {
    if bytes.is_empty() {
        return "-".to_string();
    }
    bytes.iter().fold(String::new(), |mut s, b| {
        write!(s, "{b:02X}").unwrap();
        s
    })
}

/// The line of a read; `None` for a change.
pub fn line(call: &Call, image: &[u8]) -> Option<String> {
    let words = match call {
        Call::Exists { inode } => format!("exists {inode}"),
        Call::Type { inode } => format!("type {inode}"),
        Call::Child { inode, name } => format!("child {inode} {}", hex(name)),
        Call::Attr { inode } => format!("attr {inode}"),
        Call::List { inode, rows } => format!("list {inode} {rows}"),
        Call::Link { inode } => format!("link {inode}"),
        Call::Parent { inode } => format!("parent {inode}"),
        Call::Xattr { inode, name } => format!("xattr {inode} {}", hex(name)),
        Call::Names { inode, rows } => format!("names {inode} {rows}"),
        _ => return None,
    };
    Some(format!("{words} {}", hex(image)))
}

/// The line of a change, with the room of its target; `None` for a read.
pub fn change_line(call: &Call, room: usize, image: &[u8]) -> Option<String> {
    let time = |t: &Time| format!("{:+} {}", t.seconds, t.nanos);
    let words = match call {
        Call::Insert { inode, delta } => format!("insert {inode} {}", hex(delta)),
        Call::Tombstone { inode } => format!("tombstone {inode}"),
        Call::Add { parent, name, child, now } => format!("add {parent} {} {child} {}", hex(name), time(now)),
        Call::Remove { parent, name, now } => format!("remove {parent} {} {}", hex(name), time(now)),
        Call::SetParent { inode, parent } => format!("setparent {inode} {parent}"),
        Call::Update { inode, fields } => format!("update {inode} {}", hex(fields)),
        Call::Normalise { position } => format!("normalise {position}"),
        Call::Freeze { depth, bytes, operations, now } => format!("freeze {depth} {bytes} {operations} {}", time(now)),
        Call::Fold => "fold".to_string(),
        Call::Pop { id } => format!("pop {id}"),
        Call::Note { bytes } => format!("note {bytes}"),
        Call::Request { reason } => format!("request {reason}"),
        Call::Snapshot => "snapshot".to_string(),
        _ => return None,
    };
    Some(format!("{words} {room} {}", hex(image)))
}

/// The answer of a call; `None` for one that no line has.
pub fn answer(call: &Call, room: usize, image: &[u8]) -> Option<String> {
    Some(match run(image, call, room) {
        Answer::Refused(number) => format!("refused {number}"),
        Answer::None => "none".to_string(),
        Answer::Truth(true) => "yes".to_string(),
        Answer::Truth(false) => "no".to_string(),
        Answer::Type(kind) => letter(kind).to_string(),
        Answer::Inode(inode) => format!("inode {inode}"),
        Answer::Attr(attr) => attributes(&attr),
        Answer::Text(text) => format!("text {}", hex(&text)),
        Answer::Entries(rows) => rows.iter().fold(rows.len().to_string(), |mut s, (name, inode)| {
            write!(s, " {}:{inode}", hex(name)).unwrap();
            s
        }),
        Answer::Names(names) => names.iter().fold(names.len().to_string(), |mut s, name| {
            write!(s, " {}", hex(name)).unwrap();
            s
        }),
        Answer::Image(new) => format!("image {}", hex(&new)),
        Answer::Outside => return None,
    })
}

fn letter(kind: u8) -> char {
    ['d', '-', 'l', 'p', 'c', 'b', 's'][kind as usize]
}

fn attributes(a: &Attr) -> String {
    let time = |t: Time| format!("{}.{}", t.seconds, t.nanos);
    let numbers =
        format!("{} {:o} {} {} {} {} {}", letter(a.kind), a.perm, a.links, a.owner, a.group, a.device, a.size);
    format!("{numbers} {} {} {}", time(a.atime), time(a.mtime), time(a.ctime))
}
