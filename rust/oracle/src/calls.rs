//! The calls of document 01 on the published Rust, with the document's refusals before them, in
//! its order. The refusals are the document's, not the Rust's; an answer is the Rust's alone.

use crate::image::{Delta, Fields, Image, MAX_BATCHES, MAX_IMAGE, MAX_NAME, NANOS, Time};
use crate::store::{Attr, NotUtf8, Store};

#[derive(Debug, Clone, PartialEq, Eq)]
pub enum Call {
    // Reads.
    Exists { inode: u64 },
    Type { inode: u64 },
    Child { inode: u64, name: Vec<u8> },
    Attr { inode: u64 },
    List { inode: u64, rows: usize },
    Link { inode: u64 },
    Parent { inode: u64 },
    Xattr { inode: u64, name: Vec<u8> },
    Names { inode: u64, rows: usize },
    // Changes.
    Insert { inode: u64, delta: Vec<u8> },
    Tombstone { inode: u64 },
    Add { parent: u64, name: Vec<u8>, child: u64, now: Time },
    Remove { parent: u64, name: Vec<u8>, now: Time },
    SetParent { inode: u64, parent: u64 },
    Update { inode: u64, fields: Vec<u8> },
    Normalise { position: u64 },
    Freeze { depth: u64, bytes: u64, operations: u64, now: Time },
    Fold,
    Pop { id: u64 },
    Snapshot,
    Note { bytes: u64 },
    Request { reason: u64 },
}

#[derive(Debug, Clone, PartialEq, Eq)]
pub enum Answer {
    Refused(u8),
    /// A text is not UTF-8, so the Rust is not asked.
    Outside,
    None,
    Truth(bool),
    /// The number of a kind.
    Type(u8),
    Inode(u64),
    Attr(Attr),
    Text(Vec<u8>),
    Entries(Vec<(Vec<u8>, u64)>),
    Names(Vec<Vec<u8>>),
    /// A changed image.
    Image(Vec<u8>),
}

impl From<NotUtf8> for Answer {
    fn from(_: NotUtf8) -> Answer {
        Answer::Outside
    }
}

/// Runs `call` on the image. `room` is the length of the lent target, for the changes.
pub fn run(bytes: &[u8], call: &Call, room: usize) -> Answer {
    match attempt(bytes, call, room) {
        Ok(answer) | Err(answer) => answer,
    }
}

fn refuse<T>(number: u8) -> Result<T, Answer> {
    Err(Answer::Refused(number))
}

fn refuse_if(refused: bool, number: u8) -> Result<(), Answer> {
    if refused { refuse(number) } else { Ok(()) }
}

fn check_name(name: &[u8]) -> Result<(), Answer> {
    refuse_if(name.is_empty() || name.len() > MAX_NAME, 3)
}

fn check_time(now: Time) -> Result<(), Answer> {
    refuse_if(now.nanos >= NANOS, 4)
}

fn str(name: &[u8]) -> Result<&str, Answer> {
    std::str::from_utf8(name).map_err(|_| Answer::Outside)
}

fn answer<T>(found: Option<T>, some: fn(T) -> Answer) -> Result<Answer, Answer> {
    Ok(found.map_or(Answer::None, some))
}

fn rows<T>(found: Option<Vec<T>>, rows: usize, some: fn(Vec<T>) -> Answer) -> Result<Answer, Answer> {
    refuse_if(found.as_ref().is_some_and(|list| list.len() > rows), 5)?;
    answer(found, some)
}

/// Runs `call` on an image that was read and that `store` holds. A change leaves the store changed.
pub fn run_on(image: &Image, store: &mut Store, call: &Call, room: usize) -> Answer {
    match refuse_arguments(image, call).and_then(|()| ask(image, store, call, room)) {
        Ok(answer) | Err(answer) => answer,
    }
}

/// The refusal, if any, that comes from the arguments and the image alone.
pub fn refusal(image: &Image, call: &Call) -> Option<Answer> {
    refuse_arguments(image, call).err()
}

fn attempt(bytes: &[u8], call: &Call, room: usize) -> Result<Answer, Answer> {
    refuse_if(bytes.len() > MAX_IMAGE, 1)?;
    let image = Image::read(bytes).or_else(|_| refuse(2))?;
    refuse_arguments(&image, call)?;
    ask(&image, &mut Store::from_image(&image)?, call, room)
}

fn ask(image: &Image, store: &mut Store, call: &Call, room: usize) -> Result<Answer, Answer> {
    match call {
        Call::Exists { inode } => return Ok(Answer::Truth(store.exists(*inode))),
        Call::Type { inode } => return answer(store.file_type(*inode), Answer::Type),
        Call::Child { inode, name } => return answer(store.lookup_child(*inode, str(name)?), Answer::Inode),
        Call::Attr { inode } => return answer(store.attr(*inode), Answer::Attr),
        Call::List { inode, rows: most } => return rows(store.list_directory(*inode), *most, Answer::Entries),
        Call::Link { inode } => return answer(store.read_link(*inode), Answer::Text),
        Call::Parent { inode } => return answer(store.parent(*inode), Answer::Inode),
        Call::Xattr { inode, name } => return answer(store.get_xattr(*inode, str(name)?), Answer::Text),
        Call::Names { inode, rows: most } => return rows(store.list_xattrs(*inode), *most, Answer::Names),

        Call::Insert { inode, delta } => store.insert(*inode, &Delta::read(delta).unwrap())?,
        Call::Tombstone { inode } => store.tombstone(*inode),
        Call::Add { parent, name, child, now } => store.add_entry(*parent, str(name)?, *child, *now),
        Call::Remove { parent, name, now } => store.remove_entry(*parent, str(name)?, *now),
        Call::SetParent { inode, parent } => store.set_parent(*inode, *parent),
        Call::Update { inode, fields } => store.update(*inode, &Fields::read(fields).unwrap())?,
        Call::Normalise { position } => store.normalise(*position as usize),
        Call::Freeze { depth, bytes, operations, now } => {
            refuse_if(store.at_capacity(*depth, *bytes, *operations) || image.batches.len() >= MAX_BATCHES, 6)?;
            refuse_if(image.live.is_empty(), 7)?;
            refuse_if(image.next_id == u64::MAX, 10)?;
            assert!(store.freeze(*depth, *bytes, *operations, *now), "the Rust would not freeze");
        }
        Call::Fold => store.fold(),
        Call::Pop { id } => store.pop(*id),
        Call::Snapshot => store.snapshot(),
        Call::Note { bytes } => store.note(*bytes),
        Call::Request { reason } => store.request(*reason as u8),
    }
    let new = store.to_image().write();
    refuse_if(new.len() > MAX_IMAGE || new.len() > room, 5)?;
    Ok(Answer::Image(new))
}

/// The refusals that come from the arguments and the image alone.
fn refuse_arguments(image: &Image, call: &Call) -> Result<(), Answer> {
    match call {
        Call::Child { name, .. } | Call::Xattr { name, .. } => check_name(name),
        Call::Insert { delta, .. } => refuse_if(Delta::read(delta).is_err(), 4),
        Call::Update { fields, .. } => refuse_if(Fields::read(fields).is_err(), 4),
        Call::Add { name, now, .. } | Call::Remove { name, now, .. } => {
            check_name(name)?;
            check_time(*now)
        }
        Call::Normalise { position } => refuse_if(*position > image.batches.len() as u64, 11),
        Call::Freeze { now, .. } => check_time(*now),
        Call::Fold => refuse_if(image.batches.is_empty(), 8),
        Call::Pop { id } => {
            refuse_if(image.batches.is_empty(), 8)?;
            refuse_if(image.batches[0].id != *id, 9)
        }
        Call::Note { bytes } => {
            let staged = u64::from(image.staged_bytes).checked_add(*bytes);
            refuse_if(staged.is_none_or(|n| n >= 1 << 32) || image.staged_operations == u32::MAX, 10)
        }
        Call::Request { reason } => refuse_if(*reason > 5, 4),
        _ => Ok(()),
    }
}
