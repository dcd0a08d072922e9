//! What a call must answer: the published Rust's answer, with document 01's refusals and places.

use crate::places::Places;
use oracle::calls::{Answer, Call, refusal, run_on};
use oracle::image::{Image, MAX_IMAGE};
use oracle::store::{Attr, Store};
use std::cell::OnceCell;

/// A row of a listing: start and length of the name in the image, inode.
#[derive(Debug, Clone, Copy, PartialEq, Eq)]
pub struct Row {
    pub start: usize,
    pub length: usize,
    pub inode: u64,
}

/// An answer of either side.
#[derive(Debug, Clone, PartialEq, Eq)]
pub enum Reply {
    Refused(u8),
    None,
    Truth(bool),
    /// The number of a kind.
    Type(u8),
    Inode(u64),
    Attr(Attr),
    /// A part of the image; an empty one starts at 0.
    Text {
        start: usize,
        text: Vec<u8>,
    },
    Rows(Vec<Row>),
    Image(Vec<u8>),
    /// Something that no call may do.
    Broken(String),
    /// A text is not UTF-8, so the Rust can't say; but no refusal 1 to 4.
    Outside,
}

impl Reply {
    /// Whether the port's `reply` is the one wanted here.
    pub fn admits(&self, reply: &Reply) -> bool {
        match self {
            Reply::Outside => !matches!(reply, Reply::Refused(1..=4) | Reply::Broken(_)),
            _ => self == reply,
        }
    }
}

/// One image, read once, for any number of calls.
pub struct Judge<'a> {
    pub bytes: &'a [u8],
    held: Result<Held<'a>, u8>,
}

struct Held<'a> {
    image: Image,
    marks: Vec<usize>,
    places: OnceCell<Places<'a>>,
    /// For the reads, which leave it as it is; none where a text is not UTF-8.
    store: Option<Store>,
}

impl<'a> Judge<'a> {
    pub fn new(bytes: &'a [u8]) -> Judge<'a> {
        let held = match Image::read_marked(bytes) {
            _ if bytes.len() > MAX_IMAGE => Err(1),
            Err(_) => Err(2),
            Ok((image, marks)) => {
                let store = Store::from_image(&image).ok();
                Ok(Held { image, marks, places: OnceCell::new(), store })
            }
        };
        Judge { bytes, held }
    }

    pub fn image(&self) -> Option<&Image> {
        self.held.as_ref().ok().map(|held| &held.image)
    }

    /// The verdict on the image alone: 0, 1 or 2.
    pub fn verdict(&self) -> u8 {
        self.held.as_ref().err().copied().unwrap_or(0)
    }

    /// What a read answers; what a change answers if the target has room for any image.
    pub fn reply(&mut self, call: &Call) -> Reply {
        let held = match &mut self.held {
            Err(number) => return Reply::Refused(*number),
            Ok(held) => held,
        };
        let answer = match (&mut held.store, refusal(&held.image, call)) {
            (_, Some(answer)) => answer,
            (None, None) => Answer::Outside,
            (Some(store), None) if is_read(call) => run_on(&held.image, store, call, MAX_IMAGE),
            (Some(_), None) => {
                let mut store = Store::from_image(&held.image).expect("it was one before");
                run_on(&held.image, &mut store, call, MAX_IMAGE)
            }
        };
        let (bytes, image, marks) = (self.bytes, &held.image, &held.marks);
        let places = || held.places.get_or_init(|| Places::new(bytes, image, marks));
        reply(call, answer, places)
    }
}

/// With a target of `room` bytes: "5 stands for: the new image is over 65,536 bytes or over the lent target".
pub fn within(reply: &Reply, room: usize) -> Reply {
    match reply {
        Reply::Image(new) if new.len() > room => Reply::Refused(5),
        other => other.clone(),
    }
}

pub fn is_read(call: &Call) -> bool {
    sort(call) < 9
}

/// The number of a call's sort, reads first.
pub fn sort(call: &Call) -> usize {
    match call {
        Call::Exists { .. } => 0,
        Call::Type { .. } => 1,
        Call::Child { .. } => 2,
        Call::Attr { .. } => 3,
        Call::List { .. } => 4,
        Call::Link { .. } => 5,
        Call::Parent { .. } => 6,
        Call::Xattr { .. } => 7,
        Call::Names { .. } => 8,
        Call::Insert { .. } => 9,
        Call::Tombstone { .. } => 10,
        Call::Add { .. } => 11,
        Call::Remove { .. } => 12,
        Call::SetParent { .. } => 13,
        Call::Update { .. } => 14,
        Call::Normalise { .. } => 15,
        Call::Freeze { .. } => 16,
        Call::Fold => 17,
        Call::Pop { .. } => 18,
        Call::Snapshot => 19,
        Call::Note { .. } => 20,
        Call::Request { .. } => 21,
    }
}

pub const SORTS: [&str; 22] = [
    "exists",
    "type",
    "child",
    "attr",
    "list",
    "link",
    "parent",
    "xattr",
    "names",
    "insert",
    "tombstone",
    "add",
    "remove",
    "setparent",
    "update",
    "normalise",
    "freeze",
    "fold",
    "pop",
    "snapshot",
    "note",
    "request",
];

fn text(start: impl FnOnce() -> usize, text: Vec<u8>) -> Reply {
    Reply::Text { start: if text.is_empty() { 0 } else { start() }, text }
}

fn reply<'p, 'a: 'p>(call: &Call, answer: Answer, places: impl Fn() -> &'p Places<'a>) -> Reply {
    match (answer, call) {
        (Answer::Text(link), Call::Link { inode }) => text(|| places().target(*inode), link),
        (Answer::Text(value), Call::Xattr { inode, name }) => text(|| places().value(*inode, name), value),
        (Answer::Entries(list), Call::List { inode, .. }) => {
            let row = |(name, child): &(Vec<u8>, u64)| Row {
                start: places().entry(*inode, name),
                length: name.len(),
                inode: *child,
            };
            Reply::Rows(list.iter().map(row).collect())
        }
        (Answer::Names(list), Call::Names { inode, .. }) => {
            let row = |name: &Vec<u8>| Row { start: places().attribute(*inode, name), length: name.len(), inode: 0 };
            Reply::Rows(list.iter().map(row).collect())
        }
        (Answer::Text(_) | Answer::Entries(_) | Answer::Names(_), _) => unreachable!("an answer of another call"),
        (Answer::Refused(number), _) => Reply::Refused(number),
        (Answer::Outside, _) => Reply::Outside,
        (Answer::None, _) => Reply::None,
        (Answer::Truth(truth), _) => Reply::Truth(truth),
        (Answer::Type(kind), _) => Reply::Type(kind),
        (Answer::Inode(inode), _) => Reply::Inode(inode),
        (Answer::Attr(attr), _) => Reply::Attr(attr),
        (Answer::Image(new), _) => Reply::Image(new),
    }
}
