//! Where the texts of an image stand, for the answers that are parts of it.

use oracle::image::{Body, Change, Delta, Image, Record};
use std::collections::HashMap;

/// A name, and where what stands under it begins, if that is a text.
struct Named {
    start: usize,
    length: usize,
    under: usize,
}

/// The texts that one layer has of one inode; both lists rise by name.
#[derive(Default)]
struct Texts {
    /// Entries of a base directory, or those that a delta adds.
    entries: Vec<Named>,
    /// Attributes that the layer sets.
    attributes: Vec<Named>,
    target: Option<usize>,
}

/// Of each inode the base first, then the front, live last.
pub struct Places<'a> {
    bytes: &'a [u8],
    stacks: HashMap<u64, Vec<Texts>>,
}

impl<'a> Places<'a> {
    /// `marks` are the starts of all texts, in the order of the layout.
    pub fn new(bytes: &'a [u8], image: &Image, marks: &[usize]) -> Places<'a> {
        let mut marks = marks.iter().copied();
        let mut stacks: HashMap<u64, Vec<Texts>> = HashMap::new();
        for (&inode, node) in &image.base {
            let mut texts = Texts::default();
            for name in node.attributes.keys() {
                texts.attributes.push(named(name, &mut marks, true));
            }
            match &node.body {
                Body::Directory { entries, .. } => {
                    texts.entries.extend(entries.keys().map(|name| named(name, &mut marks, false)));
                }
                Body::Symlink { .. } => texts.target = marks.next(),
                _ => {}
            }
            stacks.entry(inode).or_default().push(texts);
        }
        let layers = image.batches.iter().map(|batch| &batch.records).chain([&image.live]);
        for (&inode, record) in layers.flatten() {
            if let Record::Delta(delta) = record {
                stacks.entry(inode).or_default().push(delta_texts(delta, &mut marks));
            }
        }
        assert_eq!(marks.next(), None, "every text has its place");
        Places { bytes, stacks }
    }

    fn find<'p>(&self, list: &'p [Named], name: &[u8]) -> Option<&'p Named> {
        let at = list.binary_search_by(|n| self.bytes[n.start..n.start + n.length].cmp(name)).ok()?;
        Some(&list[at])
    }

    fn top<T>(&self, inode: u64, find: impl Fn(&Texts) -> Option<T>) -> Option<T> {
        self.stacks.get(&inode)?.iter().rev().find_map(find)
    }

    /// "The start is in the highest layer that adds the name, else in the base."
    pub fn entry(&self, inode: u64, name: &[u8]) -> usize {
        self.top(inode, |texts| Some(self.find(&texts.entries, name)?.start)).expect("a listed name stands somewhere")
    }

    /// The name "by the highest layer that sets" it.
    pub fn attribute(&self, inode: u64, name: &[u8]) -> usize {
        self.top(inode, |texts| Some(self.find(&texts.attributes, name)?.start))
            .expect("a listed name stands somewhere")
    }

    /// The topmost value.
    pub fn value(&self, inode: u64, name: &[u8]) -> usize {
        self.top(inode, |texts| Some(self.find(&texts.attributes, name)?.under))
            .expect("a shown value stands somewhere")
    }

    /// The topmost target.
    pub fn target(&self, inode: u64) -> usize {
        self.top(inode, |texts| texts.target).expect("a shown target stands somewhere")
    }
}

fn named(name: &[u8], marks: &mut impl Iterator<Item = usize>, text: bool) -> Named {
    let start = marks.next().expect("a name");
    let under = if text { marks.next().expect("a value") } else { 0 };
    Named { start, length: name.len(), under }
}

fn delta_texts(delta: &Delta, marks: &mut impl Iterator<Item = usize>) -> Texts {
    let mut texts = Texts::default();
    for (name, value) in delta.fields.attributes.iter().flatten() {
        let place = named(name, marks, value.is_some());
        texts.attributes.extend(value.is_some().then_some(place));
    }
    match &delta.change {
        Change::Directory { added, removed, .. } => {
            texts.entries.extend(added.keys().map(|name| named(name, marks, false)));
            marks.take(removed.len()).for_each(drop);
        }
        Change::Symlink { target: Some(_) } => texts.target = marks.next(),
        _ => {}
    }
    texts
}
