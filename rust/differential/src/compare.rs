//! Both sides asked the same, and what they say held together.

use crate::judge::{Judge, Reply, SORTS, is_read, sort, within};
use crate::port::Port;
use oracle::calls::Call;
use oracle::image::MAX_IMAGE;
use std::panic::{AssertUnwindSafe, catch_unwind};

/// A call that the port answers differently.
#[derive(Debug, Clone)]
pub struct Difference {
    pub image: Vec<u8>,
    pub call: Call,
    pub room: usize,
    pub want: Reply,
    pub got: Reply,
}

pub type Held<T> = Result<T, Box<Difference>>;

/// How many answers of each sort were compared, for each call.
#[derive(Default, Clone)]
pub struct Tally {
    pub calls: u64,
    /// Refused with each number (0: none), none, some; by the sort of the call.
    pub refused: [[u64; 12]; SORTS.len()],
    pub none: [u64; SORTS.len()],
    pub some: [u64; SORTS.len()],
}

impl Tally {
    fn count(&mut self, call: &Call, want: &Reply) {
        let sort = sort(call);
        self.calls += 1;
        match want {
            Reply::Refused(number) => self.refused[sort][*number as usize] += 1,
            Reply::None | Reply::Truth(false) => self.none[sort] += 1,
            _ => self.some[sort] += 1,
        }
    }
}

#[derive(Default)]
pub struct Comparer {
    pub port: Port,
    pub tally: Tally,
}

/// The Rust's answer; where it panics, that is what it answers.
fn want(judge: &mut Judge, call: &Call) -> Reply {
    catch_unwind(AssertUnwindSafe(|| judge.reply(call)))
        .unwrap_or_else(|_| Reply::Broken("the published Rust panics".to_string()))
}

impl Comparer {
    fn hold(&mut self, judge: &Judge, call: &Call, room: usize, want: Reply) -> Held<Reply> {
        let got = self.port.run(judge.bytes, call, room);
        self.tally.count(call, &want);
        if want.admits(&got) {
            return Ok(got);
        }
        Err(Box::new(Difference { image: judge.bytes.to_vec(), call: call.clone(), room, want, got }))
    }

    pub fn read(&mut self, judge: &mut Judge, call: &Call) -> Held<Reply> {
        let want = want(judge, call);
        self.hold(judge, call, 0, want)
    }

    /// A change in a target with room for any image; the new image.
    pub fn change(&mut self, judge: &mut Judge, call: &Call) -> Held<Option<Vec<u8>>> {
        let want = want(judge, call);
        self.made(judge, call, MAX_IMAGE, want)
    }

    /// A change in targets of exactly the length needed, one less, none at all, and more than any image has.
    pub fn change_in_each_room(&mut self, judge: &mut Judge, call: &Call) -> Held<Option<Vec<u8>>> {
        let want = want(judge, call);
        let rooms = match &want {
            Reply::Image(new) => [new.len(), new.len() - 1, 0, MAX_IMAGE + 1],
            _ => [0, 1, judge.bytes.len(), MAX_IMAGE],
        };
        for room in rooms {
            self.made(judge, call, room, within(&want, room))?;
        }
        self.made(judge, call, MAX_IMAGE, want)
    }

    /// A change in a target of any length.
    pub fn change_in(&mut self, judge: &mut Judge, call: &Call, room: usize) -> Held<Option<Vec<u8>>> {
        let want = within(&want(judge, call), room);
        self.made(judge, call, room, want)
    }

    fn made(&mut self, judge: &Judge, call: &Call, room: usize, want: Reply) -> Held<Option<Vec<u8>>> {
        match self.hold(judge, call, room, want)? {
            Reply::Image(new) => Ok(Some(new)),
            _ => Ok(None),
        }
    }

    /// Asks once more, from nothing, for the shrinking: the difference, if there is one.
    pub fn again(&mut self, image: &[u8], call: &Call, room: usize) -> Option<Difference> {
        let mut judge = catch_unwind(|| Judge::new(image)).ok()?;
        let asked = if is_read(call) {
            self.read(&mut judge, call).map(drop)
        } else {
            self.change_in(&mut judge, call, room).map(drop)
        };
        asked.err().map(|difference| *difference)
    }

    /// Every read of every inode that the image has, and of others, by every name that it has, and by others.
    pub fn every_read(&mut self, judge: &mut Judge) -> Held<()> {
        let (inodes, names) = judge.image().map_or_else(|| (vec![0, 1], vec![b"a".to_vec()]), subjects);
        for &inode in &inodes {
            for call in [
                Call::Exists { inode },
                Call::Type { inode },
                Call::Attr { inode },
                Call::Link { inode },
                Call::Parent { inode },
            ] {
                self.read(judge, &call)?;
            }
            for name in &names {
                self.read(judge, &Call::Child { inode, name: name.clone() })?;
                self.read(judge, &Call::Xattr { inode, name: name.clone() })?;
            }
            self.listings(judge, inode)?;
        }
        Ok(())
    }

    /// Both listings in rows that are enough, exactly as many as needed, and one fewer.
    pub fn listings(&mut self, judge: &mut Judge, inode: u64) -> Held<()> {
        let enough = judge.bytes.len() / 2 + 1;
        for list in [|inode, rows| Call::List { inode, rows }, |inode, rows| Call::Names { inode, rows }] {
            if let Reply::Rows(rows) = self.read(judge, &list(inode, enough))? {
                self.read(judge, &list(inode, rows.len()))?;
                if !rows.is_empty() {
                    self.read(judge, &list(inode, rows.len() - 1))?;
                }
            }
        }
        Ok(())
    }
}

/// At most so many inodes and names are asked for in one image.
const MOST_SUBJECTS: usize = 24;

/// Inodes and names of an image, with some that it hasn't.
fn subjects(image: &oracle::image::Image) -> (Vec<u64>, Vec<Vec<u8>>) {
    use oracle::image::{Body, Change, Record};
    let mut inodes = std::collections::BTreeSet::from([0, 1, 7, u64::MAX]);
    let mut names = std::collections::BTreeSet::from([vec![], b"absent".to_vec(), vec![b'n'; 255], vec![b'n'; 256]]);
    for (&inode, node) in &image.base {
        inodes.insert(inode);
        names.extend(node.attributes.keys().cloned());
        if let Body::Directory { entries, .. } = &node.body {
            names.extend(entries.keys().cloned());
        }
    }
    let layers = image.batches.iter().map(|batch| &batch.records).chain([&image.live]);
    for (&inode, record) in layers.flatten() {
        inodes.insert(inode);
        if let Record::Delta(delta) = record {
            names.extend(delta.fields.attributes.iter().flatten().map(|(name, _)| name.clone()));
            if let Change::Directory { added, removed, .. } = &delta.change {
                names.extend(added.keys().cloned());
                names.extend(removed.iter().cloned());
            }
        }
    }
    (spread(inodes.into_iter().collect()), spread(names.into_iter().collect()))
}

/// Some of a long list, from all of it.
fn spread<T: Clone>(list: Vec<T>) -> Vec<T> {
    let step = list.len().div_ceil(MOST_SUBJECTS);
    list.into_iter().step_by(step).collect()
}
