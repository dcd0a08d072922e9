//! Long lists of calls, each on the image that the one before made.

use crate::compare::{Comparer, Held};
use crate::images::{Maker, Style};
use crate::judge::{Judge, Reply};
use crate::random::Random;
use oracle::builders::{directory, empty_store, node};
use oracle::calls::Call;
use oracle::image::{Body, Change, Delta, Image, MAX_IMAGE};

const DIRECTORY: u8 = 0;
const SYMLINK: u8 = 2;
/// The greatest fresh inode.
const MOST_INODES: u64 = 40;

/// One random image: every read, each change in each room.
pub fn one_image(comparer: &mut Comparer, random: &mut Random) -> Held<()> {
    let style = Style::any(random);
    let mut maker = Maker { random, style };
    let image = maker.image();
    let mut judge = Judge::new(&image);
    comparer.every_read(&mut judge)?;
    for sort in 0..13 {
        let call = maker.change_call(sort);
        let call = fitting(&mut maker, &judge, call);
        comparer.change_in_each_room(&mut judge, &call)?;
    }
    Ok(())
}

/// A pop of the front more often than chance would have it; limits of freeze around the counts that there are.
fn fitting(maker: &mut Maker, judge: &Judge, call: Call) -> Call {
    let Some(image) = judge.image() else { return call };
    match call {
        Call::Pop { .. } if !image.batches.is_empty() && !maker.random.chance(4) => {
            Call::Pop { id: image.batches[0].id }
        }
        Call::Freeze { now, .. } if maker.random.chance(3) => {
            let mut near = |count: u64| match maker.random.below(6) {
                0 => count.saturating_sub(1),
                1 => count,
                2 => count + 1,
                _ => u64::MAX,
            };
            let sum =
                |of: fn(&oracle::image::Batch) -> u32| image.batches.iter().map(|b| u64::from(of(b))).sum::<u64>();
            Call::Freeze {
                depth: near(image.batches.len() as u64),
                bytes: near(sum(|b| b.bytes)),
                operations: near(sum(|b| b.operations)),
                now,
            }
        }
        other => other,
    }
}

/// Any calls, one after the other, from any image.
pub fn disorderly(comparer: &mut Comparer, random: &mut Random) -> Held<()> {
    let style = Style::any(random);
    let mut maker = Maker { random, style };
    let mut image = if maker.random.chance(3) { empty_store().write() } else { maker.image() };
    for _ in 0..20 + maker.random.below(100) {
        let mut judge = Judge::new(&image);
        let sort = maker.random.below(13);
        let call = maker.change_call(sort);
        let call = fitting(&mut maker, &judge, call);
        let room = any_room(maker.random, image.len());
        let new = comparer.change_in(&mut judge, &call, room)?;
        some_reads(comparer, &mut judge, &mut maker)?;
        image = new.unwrap_or(image);
    }
    comparer.every_read(&mut Judge::new(&image))
}

fn any_room(random: &mut Random, length: usize) -> usize {
    match random.below(6) {
        0 => (length + random.below(12) as usize).saturating_sub(4),
        1 => random.below(length as u64 + 1) as usize,
        _ => MAX_IMAGE,
    }
}

fn some_reads(comparer: &mut Comparer, judge: &mut Judge, maker: &mut Maker) -> Held<()> {
    for _ in 0..6 {
        let sort = maker.random.below(9);
        comparer.read(judge, &maker.read(sort))?;
    }
    Ok(())
}

/// Calls within document 01's conditions, from a small tree: freezes, folds and pops fall between all of them.
pub fn orderly(comparer: &mut Comparer, random: &mut Random) -> Held<()> {
    let style = Style::any(random);
    let mut maker = Maker { random, style };
    let mut tree = empty_store();
    tree.base.insert(1, directory(1, &[("a", 2), ("b", 3)]));
    tree.base.insert(2, directory(1, &[("\u{e9}", 3)]));
    tree.base.insert(3, node(Body::File { size: 5 }));
    let mut image = tree.write();
    let mut fresh = 4;
    for _ in 0..20 + maker.random.below(150) {
        let mut judge = Judge::new(&image);
        let call = orderly_call(comparer, &mut judge, &mut maker, &mut fresh)?;
        let new = comparer.change(&mut judge, &call)?;
        some_reads(comparer, &mut judge, &mut maker)?;
        let Some(new) = new else { continue };
        image = between(comparer, &mut maker, &call, new)?;
    }
    comparer.every_read(&mut Judge::new(&image))
}

/// After a fold the batch is there still: reads at this place too, and now and then the fold once more.
fn between(comparer: &mut Comparer, maker: &mut Maker, call: &Call, image: Vec<u8>) -> Held<Vec<u8>> {
    if *call != Call::Fold {
        return Ok(image);
    }
    let mut judge = Judge::new(&image);
    some_reads(comparer, &mut judge, maker)?;
    if maker.random.chance(3) {
        return Ok(image);
    }
    let id = judge.image().expect("an image").batches[0].id;
    Ok(comparer.change_in_each_room(&mut judge, &Call::Pop { id })?.expect("the front's id"))
}

fn orderly_call(comparer: &mut Comparer, judge: &mut Judge, maker: &mut Maker, fresh: &mut u64) -> Held<Call> {
    let inode = 1 + maker.random.below(*fresh - 1);
    let kind = match comparer.read(judge, &Call::Type { inode })? {
        Reply::Type(kind) => Some(kind),
        _ => None,
    };
    let image: &Image = judge.image().expect("an image");
    let directory = kind == Some(DIRECTORY);
    let other = 1 + maker.random.below(*fresh - 1);
    Ok(match maker.random.below(16) {
        0..=2 if *fresh < MOST_INODES => {
            *fresh += 1;
            Call::Insert { inode: *fresh - 1, delta: complete(maker, inode).write() }
        }
        3..=5 if directory => Call::Add { parent: inode, name: maker.name(), child: other, now: maker.random.time() },
        6 | 7 if directory => Call::Remove { parent: inode, name: maker.name(), now: maker.random.time() },
        8 if directory => Call::SetParent { inode, parent: other },
        9 if inode != 1 => Call::Tombstone { inode },
        10 | 11 if !image.live.is_empty() => {
            let most = u64::MAX;
            Call::Freeze { depth: most, bytes: most, operations: most, now: maker.random.time() }
        }
        12 if !image.batches.is_empty() => Call::Fold,
        13 => Call::Normalise { position: maker.random.below(image.batches.len() as u64 + 1) },
        14 if maker.random.chance(2) => Call::Request { reason: maker.random.below(6) },
        14 => Call::Note { bytes: maker.random.below(500) },
        _ => {
            let mut fields = maker.fields(4);
            fields.mode = fields.mode.filter(|_| kind != Some(SYMLINK));
            Call::Update { inode, fields: fields.write() }
        }
    })
}

/// A delta that may stand on nothing.
fn complete(maker: &mut Maker, parent: u64) -> Delta {
    let mut delta = maker.delta();
    match &mut delta.change {
        Change::Directory { parent: above, removed, .. } => {
            *above = Some(parent);
            removed.clear();
        }
        Change::Symlink { target } => {
            target.get_or_insert_with(|| b"t".to_vec());
            delta.fields.mode = None;
        }
        _ => {}
    }
    delta
}
