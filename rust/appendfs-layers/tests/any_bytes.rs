//! Every call takes any bytes, and writes nothing but the new image: images that were damaged, and bytes from a fixed seed.

use appendfs_layers::{Entry, FlushReason, Image, Limits, Result, Time};

const GUARD: usize = 32;

/// A small generator (xorshift), so that a run can be repeated.
struct Seed(u64);

impl Seed {
    fn next(&mut self) -> u64 {
        self.0 ^= self.0 << 13;
        self.0 ^= self.0 >> 7;
        self.0 ^= self.0 << 17;
        self.0
    }

    fn below(&mut self, n: usize) -> usize {
        (self.next() % n as u64) as usize
    }

    fn bytes(&mut self, most: usize) -> Vec<u8> {
        let n = self.below(most + 1);
        (0..n).map(|_| self.next() as u8).collect()
    }
}

/// The reads. A text that comes back must be inside the image, or `Image` would answer none for it.
fn read_all(i: Image<'_>, ino: u64, name: &[u8]) -> bool {
    assert_eq!(i.has_link(ino), i.read_link(ino).map(|t| t.is_some()));
    assert_eq!(i.has_xattr(ino, name), i.get_xattr(ino, name).map(|t| t.is_some()));
    assert_eq!(i.exists(ino), i.file_type(ino).map(|t| t.is_some()));
    assert_eq!(i.lookup_child(ino, name).is_ok(), i.get_xattr(ino, name).is_ok());
    assert_eq!(i.parent_dir_inode(1).is_ok(), i.attr(ino).is_ok());
    let mark = Entry { start: 5, length: 6, inode: 7 };
    let mut rows = [mark; 4];
    let filled = i.list_directory(ino, &mut rows[..3]).map_or(0, |r| r.map_or(0, |es| es.len()));
    assert!(rows[filled..].iter().all(|&row| row == mark));
    assert!(rows[..filled].iter().all(|row| !row.name(i.bytes()).is_empty()));
    let mut rows = [mark; 4];
    let filled = i.list_xattrs(ino, &mut rows[..1]).map_or(0, |r| r.map_or(0, |names| names.len()));
    assert!(rows[filled..].iter().all(|&row| row == mark));
    i.attr(ino).is_ok()
}

/// The change at an index, with arguments from the seed.
fn change(seed: &mut Seed, which: usize, i: Image<'_>, target: &mut [u8]) -> Result<usize> {
    let (ino, other, name, delta) = (seed.next() % 6, seed.next() % 6, seed.bytes(3), seed.bytes(12));
    let time = Time::new(seed.next() as i64, (seed.next() % 1_100_000_000) as u32);
    match which {
        0 => i.insert_new_node(ino, &delta, target),
        1 => i.insert_new_node(
            ino,
            &[[1, 0, 0, 0, 0], [2, 0, 1, 9, 0], [4, 0, 0, 0, 0]][seed.below(3)][..5 - seed.below(3)],
            target,
        ),
        2 => i.tombstone(ino, target),
        3 => i.add_dir_entry(ino, &name, other, time, target),
        4 => i.remove_dir_entry(ino, &name, time, target),
        5 => i.update_dir_parent(ino, other, target),
        6 => i.update_attr_delta(ino, &delta, target),
        7 => i.update_attr_delta(ino, &[1, 0xFF, 3], target),
        8 => i.normalize_directory_deltas(other, target),
        9 => i.freeze_live(Limits { depth: 4, ..Limits::default() }, time, target),
        10 => i.fold_entries(target),
        11 => i.pop_flushed_batch(other, target),
        12 => i.record_mutation(seed.next() >> seed.below(64), target),
        13 => i.request([None, Some(FlushReason::Quiesce)][seed.below(2)], target),
        _ => i.snapshot_all(target),
    }
}

/// Makes a change into a target between guards, and looks at every byte around the new image.
fn guarded(seed: &mut Seed, which: usize, image: &[u8], room: usize) -> Option<Vec<u8>> {
    let mut buffer = vec![0xA5; GUARD + room + GUARD];
    let answer = change(seed, which, Image::new(image), &mut buffer[GUARD..GUARD + room]);
    let written = answer.unwrap_or(0);
    assert!(written <= room);
    assert!(buffer[..GUARD].iter().all(|&b| b == 0xA5));
    assert!(buffer[GUARD + written..].iter().all(|&b| b == 0xA5));
    answer.ok().map(|n| buffer[GUARD..GUARD + n].to_vec())
}

#[test]
fn any_bytes_are_judged() {
    let mut seed = Seed(0x9E37_79B9_7F4A_7C15);
    for _ in 0..3_000 {
        let bytes = seed.bytes(40);
        let name = seed.bytes(3);
        read_all(Image::new(&bytes), seed.next() % 4, &name);
        for which in 0..15 {
            guarded(&mut seed, which, &bytes, 64);
        }
    }
}

#[test]
fn damaged_images_are_judged() {
    let mut seed = Seed(0xD1B5_4A32_D192_ED03);
    let mut image = vec![0, 0, 0, 1, 0, 0, 0];
    let (mut fine, mut refused, mut grown) = (0, 0, 0);
    for _ in 0..20_000 {
        let which = seed.below(15);
        let room = [0, image.len(), 4096][seed.below(3)];
        if let Some(new) = guarded(&mut seed, which, &image, room) {
            // what a change writes is an image
            assert!(read_all(Image::new(&new), seed.next() % 6, b"a"));
            grown = grown.max(new.len());
            image = if new.len() < 3000 { new } else { vec![0, 0, 0, 1, 0, 0, 0] };
        }
        let mut damaged = image.clone();
        let at = seed.below(damaged.len());
        damaged[at] ^= 1 << seed.below(8);
        damaged.truncate(damaged.len() - seed.below(2));
        let name = seed.bytes(2);
        if read_all(Image::new(&damaged), seed.next() % 6, &name) {
            fine += 1;
        } else {
            refused += 1;
        }
        let which = seed.below(15);
        guarded(&mut seed, which, &damaged, 4096);
    }
    // the run met images of some size, and damage of both sorts
    assert!(fine > 1000 && refused > 1000 && grown > 100, "{fine} {refused} {grown}");
}
