//! The reads and changes on document 01's images, and each refusal.

use appendfs_layers::{Entry, FileType, FlushReason, IMAGE_MAX, Image, Limits, Refusal, Result, Time};

/// Document 01, "Root on paper".
const ROOT: [u8; 23] = [1, 1, 0, 0xED, 3, 2, 0, 0, 0, 0, 0, 0, 0, 0, 0, 1, 0, 0, 0, 1, 0, 0, 0];
/// Document 01, P1.
const EMPTY: [u8; 7] = [0, 0, 0, 1, 0, 0, 0];
/// A record of a file of 300 bytes, mode 640 (octal), user.blade = 2.
const FILE: [u8; 23] = *b"\x02\x81\x02\xA0\x03\x01\x0Auser.blade\x01\x012\x01\xAC\x02";
/// A record of a link to offset.
const LINK: [u8; 10] = *b"\x03\x00\x01\x06offset";

/// An image of its own, changed by calls.
#[derive(Clone)]
struct Store(Vec<u8>);

impl Store {
    fn new(bytes: &[u8]) -> Store {
        Store(bytes.to_vec())
    }

    fn image(&self) -> Image<'_> {
        Image::new(&self.0)
    }

    fn change(&mut self, call: impl FnOnce(Image<'_>, &mut [u8]) -> Result<usize>) -> Result<()> {
        let mut target = vec![0; IMAGE_MAX];
        let length = call(self.image(), &mut target)?;
        target.truncate(length);
        self.0 = target;
        Ok(())
    }

    /// The root with the file 2, as offset, and the link 3, all live.
    fn with_files() -> Store {
        let mut s = Store::new(&ROOT);
        s.change(|i, t| i.insert_new_node(2, &FILE, t)).unwrap();
        s.change(|i, t| i.insert_new_node(3, &LINK, t)).unwrap();
        s.change(|i, t| i.add_dir_entry(1, "offset", 2, Time::new(-5, 999_999_999), t)).unwrap();
        s
    }

    fn freeze(&mut self) {
        self.change(|i, t| i.freeze_live(Limits::default(), Time::new(9, 0), t)).unwrap();
    }
}

/// What with_files shows.
fn shows_files(i: Image<'_>) {
    assert_eq!(i.exists(2), Ok(true));
    assert_eq!(i.exists(4), Ok(false));
    assert_eq!(i.file_type(3), Ok(Some(FileType::Symlink)));
    assert_eq!(i.file_type(4), Ok(None));
    let file = i.attr(2).unwrap().unwrap();
    assert_eq!((file.ino, file.file_type, file.perm), (2, FileType::RegularFile, 0o640));
    assert_eq!((file.nlink, file.uid, file.gid, file.rdev, file.size), (1, 0, 0, 0, 300));
    let root = i.attr(1).unwrap().unwrap();
    assert_eq!(
        (root.atime, root.mtime, root.ctime),
        (Time::default(), Time::new(-5, 999_999_999), Time::new(-5, 999_999_999))
    );
    assert_eq!(i.attr(4), Ok(None));
    assert_eq!(i.lookup_child(1, "offset"), Ok(Some(2)));
    assert_eq!(i.lookup_child(1, "other"), Ok(None));
    assert_eq!(i.parent_dir_inode(1), Ok(Some(1)));
    assert_eq!(i.parent_dir_inode(2), Ok(None));
    assert_eq!(i.read_link(3), Ok(Some(&b"offset"[..])));
    assert_eq!(i.read_link(2), Ok(None));
    assert_eq!((i.has_link(3), i.has_link(2)), (Ok(true), Ok(false)));
    assert_eq!(i.get_xattr(2, "user.blade"), Ok(Some(&b"2"[..])));
    assert_eq!(i.get_xattr(2, "user.other"), Ok(None));
    assert_eq!((i.has_xattr(2, "user.blade"), i.has_xattr(3, "user.blade")), (Ok(true), Ok(false)));
}

type Names = Vec<(Vec<u8>, u64)>;

fn names(i: Image<'_>, ino: u64) -> Result<Option<Names>> {
    let mut rows = [Entry::default(); 8];
    Ok(i.list_directory(ino, &mut rows)?.map(|es| es.map(|(name, ino)| (name.to_vec(), ino)).collect()))
}

#[test]
fn listings_rise_and_leave_the_rows_behind() {
    let mut s = Store::with_files();
    s.change(|i, t| i.add_dir_entry(1, "a", 3, Time::default(), t)).unwrap();
    s.freeze();
    s.change(|i, t| i.add_dir_entry(1, "z", 9, Time::default(), t)).unwrap();
    s.change(|i, t| i.remove_dir_entry(1, "offset", Time::default(), t)).unwrap();
    assert_eq!(names(s.image(), 1), Ok(Some(vec![(b"a".to_vec(), 3), (b"z".to_vec(), 9)])));
    assert_eq!(names(s.image(), 2), Ok(None), "a file has no listing");
    assert_eq!(names(s.image(), 7), Ok(None), "nothing has no listing");

    let mark = Entry { start: 5, length: 6, inode: 7 };
    let mut rows = [mark; 3];
    assert_eq!(s.image().list_directory(1, &mut rows).unwrap().unwrap().len(), 2);
    assert_eq!((rows[0].inode, rows[1].inode, rows[2]), (3, 9, mark));
    let mut few = [mark; 1];
    assert_eq!(s.image().list_directory(1, &mut few).map(|_| ()), Err(Refusal::NoRoom));
    assert_eq!(few, [mark]);
    assert_eq!(s.image().list_directory(1, &mut rows[..2]).unwrap().unwrap().len(), 2, "just enough");

    let attributes: Vec<&[u8]> = s.image().list_xattrs(2, &mut rows).unwrap().unwrap().collect();
    assert_eq!(attributes, [b"user.blade"]);
    assert_eq!(s.image().list_xattrs(3, &mut rows).unwrap().unwrap().len(), 0);
    assert!(s.image().list_xattrs(7, &mut rows).unwrap().is_none());
    assert_eq!(Image::new(&EMPTY[..6]).list_xattrs(2, &mut rows).map(|_| ()), Err(Refusal::ImageBroken));
}

#[test]
fn the_same_at_each_point_of_a_flush() {
    let mut s = Store::with_files();
    shows_files(s.image());
    s.change(|i, t| i.normalize_directory_deltas(0, t)).unwrap();
    shows_files(s.image());
    s.freeze();
    shows_files(s.image());
    s.change(|i, t| i.fold_entries(t)).unwrap();
    shows_files(s.image());
    s.change(|i, t| i.pop_flushed_batch(1, t)).unwrap();
    shows_files(s.image());
    s.change(|i, t| i.snapshot_all(t)).unwrap();
    shows_files(s.image());
}

#[test]
fn a_text_is_a_part_of_the_image() {
    let s = Store::with_files();
    let bytes = s.image().bytes();
    let text = s.image().read_link(3).unwrap().unwrap();
    assert!(bytes.as_ptr_range().contains(&text.as_ptr()));
}

#[test]
fn an_empty_text_is_not_none() {
    let mut s = Store::new(&ROOT);
    s.change(|i, t| i.insert_new_node(2, &[3, 0, 1, 0], t)).unwrap();
    assert_eq!(s.image().read_link(2), Ok(Some(&b""[..])));
    assert_eq!(s.image().has_link(2), Ok(true));
}

#[test]
fn each_kind_of_node() {
    let kinds = [
        (&[1, 0, 0, 0, 0][..], FileType::Directory, 0o755, 2, 0),
        (&[2, 0, 0][..], FileType::RegularFile, 0o644, 1, 0),
        (&[3, 0, 0][..], FileType::Symlink, 0o777, 1, 0),
        (&[4, 0, 0][..], FileType::NamedPipe, 0o644, 1, 0),
        (&[5, 0, 7][..], FileType::CharDevice, 0o660, 1, 7),
        (&[6, 0, 8][..], FileType::BlockDevice, 0o660, 1, 8),
        (&[7, 0, 0][..], FileType::Socket, 0o777, 1, 0),
    ];
    for (delta, kind, perm, links, device) in kinds {
        let mut s = Store::new(&EMPTY);
        s.change(|i, t| i.insert_new_node(5, delta, t)).unwrap();
        assert_eq!(s.image().file_type(5), Ok(Some(kind)));
        let a = s.image().attr(5).unwrap().unwrap();
        assert_eq!((a.ino, a.file_type, a.perm, a.nlink, a.rdev), (5, kind, perm, links, device));
    }
}

#[test]
fn owner_group_links_and_times_are_told_apart() {
    let mut s = Store::with_files();
    // mask: owner, group, links, atime, mtime, ctime
    let fields = [0x7E, 11, 12, 13, 2, 14, 4, 15, 6, 16];
    s.change(|i, t| i.update_attr_delta(2, &fields, t)).unwrap();
    let a = s.image().attr(2).unwrap().unwrap();
    assert_eq!((a.uid, a.gid, a.nlink), (11, 12, 13));
    assert_eq!((a.atime, a.mtime, a.ctime), (Time::new(1, 14), Time::new(2, 15), Time::new(3, 16)));
}

#[test]
fn names_parents_and_tombstones() {
    let mut s = Store::with_files();
    s.change(|i, t| i.remove_dir_entry(1, "offset", Time::new(1, 0), t)).unwrap();
    assert_eq!(s.image().lookup_child(1, "offset"), Ok(None));
    s.change(|i, t| i.insert_new_node(4, &[1, 0, 1, 1, 0, 0], t)).unwrap();
    assert_eq!(s.image().parent_dir_inode(4), Ok(Some(1)));
    s.change(|i, t| i.update_dir_parent(4, 9, t)).unwrap();
    assert_eq!(s.image().parent_dir_inode(4), Ok(Some(9)));
    s.change(|i, t| i.tombstone(4, t)).unwrap();
    assert_eq!(s.image().exists(4), Ok(false));
}

#[test]
fn staged_counts_and_requests_go_into_the_batch() {
    let mut s = Store::new(&EMPTY);
    s.change(|i, t| i.record_mutation(300, t)).unwrap();
    assert_eq!(s.0, [0, 0, 0, 1, 0xAC, 2, 1, 0]);
    for (reason, number) in [
        (FlushReason::Fsync, 1),
        (FlushReason::Fsyncdir, 2),
        (FlushReason::Quiesce, 3),
        (FlushReason::Periodic, 4),
        (FlushReason::Threshold, 5),
    ] {
        s.change(|i, t| i.request(Some(reason), t)).unwrap();
        assert_eq!(s.0, [0, 0, 0, 1, 0xAC, 2, 1, number]);
    }
    s.change(|i, t| i.request(None, t)).unwrap();
    assert_eq!(s.0, [0, 0, 0, 1, 0xAC, 2, 1, 0]);
}

// ---- the refusals, by their numbers

#[test]
fn refusal_1() {
    let long = vec![0; IMAGE_MAX + 1];
    assert_eq!(Image::new(&long).exists(1), Err(Refusal::ImageTooLong));
    assert_eq!(Image::new(&long).snapshot_all(&mut [0; 10]), Err(Refusal::ImageTooLong));
}

#[test]
fn refusal_2() {
    // P2: the empty store without its last byte; and nothing follows an image
    assert_eq!(Image::new(&EMPTY[..6]).attr(1), Err(Refusal::ImageBroken));
    assert_eq!(Image::new(&[]).read_link(1), Err(Refusal::ImageBroken));
    assert_eq!(Image::new(&[0, 0, 0, 1, 0, 0, 0, 0]).file_type(1), Err(Refusal::ImageBroken));
}

#[test]
fn refusal_3() {
    let s = Store::with_files();
    let long = [b'a'; 256];
    assert_eq!(s.image().lookup_child(1, ""), Err(Refusal::BadName));
    assert_eq!(s.image().lookup_child(1, long), Err(Refusal::BadName));
    assert_eq!(s.image().lookup_child(1, &long[..255]), Ok(None));
    assert_eq!(s.image().get_xattr(2, ""), Err(Refusal::BadName));
    assert_eq!(s.image().has_xattr(2, long), Err(Refusal::BadName));
    assert_eq!(s.image().add_dir_entry(1, "", 2, Time::default(), &mut [0; 200]), Err(Refusal::BadName));
    assert_eq!(s.image().remove_dir_entry(1, long, Time::default(), &mut [0; 500]), Err(Refusal::BadName));
}

#[test]
fn refusal_4() {
    let s = Store::with_files();
    let late = Time::new(0, 1_000_000_000);
    let mut t = [0; 500];
    assert_eq!(s.image().insert_new_node(9, &[0], &mut t), Err(Refusal::BadArgument), "a tombstone");
    assert_eq!(s.image().insert_new_node(9, &[], &mut t), Err(Refusal::BadArgument), "no bytes");
    assert_eq!(s.image().insert_new_node(9, &[2, 0, 0, 0], &mut t), Err(Refusal::BadArgument), "a byte left over");
    assert_eq!(s.image().update_attr_delta(2, &[0x80, 4], &mut t), Err(Refusal::BadArgument), "a bit too high");
    assert_eq!(s.image().add_dir_entry(1, "a", 2, late, &mut t), Err(Refusal::BadArgument));
    assert_eq!(s.image().remove_dir_entry(1, "a", late, &mut t), Err(Refusal::BadArgument));
    assert_eq!(s.image().freeze_live(Limits::default(), late, &mut t), Err(Refusal::BadArgument));
}

#[test]
fn refusal_5_writes_nothing() {
    let mut s = Store::with_files();
    let whole = s.image().tombstone(2, &mut [0; 200]).unwrap();
    let mut target = vec![0xA5; whole - 1];
    assert_eq!(s.image().tombstone(2, &mut target), Err(Refusal::NoRoom));
    assert!(target.iter().all(|&b| b == 0xA5));
    assert_eq!(s.image().tombstone(2, &mut []), Err(Refusal::NoRoom));
    assert_eq!(s.image().tombstone(2, &mut vec![0; whole]), Ok(whole));
    s.freeze();
    assert_eq!(s.image().fold_entries(&mut []), Err(Refusal::NoRoom));
}

#[test]
fn refusal_6() {
    let mut s = Store::with_files();
    s.change(|i, t| i.record_mutation(300, t)).unwrap();
    s.freeze();
    let mut t = [0; 500];
    let none = Limits::default();
    for limits in [Limits { depth: 1, ..none }, Limits { bytes: 300, ..none }, Limits { operations: 1, ..none }] {
        assert_eq!(s.image().freeze_live(limits, Time::default(), &mut t), Err(Refusal::AtCapacity), "{limits:?}");
    }
}

#[test]
fn refusal_7() {
    assert_eq!(
        Image::new(&EMPTY).freeze_live(Limits::default(), Time::default(), &mut [0; 50]),
        Err(Refusal::LiveEmpty)
    );
}

#[test]
fn refusal_8() {
    assert_eq!(Image::new(&EMPTY).fold_entries(&mut [0; 50]), Err(Refusal::NoBatch));
    assert_eq!(Image::new(&EMPTY).pop_flushed_batch(1, &mut [0; 50]), Err(Refusal::NoBatch));
}

#[test]
fn refusal_9() {
    let mut s = Store::with_files();
    s.freeze();
    assert_eq!(s.image().pop_flushed_batch(2, &mut [0; 500]), Err(Refusal::WrongBatch));
    assert!(s.image().pop_flushed_batch(1, &mut [0; 500]).is_ok());
}

#[test]
fn refusal_10() {
    assert_eq!(Image::new(&EMPTY).record_mutation(1 << 32, &mut [0; 50]), Err(Refusal::CountFull));
    assert!(Image::new(&EMPTY).record_mutation((1 << 32) - 1, &mut [0; 50]).is_ok());
    // next id 2^64 - 1, and a tombstone of 1 in live
    let last = [0, 0, 1, 1, 0, 0xFF, 0xFF, 0xFF, 0xFF, 0xFF, 0xFF, 0xFF, 0xFF, 0xFF, 1, 0, 0, 0];
    assert_eq!(
        Image::new(&last).freeze_live(Limits::default(), Time::default(), &mut [0; 50]),
        Err(Refusal::CountFull)
    );
}

#[test]
fn refusal_11() {
    assert_eq!(Image::new(&EMPTY).normalize_directory_deltas(1, &mut [0; 50]), Err(Refusal::NoLayer));
    assert!(Image::new(&EMPTY).normalize_directory_deltas(0, &mut [0; 50]).is_ok());
}

#[test]
fn numbers_of_refusals() {
    for n in 0..20 {
        assert_eq!(Refusal::from_number(n).map(Refusal::number), (1..=11).contains(&n).then_some(n));
    }
}
