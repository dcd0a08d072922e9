//! The examples of document 01, run on the Rust.

use oracle::builders::{
    NOW, base, changed, directory, directory_delta, file_delta, freeze, freeze_fold_pop, symlink_delta,
};
use oracle::calls::{Answer, Call, run};
use oracle::image::{Bad, Delta, Fields, Image, MAX_IMAGE, read_number};
use oracle::store::Store;

fn bytes(hex: &str) -> Vec<u8> {
    hex.split_ascii_whitespace().map(|b| u8::from_str_radix(b, 16).unwrap()).collect()
}

fn empty_store() -> Vec<u8> {
    bytes("00 00 00 01 00 00 00")
}

fn read(image: &[u8], call: Call) -> Answer {
    run(image, &call, 0)
}

fn child(image: &[u8], inode: u64, name: &str) -> Answer {
    read(image, Call::Child { inode, name: name.as_bytes().to_vec() })
}

fn perm(image: &[u8], inode: u64) -> Option<u32> {
    match read(image, Call::Attr { inode }) {
        Answer::Attr(a) => Some(a.perm),
        _ => None,
    }
}

#[test]
fn root_on_paper() {
    let image = bytes("01 01 00 ED 03 02 00 00 00 00 00 00 00 00 00 01 00 00 00 01 00 00 00");
    assert_eq!(Image::read(&image).unwrap().write(), image);
    assert_eq!(base([(1, directory(1, &[]))]).write(), image);
}

#[test]
fn p01_empty_store() {
    let image = Image::read(&empty_store()).unwrap();
    assert_eq!(image, oracle::builders::empty_store());
    assert_eq!(Store::from_image(&image).unwrap().to_image(), image);
    assert_eq!(image.write(), empty_store());
}

#[test]
fn p02_without_its_last_byte() {
    assert_eq!(read(&empty_store()[..6], Call::Exists { inode: 1 }), Answer::Refused(2));
}

#[test]
fn p03_number() {
    assert_eq!(read_number(&bytes("80 00")), Err(Bad));
    assert_eq!(read_number(&bytes("AC 02")), Ok(300));
    assert_eq!(read_number(&bytes("FF FF FF FF FF FF FF FF FF 01")), Ok(u64::MAX));
    assert_eq!(read_number(&bytes("80 80 80 80 80 80 80 80 80 02")), Err(Bad));
}

#[test]
fn p04_parents() {
    assert_eq!(read(&empty_store(), Call::Parent { inode: 1 }), Answer::Inode(1));
    assert_eq!(read(&empty_store(), Call::Parent { inode: 2 }), Answer::None);
}

#[test]
fn p05_add_to_missing_inode() {
    let image = changed(&empty_store(), Call::Add { parent: 9, name: b"a".to_vec(), child: 5, now: NOW });
    assert_eq!(read(&image, Call::Type { inode: 9 }), Answer::Type(0));
    assert_eq!(read(&image, Call::Parent { inode: 9 }), Answer::None);
    let image = freeze_fold_pop(&image);
    assert_eq!(read(&image, Call::Parent { inode: 9 }), Answer::Inode(1));
}

#[test]
fn p06_name_added_and_removed() {
    let delta = directory_delta(None, &[("a", 7)], &["a"]).write();
    let image = changed(&empty_store(), Call::Insert { inode: 5, delta });
    assert_eq!(child(&image, 5, "a"), Answer::None);
    assert_eq!(read(&image, Call::List { inode: 5, rows: 9 }), Answer::Entries(vec![(b"a".to_vec(), 7)]));
    assert_eq!(read(&image, Call::List { inode: 5, rows: 0 }), Answer::Refused(5));
}

#[test]
fn p07_symlink_mode() {
    let fields = Fields { mode: Some(0o600), ..Fields::default() };
    let delta = Delta { fields, ..symlink_delta(Some("t")) }.write();
    let image = changed(&empty_store(), Call::Insert { inode: 5, delta });
    assert_eq!(perm(&image, 5), Some(0o600));
    let image = freeze_fold_pop(&image);
    assert_eq!(perm(&image, 5), Some(0o777));
    // What the base holds is the mode given.
    assert_eq!(Image::read(&image).unwrap().base[&5].perm, 0o600);
}

#[test]
fn p08_tombstone_then_insert() {
    let image = base([(5, directory(1, &[("a", 7)]))]).write();
    assert_eq!(child(&image, 5, "a"), Answer::Inode(7));
    let image = changed(&image, Call::Tombstone { inode: 5 });
    assert_eq!(child(&image, 5, "a"), Answer::None);
    let image = changed(&image, Call::Insert { inode: 5, delta: directory_delta(None, &[], &[]).write() });
    assert_eq!(child(&image, 5, "a"), Answer::Inode(7));
}

#[test]
fn p09_freeze_empty_live() {
    assert_eq!(run(&empty_store(), &freeze(), MAX_IMAGE), Answer::Refused(7));
    let full = Call::Freeze { depth: 0, bytes: 1, operations: 1, now: NOW };
    assert_eq!(run(&empty_store(), &full, MAX_IMAGE), Answer::Refused(6));
    // The Rust says only `false` to both, and alters nothing.
    for depth in [0, 1] {
        let mut store = Store::from_image(&Image::read(&empty_store()).unwrap()).unwrap();
        assert!(!store.freeze(depth, 1, 1, NOW));
        assert_eq!(store.to_image().write(), empty_store());
    }
}

#[test]
fn p10_file_without_links() {
    let fields = Fields { links: Some(0), ..Fields::default() };
    let delta = Delta { fields, ..file_delta(None) }.write();
    let image = changed(&empty_store(), Call::Insert { inode: 5, delta });
    let folded = freeze_fold_pop(&image);
    assert!(Image::read(&folded).unwrap().base.contains_key(&5));
    let snapshot = changed(&image, Call::Snapshot);
    assert!(Image::read(&snapshot).unwrap().base.is_empty());
    let snapshot = changed(&folded, Call::Snapshot);
    assert!(Image::read(&snapshot).unwrap().base.is_empty());
}

#[test]
fn p11_normalised_empty() {
    let live = directory_delta(None, &[("a", 7)], &["b"]).record();
    let image = base([(5, directory(1, &[("a", 7)]))]).live([(5, live)]).write();
    let image = changed(&image, Call::Normalise { position: 0 });
    assert_eq!(Image::read(&image).unwrap().live[&5], directory_delta(None, &[], &[]).record());
}

#[test]
fn p12_sizes_and_names() {
    // The writer knows no limit; the reader does.
    let delta = |size| file_delta(Some(size)).write();
    let most = (1 << 63) - 1;
    let image = changed(&empty_store(), Call::Insert { inode: 5, delta: delta(most) });
    let Answer::Attr(a) = read(&image, Call::Attr { inode: 5 }) else { panic!() };
    assert_eq!(a.size, i64::MAX);
    let folded = freeze_fold_pop(&image);
    let Answer::Attr(a) = read(&folded, Call::Attr { inode: 5 }) else { panic!() };
    assert_eq!(a.size, i64::MAX);
    assert_eq!(run(&empty_store(), &Call::Insert { inode: 5, delta: delta(1 << 63) }, MAX_IMAGE), Answer::Refused(4));

    assert_eq!(child(&empty_store(), 5, &"n".repeat(255)), Answer::None);
    assert_eq!(child(&empty_store(), 5, &"n".repeat(256)), Answer::Refused(3));
    assert_eq!(child(&empty_store(), 5, ""), Answer::Refused(3));
}

#[test]
fn pop_panics_become_8_and_9() {
    let quiet = std::panic::take_hook();
    std::panic::set_hook(Box::new(|_| {}));
    let pop = |image: &[u8], id: u64| {
        let mut store = Store::from_image(&Image::read(image).unwrap()).unwrap();
        std::panic::catch_unwind(std::panic::AssertUnwindSafe(|| store.pop(id))).is_err()
    };
    let one = changed(&changed(&empty_store(), Call::Tombstone { inode: 3 }), freeze());
    let none = pop(&empty_store(), 1);
    let other = pop(&one, 2);
    let same = pop(&one, 1);
    std::panic::set_hook(quiet);
    assert!(none && other && !same);
    assert_eq!(run(&empty_store(), &Call::Pop { id: 1 }, MAX_IMAGE), Answer::Refused(8));
    assert_eq!(run(&one, &Call::Pop { id: 2 }, MAX_IMAGE), Answer::Refused(9));
}
