//! The fixed list of reads that crates/vectors replays, with the Rust's answers.

use crate::builders::{
    NOW, base, changed, delta, directory, directory_delta, empty_store, file_delta, freeze_fold_pop, node, symlink,
    symlink_delta,
};
use crate::calls::Call;
use crate::image::{Body, Change, Fields, Node, Record, Time};
use crate::lines::{answer, line};
use crate::random::Random;

const HEADING: &str =
    "Reads, answered by the published Rust. rust/oracle/build.sh makes this list and its answers again.";
const LAST: u64 = u64::MAX;

/// The lines of reads.in and of reads.out. A line that begins with `#` says what follows it.
#[derive(Default)]
pub struct List {
    pub reads: Vec<String>,
    pub answers: Vec<String>,
}

impl List {
    fn says(&mut self, text: &str) {
        self.reads.push(format!("# {text}"));
        self.answers.push(format!("# {text}"));
    }

    fn ask(&mut self, image: &[u8], call: Call) {
        let line = line(&call, image).expect("a read");
        self.answers.push(format!("{line} = {}", answer(&call, 0, image).expect("texts are UTF-8")));
        self.reads.push(line);
    }

    fn child(&mut self, image: &[u8], inode: u64, names: &[&str]) {
        for name in names {
            self.ask(image, Call::Child { inode, name: name.as_bytes().to_vec() });
        }
    }

    fn xattr(&mut self, image: &[u8], inode: u64, names: &[&str]) {
        for name in names {
            self.ask(image, Call::Xattr { inode, name: name.as_bytes().to_vec() });
        }
    }

    fn list(&mut self, image: &[u8], inode: u64, rows: &[usize]) {
        for &rows in rows {
            self.ask(image, Call::List { inode, rows });
        }
    }

    fn names(&mut self, image: &[u8], inode: u64, rows: &[usize]) {
        for &rows in rows {
            self.ask(image, Call::Names { inode, rows });
        }
    }

    fn shown(&mut self, image: &[u8], inode: u64) {
        self.ask(image, Call::Type { inode });
        self.ask(image, Call::Attr { inode });
        self.ask(image, Call::Link { inode });
        self.ask(image, Call::Parent { inode });
    }

    fn all(&mut self, image: &[u8], inode: u64) {
        self.ask(image, Call::Exists { inode });
        self.shown(image, inode);
        self.list(image, inode, &[8]);
    }
}

pub fn list() -> List {
    let mut list = List::default();
    list.says(HEADING);
    examples(&mut list);
    kinds(&mut list);
    layers(&mut list);
    attributes(&mut list);
    extended(&mut list);
    limits(&mut list);
    refused(&mut list);
    let mut random = Random::new(1);
    list.says("Random images that calls made, each within its condition.");
    for _ in 0..40 {
        ask_some(&mut list, &mut random, Random::orderly);
    }
    list.says("Random images of any layers.");
    for _ in 0..40 {
        ask_some(&mut list, &mut random, Random::disorderly);
    }
    list
}

/// Three reads of a random image. A long image is left out, and so are most reads that find nothing.
fn ask_some(list: &mut List, random: &mut Random, image: fn(&mut Random) -> Vec<u8>) {
    let image = std::iter::repeat_with(|| image(random)).find(|image| image.len() <= 200).expect("a short image");
    for _ in 0..3 {
        let found = |call: &Call| answer(call, 0, &image).is_some_and(|answer| answer != "none");
        let tries = random.reads(10);
        let call = tries.iter().find(|call| found(call)).unwrap_or(&tries[0]);
        list.ask(&image, call.clone());
    }
}

/// Document 01's examples of reads.
fn examples(list: &mut List) {
    let empty = empty_store().write();
    list.says("P4: the parent of 1, and of a missing inode.");
    for inode in [1, 2] {
        list.ask(&empty, Call::Parent { inode });
        list.ask(&empty, Call::Exists { inode });
    }

    list.says("P5: an entry added to the missing inode 9; then frozen, folded, popped.");
    let added = changed(&empty, Call::Add { parent: 9, name: b"a".to_vec(), child: 5, now: NOW });
    for image in [&added, &freeze_fold_pop(&added)] {
        list.all(image, 9);
        list.child(image, 9, &["a", "b"]);
    }

    list.says("P6: one delta adds and removes a name.");
    let both = directory_delta(None, &[("a", 7)], &["a"]);
    let image = changed(&empty, Call::Insert { inode: 5, delta: both.write() });
    list.child(&image, 5, &["a"]);
    list.list(&image, 5, &[9, 1, 0]);

    list.says("P7: a symlink's mode; then frozen, folded, popped.");
    let mode = Fields { mode: Some(0o600), ..Fields::default() };
    let link = base([]).live([(5, symlink_delta(Some("t")).setting(mode))]).write();
    for image in [&link, &freeze_fold_pop(&link)] {
        list.ask(image, Call::Attr { inode: 5 });
        list.ask(image, Call::Link { inode: 5 });
    }

    list.says("P8: base 5 holds a; then a tombstone; then an empty directory inserted.");
    let held = base([(5, directory(1, &[("a", 7)]))]).write();
    let gone = changed(&held, Call::Tombstone { inode: 5 });
    let again = changed(&gone, Call::Insert { inode: 5, delta: directory_delta(None, &[], &[]).write() });
    for image in [&held, &gone, &again] {
        list.all(image, 5);
        list.child(image, 5, &["a"]);
    }

    list.says("P10: a file with 0 links; then folded; and the snapshot.");
    let links = Fields { links: Some(0), ..Fields::default() };
    let file = base([]).live([(5, file_delta(None).setting(links))]).write();
    for image in [&file, &freeze_fold_pop(&file), &changed(&file, Call::Snapshot)] {
        list.ask(image, Call::Exists { inode: 5 });
        list.ask(image, Call::Attr { inode: 5 });
    }

    list.says("P11: live adds what the base has, and removes what it has not; then normalised.");
    let live = directory_delta(None, &[("a", 7)], &["b"]).record();
    let image = base([(5, directory(1, &[("a", 7)]))]).live([(5, live)]).write();
    for image in [&image, &changed(&image, Call::Normalise { position: 0 })] {
        list.child(image, 5, &["a", "b"]);
        list.list(image, 5, &[9]);
    }
}

/// Each kind as a base node, as a delta on nothing, and as a delta on another kind.
fn kinds(list: &mut List) {
    list.says("Each kind in the base, and as a delta on nothing.");
    let bodies = [
        Body::Directory { parent: 4, entries: [(b"n".to_vec(), 6)].into() },
        Body::File { size: 300 },
        Body::Symlink { target: b"to".to_vec() },
        Body::Pipe,
        Body::Character { device: 259 },
        Body::Block { device: u32::MAX },
        Body::Socket,
    ];
    for body in bodies {
        list.shown(&base([(2, Node { perm: 0o641, ..node(body) })]).write(), 2);
    }
    let device = 77;
    let changes = [
        directory_delta(None, &[("n", 6)], &[]).change,
        Change::File { size: Some(300) },
        Change::Symlink { target: Some(b"to".to_vec()) },
        Change::Pipe { device },
        Change::Character { device },
        Change::Block { device },
        Change::Socket { device },
    ];
    for change in changes.clone() {
        list.shown(&base([]).live([(2, delta(change).record())]).write(), 2);
    }
    list.says("Each kind as a delta on a base directory, and on a base block device.");
    for change in changes {
        let live = [(2, delta(change).record())];
        let image = base([(2, directory(4, &[("m", 5)]))]).live(live.clone()).write();
        list.ask(&image, Call::Type { inode: 2 });
        list.ask(&image, Call::Attr { inode: 2 });
        list.list(&image, 2, &[8]);
        list.child(&image, 2, &["m"]);
        let image = base([(2, node(Body::Block { device: 3 }))]).live(live).write();
        list.ask(&image, Call::Attr { inode: 2 });
    }
}

/// What a higher layer leaves of a lower one.
fn layers(list: &mut List) {
    list.says("A tombstone in one layer, a delta in the layer above it.");
    let held = || base([(5, directory(3, &[("a", 7)]))]).batch([(5, Record::Tombstone)]);
    for live in [directory_delta(None, &[("b", 8)], &[]), file_delta(Some(9)), symlink_delta(None)] {
        let image = held().live([(5, live.record())]).write();
        list.all(&image, 5);
        list.child(&image, 5, &["a", "b"]);
    }
    list.says("A base directory under a live file.");
    let image = base([(5, directory(3, &[("a", 7)]))]).live([(5, file_delta(Some(9)).record())]).write();
    list.all(&image, 5);
    list.child(&image, 5, &["a"]);
    list.says("A base file under a live directory.");
    let file = node(Body::File { size: 9 });
    let image = base([(5, file)]).live([(5, directory_delta(Some(2), &[("a", 7)], &[]).record())]).write();
    list.all(&image, 5);
    list.child(&image, 5, &["a"]);
    list.says("Names over four layers: added, removed, added to another inode.");
    let image = base([(5, directory(1, &[("a", 1), ("b", 2), ("c", 3)]))])
        .batch([(5, directory_delta(None, &[("d", 4)], &["a", "b"]).record())])
        .batch([(5, directory_delta(Some(6), &[("b", 12)], &["d"]).record())])
        .live([(5, directory_delta(None, &[("c", 13), ("e", 5)], &[]).record())])
        .write();
    list.child(&image, 5, &["a", "b", "c", "d", "e", "f"]);
    list.list(&image, 5, &[3, 2]);
    list.ask(&image, Call::Parent { inode: 5 });
    list.says("A file's delta between two directories' deltas.");
    let image = base([(5, directory(1, &[("a", 1)]))])
        .batch([(5, file_delta(None).record())])
        .live([(5, directory_delta(None, &[("b", 2)], &[]).record())])
        .write();
    list.all(&image, 5);
    list.child(&image, 5, &["a", "b"]);
    list.says("A target below, above, and hidden by another kind.");
    let deltas = [symlink_delta(None), symlink_delta(Some("")), symlink_delta(Some("up")), file_delta(None)];
    for live in deltas {
        let image = base([(5, symlink("down"))]).live([(5, live.record())]).write();
        list.ask(&image, Call::Link { inode: 5 });
        list.ask(&image, Call::Attr { inode: 5 });
    }
    list.says("A tombstone over a target, and a symlink's delta above it.");
    let gone = || base([(5, symlink("down"))]).batch([(5, Record::Tombstone)]);
    for image in [gone(), gone().live([(5, symlink_delta(None).record())])] {
        list.ask(&image.write(), Call::Link { inode: 5 });
        list.ask(&image.write(), Call::Attr { inode: 5 });
    }
    list.says("An empty target in the base.");
    list.ask(&base([(5, symlink(""))]).write(), Call::Link { inode: 5 });
    list.says("Sixteen batches and live.");
    let mut image = base([(5, directory(1, &[("a", 0)]))]);
    for layer in 1..=16 {
        image = image.batch([(5, directory_delta(None, &[("a", layer)], &[]).record())]);
    }
    list.child(&image.write(), 5, &["a", "b"]);
    list.list(&image.write(), 5, &[1]);
    let image = image.live([(5, directory_delta(Some(2), &[("b", 17)], &["a"]).record())]).write();
    list.child(&image, 5, &["a", "b"]);
    list.ask(&image, Call::Parent { inode: 5 });
    list.ask(&image, Call::Attr { inode: 5 });
}

fn attributes(list: &mut List) {
    list.says("Every field, over a base and on nothing.");
    let time = |seconds, nanos| Some(Time { seconds, nanos });
    let every = Fields {
        mode: Some(0o640),
        owner: Some(11),
        group: Some(12),
        links: Some(13),
        atime: time(1, 2),
        mtime: time(3, 4),
        ctime: time(5, 6),
        created: time(7, 8),
        attributes: None,
    };
    for below in [base([(5, node(Body::File { size: 6 }))]), base([])] {
        list.ask(&below.live([(5, file_delta(None).setting(every.clone()))]).write(), Call::Attr { inode: 5 });
    }
    list.says("A mode with high bits, in a delta and in the base.");
    for mode in [0o107777, 0o10000, u32::MAX] {
        let fields = Fields { mode: Some(mode), ..Fields::default() };
        list.ask(&base([]).live([(5, file_delta(None).setting(fields))]).write(), Call::Attr { inode: 5 });
        list.ask(&base([(5, Node { perm: mode, ..node(Body::Pipe) })]).write(), Call::Attr { inode: 5 });
    }
    list.says("Times before 1970, and the first and last.");
    for (seconds, nanos) in [(-1, 0), (-1, 999_999_999), (-2, 1), (i64::MIN, 0), (i64::MAX, 999_999_999)] {
        let fields = Fields { atime: time(seconds, nanos), ..Fields::default() };
        list.ask(&base([]).live([(5, file_delta(None).setting(fields))]).write(), Call::Attr { inode: 5 });
        let node = Node { mtime: Time { seconds, nanos }, ..node(Body::Socket) };
        list.ask(&base([(5, node)]).write(), Call::Attr { inode: 5 });
    }
    list.says("A size over layers, and the largest (P12).");
    let image = base([(5, node(Body::File { size: 6 }))])
        .batch([(5, file_delta(Some((1 << 63) - 1)).record())])
        .live([(5, file_delta(None).record())])
        .write();
    list.ask(&image, Call::Attr { inode: 5 });
}

fn extended(list: &mut List) {
    list.says("Extended attributes set and removed over layers.");
    let image = base([(5, node(Body::Pipe).with(&[("a", "1"), ("b", "2"), ("c", "")]))])
        .batch([(5, file_delta(None).with(&[("a", None), ("b", Some("3")), ("d", Some("4"))]))])
        .live([(5, file_delta(None).with(&[("d", None), ("e", Some(""))]))])
        .write();
    list.xattr(&image, 5, &["a", "b", "c", "d", "e", "f", "aa"]);
    list.names(&image, 5, &[8, 3, 2]);
    list.says("A tombstone between; a tombstone on top; no attributes at all; an empty list of changes.");
    let below = || base([(5, node(Body::Socket).with(&[("a", "1")]))]).batch([(5, Record::Tombstone)]);
    for image in [
        below().live([(5, file_delta(None).with(&[("b", Some("2"))]))]),
        below(),
        base([(5, node(Body::Socket))]),
        base([(5, node(Body::Socket).with(&[("a", "1")]))]).live([(5, file_delta(None).with(&[]))]),
        empty_store(),
    ] {
        list.xattr(&image.write(), 5, &["a", "b"]);
        list.names(&image.write(), 5, &[8, 0]);
    }
}

/// Names, inodes and rows at their limits.
fn limits(list: &mut List) {
    let long = "n".repeat(255);
    let longer = "n".repeat(256);
    list.says("Names of 255 bytes; an empty one, and one of 256 bytes.");
    let image = base([(5, directory(1, &[(&long, 7)]))]).write();
    list.child(&image, 5, &[&long, &longer, ""]);
    list.list(&image, 5, &[1, 0]);
    let image = base([(5, node(Body::Pipe).with(&[(&long, "v")]))]).write();
    list.xattr(&image, 5, &[&long, &longer, ""]);
    list.names(&image, 5, &[1, 0]);
    list.says("Inode 0 and the largest.");
    let ends = [(0, directory(LAST, &[("a", 0), ("b", LAST)])), (LAST, directory(0, &[]))];
    let image = base(ends).live([(LAST, directory_delta(None, &[("c", LAST)], &[]).record())]).write();
    for inode in [0, LAST, 1, LAST - 1] {
        list.all(&image, inode);
    }
    list.child(&image, 0, &["a", "b", "c"]);
    list.child(&image, LAST, &["a", "c"]);
    list.says("Inode 1: its parent is 1, whatever is stored.");
    let root = base([(1, directory(9, &[]))]);
    list.ask(&root.write(), Call::Parent { inode: 1 });
    list.ask(&root.live([(1, Record::Tombstone)]).write(), Call::Parent { inode: 1 });
    list.says("Names in two alphabets, in the order of their bytes.");
    let image = base([(5, directory(1, &[("\u{e9}", 1), ("z", 2), ("Z", 3), ("zz", 4), ("\u{1f600}", 5)]))]).write();
    list.list(&image, 5, &[5, 4]);
    list.child(&image, 5, &["\u{e9}", "\u{1f600}", "zz"]);
}

/// Images that are not by the layout, which the Rust is never shown.
fn refused(list: &mut List) {
    list.says("Images that are not by the layout: cut short, run on, out of order.");
    let every = [
        Call::Exists { inode: 1 },
        Call::Type { inode: 1 },
        Call::Child { inode: 1, name: b"a".to_vec() },
        Call::Attr { inode: 1 },
        Call::List { inode: 1, rows: 8 },
        Call::Link { inode: 1 },
        Call::Parent { inode: 1 },
        Call::Xattr { inode: 1, name: b"a".to_vec() },
        Call::Names { inode: 1, rows: 8 },
    ];
    let root = base([(1, directory(1, &[("a", 2), ("b", 3)]))]).write();
    for call in &every {
        list.ask(&root[..root.len() - 1], call.clone());
    }
    list.says("2 comes before 3 and 5.");
    list.child(&root[1..], 1, &[""]);
    list.list(&root[1..], 1, &[0]);
    for (at, call) in every.iter().enumerate() {
        let mut image = root.clone();
        match at {
            0 => image.push(0),
            1 => image.clear(),
            _ => image[2 * at] = 0x80,
        }
        list.ask(&image, call.clone());
    }
    let unsorted: Vec<u8> = root.iter().map(|&byte| if byte == b'a' { b'c' } else { byte }).collect();
    list.child(&unsorted, 1, &["c"]);
}
