//! The fixed list of changes that crates/vectors replays, with the Rust's new images.

use crate::builders::{
    NOW, base, changed, delta, directory, directory_delta, empty_store, file_delta, freeze, node, symlink,
    symlink_delta,
};
use crate::calls::{Answer, Call, run};
use crate::image::{Body, Change, Delta, Fields, Image, MAX_IMAGE, Node, Record, Time};
use crate::lines::{answer, change_line};
use crate::random::Random;

const HEADING: &str =
    "Changes, made by the published Rust. rust/oracle/build.sh makes this list and its answers again.";
/// The longest image that crates/vectors has room for.
const MOST: usize = 400;

/// The lines of changes.in and of changes.out. A line that begins with `#` says what follows it.
#[derive(Default)]
pub struct List {
    pub changes: Vec<String>,
    pub answers: Vec<String>,
}

impl List {
    fn says(&mut self, text: &str) {
        self.changes.push(format!("# {text}"));
        self.answers.push(format!("# {text}"));
    }

    fn with_room(&mut self, image: &[u8], call: &Call, room: usize) {
        let line = change_line(call, room, image).expect("a change");
        self.answers.push(format!("{line} = {}", answer(call, room, image).expect("texts are UTF-8")));
        self.changes.push(line);
    }

    /// The change, and where it is made, also with a target of exactly that length and of one byte less.
    fn make(&mut self, image: &[u8], call: Call) {
        self.with_room(image, &call, MOST);
        if let Answer::Image(new) = run(image, &call, MAX_IMAGE) {
            self.with_room(image, &call, new.len());
            self.with_room(image, &call, new.len() - 1);
        }
    }
}

pub fn list() -> List {
    let mut list = List::default();
    list.says(HEADING);
    examples(&mut list);
    directories(&mut list);
    queue(&mut list);
    list.says("Random calls on random images.");
    random(&mut list, 3, Random::change_call);
    updates(&mut list);
    normalised(&mut list);
    folded(&mut list);
    snapshots(&mut list);
    list.says("Random updates, normalising, folds and snapshots of random images.");
    random(&mut list, 4, Random::layer_call);
    list
}

fn random(list: &mut List, seed: u64, call: fn(&mut Random) -> Call) {
    let mut random = Random::new(seed);
    for made in [Random::orderly, Random::disorderly].repeat(100) {
        let image =
            std::iter::repeat_with(|| made(&mut random)).find(|image| image.len() <= 200).expect("a short image");
        let call = call(&mut random);
        list.with_room(&image, &call, MOST);
    }
}

fn add(parent: u64, name: &str, child: u64) -> Call {
    Call::Add { parent, name: name.as_bytes().to_vec(), child, now: NOW }
}

fn remove(parent: u64, name: &str) -> Call {
    Call::Remove { parent, name: name.as_bytes().to_vec(), now: NOW }
}

/// Document 01's examples of changes.
fn examples(list: &mut List) {
    let empty = empty_store().write();
    list.says("P5: an entry added to the missing inode 9, which is frozen.");
    list.make(&empty, add(9, "a", 5));
    list.make(&changed(&empty, add(9, "a", 5)), freeze());
    list.says("P8: a tombstone over a base directory; an empty directory inserted over it.");
    let held = base([(5, directory(1, &[("a", 7)]))]).write();
    list.make(&held, Call::Tombstone { inode: 5 });
    let insert = Call::Insert { inode: 5, delta: directory_delta(None, &[], &[]).write() };
    list.make(&changed(&held, Call::Tombstone { inode: 5 }), insert);
    list.says("P9: a freeze of an empty live layer; at the limit of batches too.");
    list.make(&empty, freeze());
    list.make(&empty, Call::Freeze { depth: 0, bytes: u64::MAX, operations: u64::MAX, now: NOW });
    list.says("P12: a name of 255 bytes, and one of 256; a size of 2^63 - 1.");
    list.with_room(&empty, &add(9, &"n".repeat(256), 5), MOST);
    list.with_room(&empty, &add(9, &"n".repeat(255), 5), MOST);
    let size = file_delta(Some((1 << 63) - 1)).write();
    list.make(&empty, Call::Insert { inode: 5, delta: size });
}

/// Entries and parents, on each sort of live record, at each place of a list.
fn directories(list: &mut List) {
    let delta = directory_delta(Some(3), &[("b", 1), ("d", 2)], &["c", "e"]);
    let sorts = [
        ("no live record", base([])),
        ("a tombstone", base([]).live([(5, Record::Tombstone)])),
        ("a file", base([]).live([(5, file_delta(Some(1)).record())])),
        (
            "a directory among others",
            base([]).live([(4, Record::Tombstone), (5, delta.record()), (6, file_delta(None).record())]),
        ),
    ];
    for (sort, image) in sorts {
        let image = image.write();
        list.says(&format!("Entries and parent of {sort}."));
        for name in ["a", "b", "c", "d", "e", "f"] {
            list.with_room(&image, &add(5, name, 9), MOST);
            list.with_room(&image, &remove(5, name), MOST);
        }
        list.make(&image, Call::SetParent { inode: 5, parent: 300 });
        list.make(&image, Call::Tombstone { inode: 5 });
        for inode in [0, 4, 7, u64::MAX] {
            list.with_room(&image, &Call::Insert { inode, delta: file_delta(Some(2)).write() }, MOST);
        }
    }
    list.says("Refused: an empty name before a bad time, a bad time, a delta cut short, a tombstone given.");
    let image = base([]).write();
    let late = Time { nanos: 1_000_000_000, ..NOW };
    for name in ["", "a"] {
        let name = name.as_bytes().to_vec();
        list.with_room(&image, &Call::Add { parent: 5, name: name.clone(), child: 1, now: late }, MOST);
        list.with_room(&image, &Call::Remove { parent: 5, name, now: late }, MOST);
    }
    for delta in [vec![], vec![0], vec![2, 0], vec![2, 0, 0, 0]] {
        list.with_room(&image, &Call::Insert { inode: 5, delta }, MOST);
    }
    list.says("2 comes before 3 and 4.");
    list.with_room(&image[1..], &add(5, "", 1), MOST);
}

/// Freeze, pop, note and request.
fn queue(list: &mut List) {
    let live = || base([]).live([(5, file_delta(None).record())]);
    list.says("A freeze with each request, and at each limit.");
    for reason in 0..=6 {
        list.make(&live().write(), Call::Request { reason });
        if reason <= 5 {
            list.with_room(&changed(&live().write(), Call::Request { reason }), &freeze(), MOST);
        }
    }
    let two = || live().batch([(5, Record::Tombstone)]).batch([(6, file_delta(Some(1)).record())]);
    let staged = changed(&changed(&two().write(), Call::Note { bytes: 300 }), Call::Note { bytes: 5 });
    for limit in 0..=3 {
        let most = u64::MAX;
        list.with_room(&staged, &Call::Freeze { depth: limit, bytes: most, operations: most, now: NOW }, MOST);
        list.with_room(&staged, &Call::Freeze { depth: most, bytes: limit, operations: most, now: NOW }, MOST);
        list.with_room(&staged, &Call::Freeze { depth: most, bytes: most, operations: limit, now: NOW }, MOST);
    }
    list.says("A pop of the front, of another, and of none.");
    for id in 0..=3 {
        list.make(&two().write(), Call::Pop { id });
    }
    list.make(&live().write(), Call::Pop { id: 1 });
    list.says("Counts at their limit.");
    let most = u64::from(u32::MAX);
    for bytes in [0, 1, most - 1, most, most + 1, u64::MAX] {
        list.with_room(&staged, &Call::Note { bytes }, MOST);
        list.with_room(&live().write(), &Call::Note { bytes }, MOST);
    }
    list.says("Sixteen batches.");
    let mut image = base([]);
    for inode in 1..=15 {
        image = image.batch([(inode, Record::Tombstone)]);
    }
    let fifteen = image.live([(5, Record::Tombstone)]);
    list.with_room(&fifteen.write(), &freeze(), MOST);
    let sixteen = changed(&changed(&fifteen.write(), freeze()), Call::Tombstone { inode: 6 });
    list.with_room(&sixteen, &freeze(), MOST);
}

fn update(fields: Fields) -> Call {
    Call::Update { inode: 5, fields: fields.write() }
}

/// Changes of extended attributes; no value removes.
fn altering(changes: &[(&str, Option<&str>)]) -> Fields {
    match file_delta(None).with(changes) {
        Record::Delta(delta) => delta.fields,
        Record::Tombstone => unreachable!("a delta"),
    }
}

fn every_field() -> Fields {
    Fields {
        mode: Some(0o100_640),
        owner: Some(300),
        group: Some(2),
        links: Some(0),
        atime: Some(Time { seconds: -1, nanos: 1 }),
        mtime: Some(Time { seconds: 2, nanos: 2 }),
        ctime: Some(Time { seconds: -3, nanos: 3 }),
        created: Some(Time { seconds: 4, nanos: 4 }),
        ..altering(&[("b", Some("new")), ("c", None)])
    }
}

/// A delta of each kind, with a device number where it has one.
fn every_kind() -> [Delta; 7] {
    let device = 9;
    [
        directory_delta(Some(2), &[("a", 7)], &["b"]),
        file_delta(Some(3)),
        symlink_delta(Some("t")),
        delta(Change::Pipe { device }),
        delta(Change::Character { device }),
        delta(Change::Block { device }),
        delta(Change::Socket { device }),
    ]
}

/// A base node of each kind.
fn every_node() -> [Node; 7] {
    let device = 8;
    [
        directory(2, &[("b", 6), ("c", 7)]),
        node(Body::File { size: 300 }),
        symlink("old"),
        node(Body::Pipe),
        node(Body::Character { device }),
        node(Body::Block { device }),
        node(Body::Socket),
    ]
}

/// Update, on each sort of live record and over each type below.
fn updates(list: &mut List) {
    list.says("Update of a live record of each kind: every field; none; attributes; no changes of attributes.");
    for record in every_kind() {
        let image = base([]).live([(4, Record::Tombstone), (5, record.record()), (6, Record::Tombstone)]).write();
        list.make(&image, update(every_field()));
        list.with_room(&image, &update(Fields::default()), MOST);
        list.with_room(&image, &update(altering(&[])), MOST);
    }
    list.says("Update of what an update left: fields and attributes are merged, the new ones over the old.");
    let old = altering(&[("a", Some("1")), ("b", Some("2")), ("c", Some("3")), ("d", None)]);
    let image =
        base([]).live([(5, file_delta(Some(1)).setting(Fields { mode: Some(1), owner: Some(2), ..old }))]).write();
    for changes in [&[][..], &[("a", None)], &[("b", Some("x")), ("bb", Some("y"))], &[("d", Some("z")), ("e", None)]] {
        list.make(&image, update(Fields { owner: Some(7), ..altering(changes) }));
    }
    list.make(&image, update(Fields { links: Some(4), ..Fields::default() }));
    list.says("Update of a tombstone, and of nothing: nothing.");
    let image = base([(5, node(Body::File { size: 1 }))]).live([(5, Record::Tombstone)]).write();
    list.make(&image, update(every_field()));
    list.make(&empty_store().write(), update(every_field()));
    list.says("Update with no live record: a delta of the type below, device 0.");
    for (below, record) in every_node().into_iter().zip(every_kind()) {
        list.with_room(&base([(5, below.clone())]).write(), &update(every_field()), MOST);
        list.with_room(&base([(5, below)]).batch([(5, Record::Tombstone)]).write(), &update(every_field()), MOST);
        list.with_room(&base([]).batch([(5, record.record())]).write(), &update(Fields::default()), MOST);
    }
    list.says("Refused: fields cut short, bytes left over, none at all, a mask with a tenth bit.");
    let image = base([]).write();
    for fields in [vec![1], vec![0, 0], vec![], vec![0x80, 0x04]] {
        list.with_room(&image, &Call::Update { inode: 5, fields }, MOST);
    }
}

/// Normalise, at each position.
fn normalised(list: &mut List) {
    let each = |list: &mut List, image: &Image| {
        for position in 0..=image.batches.len() as u64 + 1 {
            list.make(&image.write(), Call::Normalise { position });
        }
    };
    list.says("P11: a name that is there already, and one removed that isn't.");
    let dir = |added: &[(&str, u64)], removed: &[&str]| directory_delta(None, added, removed).record();
    each(list, &base([(5, directory(1, &[("a", 7)]))]).live([(5, dir(&[("a", 7)], &["b"]))]));
    list.says("Normalise over a base, and over batches that remove and add.");
    let held = || base([(5, directory(1, &[("a", 7), ("b", 8), ("d", 9)]))]);
    let live = dir(&[("a", 7), ("b", 9), ("c", 3), ("d", 9)], &["a", "c", "e"]);
    each(list, &held().live([(4, Record::Tombstone), (5, live.clone()), (6, file_delta(None).record())]));
    each(
        list,
        &held().batch([(5, dir(&[("c", 3)], &["a"]))]).batch([(5, dir(&[("e", 2)], &["d"]))]).live([(5, live.clone())]),
    );
    list.says("Normalise over a name both added and removed: the name leads to none.");
    each(list, &held().batch([(5, dir(&[("c", 3)], &["c"]))]).live([(5, live.clone())]));
    list.says("Normalise where nothing, a tombstone or another kind is below: removed is emptied.");
    each(list, &base([]).live([(5, live.clone())]));
    each(list, &held().batch([(5, Record::Tombstone)]).live([(5, live.clone())]));
    each(list, &held().batch([(5, file_delta(Some(1)).record())]).live([(5, live.clone())]));
    each(
        list,
        &held().batch([(5, file_delta(Some(1)).record())]).batch([(5, dir(&[("a", 7)], &[]))]).live([(5, live)]),
    );
}

/// Fold, of each kind over nothing and over each kind.
fn folded(list: &mut List) {
    list.says("A fold where there is no batch; of a tombstone; of records among nodes that stay.");
    list.make(&empty_store().write(), Call::Fold);
    let held = || base([(2, directory(1, &[("a", 7)])), (5, node(Body::File { size: 1 })), (9, symlink("x"))]);
    list.make(&held().batch([(5, Record::Tombstone), (6, Record::Tombstone)]).write(), Call::Fold);
    let batch =
        [(1, file_delta(None).record()), (5, file_delta(Some(2)).record()), (300, symlink_delta(None).record())];
    list.make(&held().batch(batch).batch([(2, Record::Tombstone)]).write(), Call::Fold);
    list.says("A fold of each kind on nothing, and on a node of each kind.");
    for record in every_kind() {
        list.with_room(&base([]).batch([(5, record.clone().setting(every_field()))]).write(), &Call::Fold, MOST);
        for below in every_node() {
            let image =
                base([(5, below.with(&[("b", "1"), ("c", "2")]))]).batch([(5, record.clone().setting(every_field()))]);
            list.with_room(&image.write(), &Call::Fold, MOST);
        }
    }
    list.says("A fold that removes and adds entries; of a name both added and removed; without attributes left.");
    let entries = directory_delta(None, &[("a", 1), ("c", 3)], &["b", "d"]).record();
    let image = base([(5, directory(2, &[("b", 6), ("c", 7)]))]).batch([(5, entries)]).live([(5, Record::Tombstone)]);
    list.make(&image.write(), Call::Fold);
    let both = directory_delta(None, &[("b", 1)], &["b"]).record();
    list.make(&base([(5, directory(2, &[("b", 6)]))]).batch([(5, both)]).write(), Call::Fold);
    let gone = file_delta(None).with(&[("a", None)]);
    list.make(&base([(5, node(Body::File { size: 1 }).with(&[("a", "1")]))]).batch([(5, gone)]).write(), Call::Fold);
}

/// Snapshots of one layer and of several.
fn snapshots(list: &mut List) {
    list.says("A snapshot of nothing; of a base alone, whose node with 0 links goes if it is no directory.");
    list.make(&empty_store().write(), Call::Snapshot);
    let unlinked = |node: Node| Node { links: 0, ..node };
    let nodes = every_node().map(unlinked);
    let [dir, file, ..] = nodes.clone();
    list.make(&base([(1, dir), (2, file), (3, symlink("x"))]).write(), Call::Snapshot);
    list.says("P10: a file with 0 links.");
    let none = file_delta(Some(1)).setting(Fields { links: Some(0), ..Fields::default() });
    list.make(&base([]).live([(5, none)]).write(), Call::Snapshot);
    list.says("A snapshot of each kind over each kind, in two layers, and staged counts that go.");
    for record in every_kind() {
        for below in every_kind() {
            let image = base([])
                .batch([(5, below.setting(every_field()))])
                .live([(5, record.clone().with(&[("b", None), ("d", Some("1"))]))]);
            list.with_room(&changed(&image.write(), Call::Note { bytes: 3 }), &Call::Snapshot, MOST);
        }
    }
    list.says("A directory spread over a base, batches and live, with a tombstone between.");
    let dir = |added: &[(&str, u64)], removed: &[&str]| directory_delta(None, added, removed).record();
    let held = || base([(5, directory(1, &[("a", 7), ("b", 8)]))]).batch([(5, dir(&[("c", 1)], &["a"]))]);
    list.make(
        &held().batch([(5, dir(&[("a", 2)], &["c"]))]).live([(5, dir(&[("d", 4)], &["b"]))]).write(),
        Call::Snapshot,
    );
    list.make(&held().batch([(5, Record::Tombstone)]).live([(5, dir(&[("d", 4)], &["b"]))]).write(), Call::Snapshot);
}
