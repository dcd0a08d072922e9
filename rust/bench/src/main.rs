//! bench FOLDER: times the static library, the published Rust and an in-place reader on the same images, in one run, and writes
//! FOLDER/BENCHMARKS.md and its plots.
//! bench --ours: times the static library alone, and writes a line for each call and image (against.py reads them).

mod images;
mod measure;
mod plot;

use differential::judge::{Judge, Reply};
use differential::port::{Lent, Port};
use images::{DIRECTORY, FILE, FRESH, LINK, NAME, ROOT};
use measure::{repeated, used_up};
use oracle::builders::file_delta;
use oracle::calls::Call;
use oracle::image::{Delta, Fields, Image, MAX_IMAGE, Time};
use oracle::store::Store;
use plot::Line;
use std::fmt::Write;
use std::hint::black_box;
use std::path::Path;

const NOW: Time = Time { seconds: 1_700_000_001, nanos: 5 };

/// Everything is timed so often, from the first to the last, and the least counts: other work on the machine comes and goes.
const PASSES: usize = 6;

/// Nanoseconds for one call.
#[derive(Clone, Copy)]
struct Times {
    ours: f64,
    from_bytes: f64,
    resident: f64,
}

impl Times {
    const NONE: Times = Times { ours: f64::INFINITY, from_bytes: f64::INFINITY, resident: f64::INFINITY };

    fn least(self, other: Times) -> Times {
        Times {
            ours: self.ours.min(other.ours),
            from_bytes: self.from_bytes.min(other.from_bytes),
            resident: self.resident.min(other.resident),
        }
    }
}

fn calls() -> Vec<(&'static str, Call)> {
    let name = || NAME.as_bytes().to_vec();
    let most = u64::MAX;
    let fields = Fields { mode: Some(0o640), ctime: Some(NOW), ..Fields::default() };
    vec![
        ("exists", Call::Exists { inode: FILE }),
        ("type", Call::Type { inode: FILE }),
        ("child", Call::Child { inode: ROOT, name: name() }),
        ("attributes", Call::Attr { inode: FILE }),
        ("listing", Call::List { inode: ROOT, rows: 4000 }),
        ("link text", Call::Link { inode: LINK }),
        ("parent", Call::Parent { inode: DIRECTORY }),
        ("attribute's value", Call::Xattr { inode: FILE, name: b"user.note".to_vec() }),
        ("attribute names", Call::Names { inode: FILE, rows: 4000 }),
        ("insert", Call::Insert { inode: FRESH, delta: file_delta(Some(1)).write() }),
        ("tombstone", Call::Tombstone { inode: FILE }),
        ("add entry", Call::Add { parent: ROOT, name: b"new".to_vec(), child: FRESH, now: NOW }),
        ("remove entry", Call::Remove { parent: ROOT, name: name(), now: NOW }),
        ("set parent", Call::SetParent { inode: DIRECTORY, parent: ROOT }),
        ("update", Call::Update { inode: FILE, fields: fields.write() }),
        ("freeze", Call::Freeze { depth: most, bytes: most, operations: most, now: NOW }),
        ("fold", Call::Fold),
        ("snapshot", Call::Snapshot),
    ]
}

fn show<T>(answer: T) {
    black_box(answer);
}

/// The published Rust's call alone.
fn ask(store: &mut Store, call: &Call) {
    let str = |name| std::str::from_utf8(name).expect("UTF-8");
    match call {
        Call::Exists { inode } => show(store.exists(*inode)),
        Call::Type { inode } => show(store.file_type(*inode)),
        Call::Child { inode, name } => show(store.lookup_child(*inode, str(name))),
        Call::Attr { inode } => show(store.attr(*inode)),
        Call::List { inode, .. } => show(store.list_directory(*inode)),
        Call::Link { inode } => show(store.read_link(*inode)),
        Call::Parent { inode } => show(store.parent(*inode)),
        Call::Xattr { inode, name } => show(store.get_xattr(*inode, str(name))),
        Call::Names { inode, .. } => show(store.list_xattrs(*inode)),
        Call::Insert { inode, delta } => store.insert(*inode, &Delta::read(delta).expect("a delta")).expect("UTF-8"),
        Call::Tombstone { inode } => store.tombstone(*inode),
        Call::Add { parent, name, child, now } => store.add_entry(*parent, str(name), *child, *now),
        Call::Remove { parent, name, now } => store.remove_entry(*parent, str(name), *now),
        Call::SetParent { inode, parent } => store.set_parent(*inode, *parent),
        Call::Update { inode, fields } => store.update(*inode, &Fields::read(fields).expect("fields")).expect("UTF-8"),
        Call::Freeze { depth, bytes, operations, now } => show(store.freeze(*depth, *bytes, *operations, *now)),
        Call::Fold => store.fold(),
        Call::Snapshot => store.snapshot(),
        _ => unreachable!("not timed"),
    }
}

fn is_change(call: &Call) -> bool {
    !differential::judge::is_read(call)
}

fn store_of(image: &[u8]) -> Store {
    Store::from_image(&Image::read(image).expect("an image")).expect("UTF-8")
}

/// Read the image, call, and write it back if the call changes it.
fn from_bytes(image: &[u8], call: &Call) -> Vec<u8> {
    let mut store = store_of(image);
    ask(&mut store, call);
    if is_change(call) { store.to_image().write() } else { Vec::new() }
}

/// Both sides answer the same before they are timed, and neither refuses.
fn agree(port: &mut Port, image: &[u8], name: &str, call: &Call) {
    let (want, got) = (Judge::new(image).reply(call), port.run(image, call, MAX_IMAGE));
    assert_eq!(want, got, "{name}");
    assert!(!matches!(got, Reply::Refused(_)), "{name} is refused: {got:?}");
}

fn times(port: &mut Port, image: &[u8], name: &str, call: &Call) -> Times {
    agree(port, image, name, call);
    let mut lent = Lent::default();
    let ours = repeated(|| lent.call(black_box(image), call));
    let whole = repeated(|| from_bytes(black_box(image), call));
    let each = if image.len() > 20_000 { 16 } else { 64 };
    let resident = if is_change(call) {
        used_up(|| store_of(image), |store| ask(store, call), each)
    } else {
        let mut store = store_of(image);
        repeated(|| ask(black_box(&mut store), call))
    };
    Times { ours, from_bytes: whole, resident }
}

fn said(nanos: f64) -> String {
    match nanos {
        n if n >= 1e6 => format!("{:.2} ms", n / 1e6),
        n if n >= 1e4 => format!("{:.0} µs", n / 1e3),
        n if n >= 1e3 => format!("{:.1} µs", n / 1e3),
        n => format!("{n:.0} ns"),
    }
}

fn ratio(of: f64, to: f64) -> String {
    let ratio = of / to;
    if ratio >= 10.0 { format!("{ratio:.0}") } else { format!("{ratio:.2}") }
}

/// Why a call is not timed.
fn untimed(title: &str, call: &Call) -> Option<&'static str> {
    match call {
        Call::Freeze { .. } if title == ROOT_ALONE => Some("refused: live is empty"),
        Call::Fold if title == ROOT_ALONE => Some("refused: no batch"),
        _ => None,
    }
}

const ROOT_ALONE: &str = "The root alone";

fn titled() -> [(&'static str, Vec<u8>); 4] {
    [
        (ROOT_ALONE, images::root()),
        ("Small", images::least()),
        ("Medium", images::of_length(8192)),
        ("Full", images::of_length(65_200)),
    ]
}

/// The call, the image's length, the nanoseconds.
fn ours_alone(port: &mut Port) {
    let mut lent = Lent::default();
    for (title, image) in titled() {
        for (name, call) in calls() {
            if untimed(title, &call).is_none() {
                agree(port, &image, name, &call);
                println!("{name}\t{}\t{:.1}", image.len(), repeated(|| lent.call(black_box(&image), &call)));
            }
        }
    }
}

/// A table for each image; the calls whose ratio is not as it should be.
fn tables(port: &mut Port, out: &mut String) -> Vec<String> {
    let images = titled();
    let calls = calls();
    let mut least = vec![[Times::NONE; 4]; calls.len()];
    for pass in 1..=PASSES {
        eprintln!("bench: tables, pass {pass} of {PASSES}");
        for ((name, call), least) in calls.iter().zip(&mut least) {
            for ((title, image), least) in images.iter().zip(least) {
                if untimed(title, call).is_none() {
                    *least = least.least(times(port, image, name, call));
                }
            }
        }
    }
    let mut slower = Vec::new();
    for (which, (title, image)) in images.iter().enumerate() {
        writeln!(out, "\n### {title}: {} bytes\n", image.len()).unwrap();
        out.push_str(
            "| call | ours | original, from bytes | original, resident | from bytes / ours | ours / resident |\n",
        );
        out.push_str("|---|---:|---:|---:|---:|---:|\n");
        for ((name, call), least) in calls.iter().zip(&least) {
            let t = least[which];
            if let Some(why) = untimed(title, call) {
                writeln!(out, "| {name} | {why} | | | | |").unwrap();
                continue;
            }
            if t.ours >= t.from_bytes {
                slower.push(format!("{name} ({})", title.to_lowercase()));
            }
            let (ours, whole, resident) = (said(t.ours), said(t.from_bytes), said(t.resident));
            let (from, held) = (ratio(t.from_bytes, t.ours), ratio(t.ours, t.resident));
            writeln!(out, "| {name} | {ours} | {whole} | {resident} | {from} | {held} |").unwrap();
        }
    }
    slower
}

const LENGTHS: [usize; 9] = [300, 512, 1024, 2048, 4096, 8192, 16_384, 32_768, 65_200];

/// Time against length, of one call; with the in-place reader for a child.
fn plotted(port: &mut Port, call: &Call, in_place: bool) -> Vec<Line> {
    let line = |label, colour| Line { label, colour, points: Vec::new() };
    let mut lines =
        vec![line("ours", "#c0392b"), line("original, from bytes", "#2c3e50"), line("original, resident", "#7f8c8d")];
    lines.extend(in_place.then(|| line("in-place Rust reader", "#2980b9")));
    let image = |length| if length == LENGTHS[0] { images::least() } else { images::of_length(length) };
    let images = LENGTHS.map(image);
    for line in &mut lines {
        line.points = images.iter().map(|image| (image.len() as f64, f64::INFINITY)).collect();
    }
    for pass in 1..=PASSES {
        eprintln!("bench: plot, pass {pass} of {PASSES}");
        for (which, image) in images.iter().enumerate() {
            let t = times(port, image, "plot", call);
            let reader = in_place.then(|| repeated(|| inplace::lookup_child(black_box(image), ROOT, NAME.as_bytes())));
            let all = [Some(t.ours), Some(t.from_bytes), Some(t.resident), reader];
            for (line, nanos) in lines.iter_mut().zip(all.into_iter().flatten()) {
                line.points[which].1 = line.points[which].1.min(nanos);
            }
        }
    }
    lines
}

/// The greatest ratio that ours is to have to the in-place reader.
const AIM: f64 = 1.25;

/// A child by name: ours against the in-place reader, which both judge the whole image.
fn against_reader(lines: &[Line], out: &mut String) {
    out.push_str("\n| image | ours | in-place Rust reader | ours / reader |\n|---:|---:|---:|---:|\n");
    let mut greatest = 0.0;
    for (ours, reader) in lines[0].points.iter().zip(&lines[3].points) {
        greatest = f64::max(greatest, ours.1 / reader.1);
        writeln!(out, "| {} bytes | {} | {} | {} |", ours.0, said(ours.1), said(reader.1), ratio(ours.1, reader.1))
            .unwrap();
    }
    let met = if greatest <= AIM { "met" } else { "NOT met" };
    writeln!(out, "\nThe aim, {AIM} at most, is {met}: the greatest ratio here is {greatest:.2}.").unwrap();
}

fn main() {
    let folder = std::env::args().nth(1).expect("bench FOLDER, or bench --ours");
    let mut port = Port::default();
    if folder == "--ours" {
        return ours_alone(&mut port);
    }
    let folder = Path::new(&folder);
    let date = std::env::var("BENCH_DATE").unwrap_or_default();
    let machine = std::env::var("BENCH_MACHINE").unwrap_or_default();
    let kit = std::env::var("BENCH_KIT").unwrap_or_default();
    let mut measured = String::new();
    let slower = tables(&mut port, &mut measured);
    let child = plotted(&mut port, &Call::Child { inode: ROOT, name: NAME.as_bytes().to_vec() }, true);
    let fold = plotted(&mut port, &Call::Fold, false);
    let mut reader = String::new();
    against_reader(&child, &mut reader);
    for (file, title, lines) in [
        ("benchmarks-child.svg", "Looking up a child by name", &child),
        ("benchmarks-fold.svg", "Folding the front batch", &fold),
    ] {
        std::fs::write(folder.join(file), plot::svg(title, lines)).expect("a file");
    }
    let slower = if slower.is_empty() {
        "Every call from bytes is faster than the original from bytes.".to_string()
    } else {
        format!("Slower than the original from bytes: {}.", slower.join(", "))
    };
    let text = include_str!("benchmarks.md")
        .replace("{date}", &date)
        .replace("{machine}", &machine)
        .replace("{kit}", &kit)
        .replace("{slower}", &slower)
        .replace("{reader}", &reader)
        .replace("{tables}", &measured);
    std::fs::write(folder.join("BENCHMARKS.md"), text).expect("a file");
    println!("{slower}");
    print!("{reader}");
}
