//! The clerk's edges: each fault that a log or a book file can have, each two of them in a call's order, every place
//! to cut a log, bytes after the end, the worked example.
use crate::build::{self, Account, Contract, Day, Record, Total};
use crate::cases::{clerk, BookFile, Case, Feed};
use crate::days;
use crate::faults::{faults, Fault};
use crate::random::Random;
use crate::refusal::Refusal;
use crate::scene::{scene, scene_of, Scene};

pub const DROPS: [usize; 8] = [1, 3, 7, 19, 21, 23, 25, 4_097];

pub fn some_feed(random: &mut Random) -> Feed {
    match random.below(4) {
        0 => Feed::File,
        1 => Feed::Drops(random.pick(&DROPS)),
        _ => Feed::Pipe,
    }
}

pub fn clerk_edges(random: &mut Random) -> Vec<Case> {
    let mut all = vec![worked_example(1), worked_example(2)];
    all.extend(opening_faults(random));
    all.extend(record_faults(random));
    all.extend(cut_logs(random));
    all.extend(ends(random));
    all.extend(book_files(random));
    all
}

/// Document 01's own example. Its text is compared with the document's in `check`.
fn worked_example(version: u16) -> Case {
    let log = Day { version, ..example_day() }.log();
    clerk(format!("the worked example, version {version}"), BookFile::Bytes(example_book()), vec![(log, Feed::Pipe)])
}

pub fn example_book() -> Vec<u8> {
    build::book(1, 20240304, &[Total { group: 3, kind: 1, family: 0, total: 1 }])
}

pub fn example_day() -> Day {
    let account = |number| Account { number, group: 3, kind: 1 };
    let trade = |buyer| Record::Trade { contract: 101, buyer, seller: 12, lots: 1, orders: [(1, 1, 7), (1, 1, 8)] };
    Day {
        rulebook: 1,
        version: 1,
        date: 20240305,
        contracts: vec![Contract { id: 101, contract_type: 1, product: 0, largest: 100 }],
        accounts: vec![account(11), account(12)],
        records: vec![(trade(11), 4), (trade(12), 1)],
    }
}

pub fn example_log(date: u32) -> Vec<u8> {
    Day { date, ..example_day() }.log()
}

/// With half of these, a log fills any pipe, 1 MiB where memory comes in pages of 64 KiB.
const MANY: u32 = 120_000;

/// The worked example with many records.
pub fn long_log() -> Vec<u8> {
    let day = example_day();
    let records = vec![(day.records[0].0.clone(), MANY)];
    Day { records, ..day }.log()
}

pub const WORKED_EXAMPLE_TEXT: &str = "AXD 20240305 DCE\n3 1 0 2 2 101\nfindings 1\n";

/// The scene's record so many times, over its tables.
pub fn log_bytes(scene: &Scene, records: u32) -> Vec<u8> {
    let mut bytes = scene.tables.clone();
    bytes.extend(scene.record.repeat(records as usize));
    bytes.extend(build::end_record(scene.version, records));
    bytes
}

fn is_of_the_clerk(fault: &Fault) -> bool {
    fault.refusal != Refusal::DayState && fault.refusal != Refusal::Counts
}

/// Opening's faults one by one and two at a time. A table that is too long or short shifts what comes after it.
fn opening_faults(random: &mut Random) -> Vec<Case> {
    let faults: Vec<Fault> = faults("open").into_iter().filter(is_of_the_clerk).collect();
    let mut all = Vec::new();
    for fault in &faults {
        let mut scene = scene(random, "open");
        (fault.make)(&mut scene);
        let log = (log_bytes(&scene, 5), some_feed(random));
        all.push(clerk(format!("opening, {:?}", fault.refusal), BookFile::Bytes(scene.book.bytes()), vec![log]));
    }
    for _ in 0..200 {
        let (a, b) = (random.below(faults.len()), random.below(faults.len()));
        let mut scene = scene(random, "open");
        (faults[a.max(b)].make)(&mut scene);
        (faults[a.min(b)].make)(&mut scene);
        let name = format!("opening, {:?} and {:?}", faults[a.min(b)].refusal, faults[a.max(b)].refusal);
        let log = (log_bytes(&scene, 5), some_feed(random));
        all.push(clerk(name, BookFile::Bytes(scene.book.bytes()), vec![log]));
    }
    all
}

/// A good scene for the clerk, with its log of five good records in front.
fn started(random: &mut Random, version: u16) -> (Scene, Vec<u8>, BookFile) {
    let rulebook = random.within(1, 2) as u8;
    let scene = scene_of(random, "take", rulebook, version);
    let mut log = scene.tables.clone();
    log.extend(scene.record.repeat(5));
    let book = BookFile::Bytes(scene.book.bytes());
    (scene, log, book)
}

/// A bad record after five good ones, and a bad end after five.
fn record_faults(random: &mut Random) -> Vec<Case> {
    let mut all = Vec::new();
    let wanted = [Refusal::Record, Refusal::Brokers, Refusal::NoContract, Refusal::NoAccount, Refusal::EndNumber];
    for call in ["take", "end"] {
        for fault in faults(call).iter().filter(|fault| wanted.contains(&fault.refusal)) {
            let version = if fault.refusal == Refusal::Brokers { 2 } else { days::some_version(random) };
            let (mut scene, mut log, book) = started(random, version);
            if call == "end" {
                scene.record = build::end_record(version, 5);
                scene.set_taken(5);
            }
            (fault.make)(&mut scene);
            log.extend(&scene.record);
            log.extend(build::end_record(version, 6));
            all.push(clerk(format!("{call}, {:?}", fault.refusal), book, vec![(log, some_feed(random))]));
        }
    }
    all
}

/// A short log of either version cut at every byte.
fn cut_logs(random: &mut Random) -> Vec<Case> {
    let mut all = Vec::new();
    for version in [1, 2] {
        let base = scene_of(random, "take", 1, version);
        let whole = log_bytes(&base, 2);
        all.extend((0..=whole.len()).map(|length| {
            let log = (whole[..length].to_vec(), some_feed(random));
            clerk(format!("version {version} cut to {length}"), BookFile::Bytes(base.book.bytes()), vec![log])
        }));
    }
    all
}

/// Ends in the middle, ends with bytes after them, cut-off records of each type, bad books over cut logs.
fn ends(random: &mut Random) -> Vec<Case> {
    let mut all: Vec<Case> = [1, 2].into_iter().flat_map(|version| ends_of(random, version)).collect();
    let (_, log, _) = started(random, 1);
    all.push(clerk("a bad book over a cut log", BookFile::Bytes(vec![0; 12_304]), vec![(log, Feed::Pipe)]));
    all
}

fn ends_of(random: &mut Random, version: u16) -> Vec<Case> {
    let mut all = Vec::new();
    let tails: [(&str, Vec<u8>); 11] = [
        ("nothing after", vec![]),
        ("one byte after", vec![0]),
        ("4 bytes after", vec![0; 4]),
        ("19 bytes after", vec![0; 19]),
        ("20 bytes after", vec![1; 20]),
        ("21 bytes after", vec![0; 21]),
        ("24 bytes after", vec![1; 24]),
        ("a second end", build::end_record(version, 5)),
        ("many bytes after", vec![7; 70_000]),
        ("newline after", vec![b'\n']),
        ("a log after", vec![b'A'; 200]),
    ];
    for (name, tail) in tails {
        for number in [4, 5, 6] {
            let (_, mut log, book) = started(random, version);
            log.extend(build::end_record(version, number));
            log.extend(&tail);
            let name = format!("version {version}, end {number} of 5, {name}");
            all.push(clerk(name, book, vec![(log, some_feed(random))]));
        }
    }
    for first in [0, 1, 2, 3, 4] {
        for length in [1, 10, 19, 20, 21, 23] {
            let (_, mut log, book) = started(random, version);
            log.push(first);
            log.resize(log.len() + length - 1, 0);
            let name = format!("version {version}, {length} bytes of a type {first}");
            all.push(clerk(name, book, vec![(log, some_feed(random))]));
        }
    }
    all
}

/// What stands at the book file's place, with a good log and with bad ones.
fn book_files(random: &mut Random) -> Vec<Case> {
    let mut all = Vec::new();
    let mut day = days::some_day(random, 1, 20240305, 10);
    day.contracts.truncate(32);
    let mut bad_mark = day.log();
    bad_mark[1] = b'?';
    for (what, log) in [("a good log", day.log()), ("a bad mark", bad_mark), ("no log", Vec::new())] {
        let sizes = [0, 1, 16, 12_303, 12_305, 24_608, 100_000];
        for size in sizes {
            let mut book = build::book(1, 0, &[]);
            book.resize(size, 0);
            let name = format!("a book of {size} bytes, {what}");
            all.push(clerk(name, BookFile::Bytes(book), vec![(log.clone(), Feed::Pipe)]));
        }
        all.push(clerk(format!("no book, {what}"), BookFile::Missing, vec![(log.clone(), Feed::Pipe)]));
        all.push(clerk(format!("a folder for a book, {what}"), BookFile::Folder, vec![(log.clone(), Feed::Pipe)]));
    }
    all
}
