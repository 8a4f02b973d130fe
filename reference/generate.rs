//! Random cases: runs of days by calls and through the clerk, scenes with several faults, damaged input.
use crate::build::{self, Day, Script};
use crate::cases::{clerk, replay, BookFile, Case, Feed};
use crate::clerk_edges::some_feed;
use crate::days::{any_date, from_other_brokers, some_day, some_later, some_record, some_totals};
use crate::edges::CALLS;
use crate::faults::faults;
use crate::random::Random;
use crate::scene::{scene, scene_cell};

/// Case number i of a seed.
pub fn random_case(random: &mut Random, i: usize) -> Case {
    match i % 8 {
        0 => replay(format!("random {i}: days by calls"), days_by_calls(random)),
        1 => replay(format!("random {i}: days with disturbances"), disturbed_days(random)),
        2 => replay(format!("random {i}: scenes"), random_scenes(random)),
        3 => replay(format!("random {i}: a damaged script"), damaged_script(random)),
        4 | 5 => clerk_days(random, i),
        6 => damaged_log(random, i),
        _ => damaged_book(random, i),
    }
}

pub fn start_of_book(random: &mut Random) -> (u8, u32) {
    let rulebook = random.within(1, 2) as u8;
    let last_date = if random.one_in(4) { 0 } else { any_date(random) };
    (rulebook, last_date)
}

fn write_book(random: &mut Random, script: &mut Script, rulebook: u8, last_date: u32) {
    script.book(12_304);
    script.book_bytes(0, &build::book_head(rulebook, last_date));
    for total in some_totals(random, rulebook, last_date) {
        script.total(&total);
    }
}

pub fn next_date(random: &mut Random, last_date: u32) -> u32 {
    if last_date == 0 {
        any_date(random)
    } else {
        some_later(random, last_date)
    }
}

/// A run of days over one book, each as a customer would call, with questions between.
fn days_by_calls(random: &mut Random) -> Script {
    let mut script = Script::default();
    let (rulebook, mut last_date) = start_of_book(random);
    write_book(random, &mut script, rulebook, last_date);
    script.counts(12_288 + random.below(3) as u32, random.next() as u32);
    script.findings(random.pick(&[64, 800, 5_000]), random.next() as u8);
    for _ in 0..random.within(1, 5) {
        let date = next_date(random, last_date);
        let day = some_day(random, rulebook, date, 600);
        script.day(&day);
        ask_around(random, &mut script, &day);
        last_date = date;
    }
    script
}

fn ask_around(random: &mut Random, script: &mut Script, day: &Day) {
    for _ in 0..random.within(0, 2) {
        let group = day.accounts[random.below(day.accounts.len())].group as u64;
        script.ask([group, random.within(1, 3) as u64, random.pick(&[0, 0, 1, 2, 15])]);
    }
}

/// The same with something out of place between the calls: buffers, tables, states, records.
fn disturbed_days(random: &mut Random) -> Script {
    let mut script = Script::default();
    let (rulebook, mut last_date) = start_of_book(random);
    write_book(random, &mut script, rulebook, last_date);
    script.counts(12_288, 0);
    script.findings(800, 0);
    for _ in 0..random.within(1, 3) {
        let date = if random.one_in(6) { any_date(random) } else { next_date(random, last_date) };
        let day = some_day(random, rulebook, date, 600);
        script.tables(&day.tables());
        script.open();
        for (record, times) in &day.records {
            disturb(random, &mut script, &day);
            script.take_often(*times, &record.bytes(day.version));
        }
        disturb(random, &mut script, &day);
        let off = random.pick(&[0, 0, 0, 0, 1]);
        script.end(&build::end_record(day.version, day.taken() + off));
        last_date = last_date.max(date);
    }
    script
}

fn disturb(random: &mut Random, script: &mut Script, day: &Day) {
    let cell = (day.accounts[0].group as u32 - 1) * 96 + random.below(96) as u32;
    match random.below(20) {
        0 => script.open(),
        1 => script.abandon(),
        2 => script.closed(),
        3 => script.opened(&day.head(), random.pick(&[0, 1, 499, 999_999, 1_000_000, 1_000_001, u32::MAX])),
        4 => script.count(cell, random.pick(&[0, 1, 4, 5, 99, 100, 399, 400, 499, 500, u32::MAX])),
        5 => script.counts(random.pick(&[12_287, 12_288, 12_289]), random.below(3) as u32),
        6 => {
            let record = some_record(random, day).bytes(day.version);
            script.take(&damage(random, record));
        }
        7 => script.tables(&damage(random, day.tables())),
        8 => script.tables(&some_day(random, day.rulebook, day.date, 1).tables()),
        9 => script.fresh(random.below(4) as u64),
        15 => script.exemption(some_codes(random)),
        10 => script.book_bytes(random.below(12_304) as u32, &[random.pick(&[0, 1, 255])]),
        11 => script.findings(random.pick(&[0, 7, 8, 15, 16, 80]), 1),
        12 => script.take(&some_record(random, day).bytes(3 - day.version)),
        13 => {
            let mut record = some_record(random, day).bytes(2);
            damage_brokers(random, &mut record);
            script.take(&record);
        }
        14 => {
            let version = random.pick(&[0, 1, 2, 3, 257, 258, 512]);
            script.opened(&Day { version, ..day.clone() }.head(), day.taken());
        }
        _ => {}
    }
}

/// Codes of the lists and one on either side; sometimes an edition that there is not.
fn some_codes(random: &mut Random) -> [u8; 6] {
    let edition = random.one_in(4) as usize;
    let most = [(0, 3), (edition, edition), (0, 3), (0, 4), (0, 7), (0, 5)];
    most.map(|(low, high)| random.within(low, high) as u8)
}

/// Scenes with no fault to three, of any call.
fn random_scenes(random: &mut Random) -> Script {
    let mut script = Script::default();
    for _ in 0..random.within(1, 6) {
        let call = random.pick(&CALLS);
        let faults = faults(call);
        let mut chosen: Vec<usize> = (0..random.below(4)).map(|_| random.below(faults.len())).collect();
        // later faults first: an earlier one may cut off what they stand in
        chosen.sort_by(|a, b| b.cmp(a));
        let mut scene = scene(random, call);
        if random.one_in(2) {
            scene.cells.push((scene_cell(random.within(1, 3) as u32), scene.taken() + random.below(2) as u32));
        }
        chosen.iter().for_each(|&i| (faults[i].make)(&mut scene));
        scene.call(call, &mut script);
    }
    script
}

/// Some bytes with one thing done to them.
pub fn damage(random: &mut Random, mut bytes: Vec<u8>) -> Vec<u8> {
    if bytes.is_empty() {
        return vec![random.next() as u8];
    }
    // the first bytes hold the most rules
    let reach = if random.one_in(2) { bytes.len().min(100) } else { bytes.len() };
    let at = random.below(reach);
    match random.below(8) {
        0 | 1 => bytes[at] ^= 1 << random.below(8),
        2 | 3 => bytes[at] = random.pick(&[0, 1, 2, 3, 4, 5, 16, 127, 128, 129, 255]),
        4 => bytes[at] = bytes[at].wrapping_add(random.pick(&[1, 255])),
        5 => bytes.truncate(at),
        6 => bytes.resize(bytes.len() + random.pick(&[1, 4, 8, 19, 20, 21, 23, 24, 25]), random.below(4) as u8),
        _ => drop(bytes.remove(at)),
    }
    bytes
}

/// A broker that is lost, the two exchanged, or a byte made up; also of an end record of version 2.
fn damage_brokers(random: &mut Random, record: &mut [u8]) {
    let brokers = &mut record[20..24];
    match random.below(4) {
        0 => brokers[..2].fill(0),
        1 => brokers[2..].fill(0),
        2 => brokers.rotate_left(2),
        _ => brokers[random.below(4)] = random.pick(&[1, 255]),
    }
}

fn damaged_script(random: &mut Random) -> Script {
    let mut script = match random.below(3) {
        0 => days_by_calls(random),
        1 => disturbed_days(random),
        _ => random_scenes(random),
    };
    for _ in 0..random.within(1, 2) {
        script.0 = damage(random, script.0);
    }
    script
}

fn sound_book(random: &mut Random, rulebook: u8, last_date: u32) -> Vec<u8> {
    let totals = some_totals(random, rulebook, last_date);
    build::book(rulebook, last_date, &totals)
}

/// A short log may come in any drops; a long one not byte by byte.
pub fn feed_for(random: &mut Random, log: &[u8]) -> Feed {
    match some_feed(random) {
        Feed::Drops(size) if log.len() / size > 5_000 => Feed::Drops(4_097),
        feed => feed,
    }
}

/// The log of a day, at times with its records in another order and each from brokers of its own.
fn some_log(random: &mut Random, day: &mut Day) -> Vec<u8> {
    if random.one_in(2) {
        let mut records = Vec::new();
        for (record, times) in &day.records {
            records.extend((0..*times).map(|_| (from_other_brokers(random, record), 1)));
        }
        for i in (1..records.len()).rev() {
            records.swap(i, random.below(i + 1));
        }
        day.records = records;
    }
    day.log()
}

/// A run of days through the clerk over one book file.
fn clerk_days(random: &mut Random, i: usize) -> Case {
    let (rulebook, mut last_date) = start_of_book(random);
    let book = sound_book(random, rulebook, last_date);
    let mut logs = Vec::new();
    for _ in 0..random.within(1, 4) {
        let date = next_date(random, last_date);
        let mut day = some_day(random, rulebook, date, 600);
        let log = some_log(random, &mut day);
        let feed = feed_for(random, &log);
        logs.push((log, feed));
        last_date = date;
    }
    clerk(format!("random {i}: days through the clerk"), BookFile::Bytes(book), logs)
}

fn damaged_log(random: &mut Random, i: usize) -> Case {
    let (rulebook, last_date) = start_of_book(random);
    let book = sound_book(random, rulebook, last_date);
    let date = next_date(random, last_date);
    let mut day = some_day(random, rulebook, date, 120);
    let mut log = some_log(random, &mut day);
    if random.one_in(3) {
        damage_record(random, &day, &mut log);
    } else {
        log = damage(random, log);
    }
    let feed = feed_for(random, &log);
    clerk(format!("random {i}: a damaged log"), BookFile::Bytes(book), vec![(log, feed)])
}

/// A damaged record in the place of one in the log, of the same length: what follows stays in step.
pub fn damage_record(random: &mut Random, day: &Day, log: &mut [u8]) {
    let length = build::record_length(day.version);
    let at = day.tables().len() + length * random.below(day.taken() as usize + 1);
    let place = &mut log[at..at + length];
    if day.version == 2 && random.one_in(2) {
        return damage_brokers(random, place);
    }
    let mut record = damage(random, place.to_vec());
    record.resize(length, 0);
    place.copy_from_slice(&record);
}

fn damaged_book(random: &mut Random, i: usize) -> Case {
    let (rulebook, last_date) = start_of_book(random);
    let mut book = sound_book(random, rulebook, last_date);
    for _ in 0..random.below(3) {
        book = damage(random, book);
    }
    let other = random.pick(&[rulebook, rulebook, rulebook, 3 - rulebook]);
    let date = if random.one_in(4) { any_date(random) } else { next_date(random, last_date) };
    let mut day = some_day(random, other, date, 120);
    let log = some_log(random, &mut day);
    let feed = feed_for(random, &log);
    clerk(format!("random {i}: a damaged book"), BookFile::Bytes(book), vec![(log, feed)])
}
