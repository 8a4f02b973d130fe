//! The edges of request K2: versions, the length of a record, brokers. The numbers are the request's own, and not the
//! reference's.
use crate::build::{self, Day, Record};
use crate::cases::{clerk_expecting, replay_expecting, BookFile, Case, Feed};
use crate::clerk_edges::{example_book, example_day};
use crate::edges::{small_day, taken_once};
use crate::random::Random;
use crate::scene::{changed_scenes, scene_cell, Change, Scene};

pub fn broker_edges(random: &mut Random) -> Vec<Case> {
    let scenes = [
        ("open", "versions", versions()),
        ("take", "lengths", lengths()),
        ("end", "lengths", lengths()),
        ("take", "brokers", brokers()),
        ("end", "bytes of brokers", end_bytes()),
        ("take", "the order around brokers", take_order()),
        ("end", "the order around brokers", end_order()),
    ];
    let mut all = Vec::new();
    for rulebook in [1, 2] {
        for (call, what, rows) in &scenes {
            let script = changed_scenes(random, call, (rulebook, 2), rows.iter().map(|row| &row.0));
            let numbers = rows.iter().map(|row| row.1).collect();
            all.push(replay_expecting(format!("{call}, {what}, rulebook {rulebook}"), script, numbers));
        }
        all.extend(counted_across_brokers(rulebook));
    }
    all.extend(logs());
    all.extend(long_logs());
    all
}

/// A change of a good scene of version 2, and the number that is then due.
type Row = (Change, u8);

fn row(number: u8, change: impl Fn(&mut Scene) + 'static) -> Row {
    (Box::new(change), number)
}

/// 3 is any version but 1 and 2; it comes after the mark's 2 and before the rulebook's 4.
fn versions() -> Vec<Row> {
    let good = [1, 2].map(|version| (version, 0));
    let bad = [0u16, 3, 255, 256, 257, 258, 512, 513, 65_535].map(|version| (version, 3));
    let in_tables = |(version, number)| row(number, move |s| s.put(4, &u16::to_le_bytes(version)));
    let mut all: Vec<Row> = good.into_iter().chain(bad).map(in_tables).collect();
    all.push(row(2, |s| {
        s.put(2, b"B");
        s.put(4, &[3]);
    }));
    all.push(row(3, |s| s.put(3, &[3, 3])));
    all
}

/// By the versions of the open day and of the tables that are handed: the numbers for lengths. A length goes by the
/// open day, which made by hand may have any version, and its 1 comes before 19.
fn lengths() -> Vec<Row> {
    const BY_HAND: [(usize, u8); 2] = [(20, 19), (24, 1)];
    let rows: [(u16, u16, &[(usize, u8)]); 14] = [
        (1, 1, &[(20, 0), (0, 1), (1, 1), (19, 1), (21, 1), (23, 1), (24, 1), (25, 1), (40, 1)]),
        (2, 2, &[(24, 0), (0, 1), (1, 1), (19, 1), (20, 1), (21, 1), (23, 1), (25, 1), (44, 1), (48, 1)]),
        (2, 1, &[(20, 1), (24, 19)]),
        (1, 2, &[(20, 19), (24, 1)]),
        (0, 1, &BY_HAND),
        (0, 2, &BY_HAND),
        (3, 1, &BY_HAND),
        (3, 2, &BY_HAND),
        (3, 3, &BY_HAND),
        (257, 1, &BY_HAND),
        (258, 2, &BY_HAND),
        (258, 258, &BY_HAND),
        (512, 2, &BY_HAND),
        (512, 512, &BY_HAND),
    ];
    let of_length = |(of_day, of_tables, length, number): (u16, u16, usize, u8)| {
        row(number, move |s| {
            s.day.iter_mut().for_each(|(head, _)| head[1..3].copy_from_slice(&of_day.to_le_bytes()));
            s.put(4, &of_tables.to_le_bytes());
            s.record.resize(length, 0);
        })
    };
    let flat = rows.iter().flat_map(|&(day, tables, numbers)| numbers.iter().map(move |&(l, n)| (day, tables, l, n)));
    flat.map(of_length).collect()
}

/// First and second broker, and the number: of trades, then of cancels.
fn brokers() -> Vec<Row> {
    let trades = [
        (1, 65_535, 0),
        (65_535, 1, 0),
        (255, 257, 0),
        (256, 256, 0),
        (65_280, 65_280, 0),
        (0, 7, 11),
        (7, 0, 11),
        (0, 0, 11),
        (0, 256, 11),
        (65_280, 0, 11),
    ];
    let cancels = [
        (1, 0, 0),
        (255, 0, 0),
        (256, 0, 0),
        (65_280, 0, 0),
        (65_535, 0, 0),
        (0, 0, 11),
        (0, 7, 11),
        (7, 1, 11),
        (7, 256, 11),
        (7, 65_280, 11),
        (7, 65_535, 11),
    ];
    let set = |s: &mut Scene, brokers: [u16; 2]| s.set_record(20, &brokers.map(u16::to_le_bytes).concat());
    let of_trade = |(first, second, number)| row(number, move |s| set(s, [first, second]));
    let of_cancel = |(first, second, number)| {
        row(number, move |s| {
            s.make_cancel();
            set(s, [first, second]);
        })
    };
    trades.into_iter().map(of_trade).chain(cancels.into_iter().map(of_cancel)).collect()
}

fn end_bytes() -> Vec<Row> {
    let each = (20..24).flat_map(|at| [(at, 0, 0), (at, 1, 11), (at, 128, 11), (at, 255, 11)]);
    each.map(|(at, byte, number)| row(number, move |s| s.set_record(at, &[byte]))).collect()
}

type Set = fn(&mut Scene);

/// Each broker's fault with each other fault: the number of the earlier.
fn with_others(faults: &[Set], others: &[(u8, Set)]) -> Vec<Row> {
    let both = |fault: Set, (number, other): (u8, Set)| {
        row(number, move |s| {
            fault(s);
            other(s);
        })
    };
    faults.iter().flat_map(|&fault| others.iter().map(move |&other| both(fault, other))).collect()
}

/// 10, 1, 16 and 19 (tables) come before the broker's 11; 12, 13, 14 and 19 (cells) after it.
fn take_order() -> Vec<Row> {
    let faults: [Set; 3] = [
        |s| s.set_record(20, &[0; 2]),
        |s| s.set_record(22, &[0; 2]),
        |s| {
            s.make_cancel();
            s.set_record(22, &[0, 1]);
        },
    ];
    let others: [(u8, Set); 10] = [
        (10, |s| s.day = None),
        (1, |s| s.record.truncate(23)),
        (1, |s| s.record.push(0)),
        (16, |s| s.counts.0 = 12_287),
        (19, |s| s.put(4, &[1])),
        (11, |s| s.set_record(2, &[0; 2])),
        (11, |s| s.set_record(4, &[0; 4])),
        (11, |s| s.set_record(8, &[0; 4])),
        (11, |s| s.set_taken(1_000_000)),
        (11, |s| s.cells.extend([1, 2, 3].map(|kind| (scene_cell(kind), u32::MAX)))),
    ];
    with_others(&faults, &others)
}

/// 10, 1, 16 and 19 (tables) come before the 11; 15, 17, 18, 9, 19 (cells) and 20 after it.
fn end_order() -> Vec<Row> {
    let faults: [Set; 2] = [|s| s.set_record(20, &[1]), |s| s.set_record(23, &[1])];
    let others: [(u8, Set); 11] = [
        (10, |s| s.day = None),
        (1, |s| s.record.push(0)),
        (16, |s| s.counts.0 = 12_287),
        (19, |s| s.put(4, &[1])),
        (11, |s| s.set_record(4, &[255; 4])),
        (11, |s| s.book.length = 12_303),
        (11, |s| s.book.head[3] = 3 - s.book.head[3]),
        (11, |s| s.book.set_date(20991231)),
        (11, |s| s.cells.push((0, u32::MAX))),
        (11, |s| s.findings.0 = 0),
        (11, |_| ()),
    ];
    with_others(&faults, &others)
}

/// Times add up over brokers: with no room for a finding, 20 tells that there is one.
fn counted_across_brokers(rulebook: u8) -> [Case; 4] {
    let day = Day { version: 2, ..small_day(rulebook, 20240305, &[(1, 0)], &[(3, 1)]) };
    let instruction = if rulebook == 1 { 1 } else { 5 };
    let record = |is_trade, broker| {
        let order = (instruction, 1, broker);
        match is_trade {
            true => Record::Trade { contract: 101, buyer: 11, seller: 11, lots: 1, orders: [order, (1, 1, 7)] },
            false => Record::Cancel { contract: 101, account: 11, lots: 1, order },
        }
    };
    [(true, 4, 0), (true, 5, 20), (false, 499, 0), (false, 500, 20)].map(|(is_trade, times, number)| {
        let mut script = taken_once(&day, &[]);
        script.findings(7, 0);
        for (part, broker) in [(times / 2, 256), (times - times / 2, 65_535)] {
            script.take_often(part, &record(is_trade, broker).bytes(day.version));
        }
        script.end(&build::end_record(day.version, times));
        let name = format!("{times} times over two brokers, rulebook {rulebook}");
        replay_expecting(name, script, vec![0, 0, 0, 0, number])
    })
}

/// The worked example's log of version 2 around its end, and logs whose header has another version than their records.
fn logs() -> Vec<Case> {
    let [one, two] = [1, 2].map(|version| Day { version, ..example_day() }.log());
    let without = |bytes: usize| two[..two.len() - bytes].to_vec();
    let with_after = |bytes: usize| [&two[..], &vec![0; bytes]].concat();
    let called = |version, log: &[u8]| [&log[..4], &[version], &log[5..]].concat();
    let rows = [
        ("whole", two.clone(), 0),
        ("without a byte", without(1), 1),
        ("with 20 bytes of its end", without(4), 1),
        ("without its end", without(24), 1),
        ("with 20 bytes of its last record", without(24 + 4), 1),
        ("with a byte after its end", with_after(1), 1),
        ("with 4 bytes after its end", with_after(4), 1),
        ("with 24 bytes after its end", with_after(24), 1),
        ("called version 1", called(1, &two), 11),
        ("called version 3", called(3, &two), 3),
        ("with records of version 1", called(2, &one), 11),
    ];
    let case = |(what, log, number): (&str, Vec<u8>, u8)| {
        let book = BookFile::Bytes(example_book());
        clerk_expecting(format!("a log of version 2 {what}"), book, vec![(log, Feed::Pipe)], vec![number])
    };
    rows.map(case).into()
}

/// The clerk reads pieces of 65,520 bytes, of 3,276 records or of 2,730: the end is in a piece, at its end or after it;
/// some bytes are missing or follow.
fn long_logs() -> Vec<Case> {
    let mut all = Vec::new();
    for (version, in_piece) in [(1, 3_276), (2, 2_730)] {
        for records in [in_piece - 2, in_piece - 1, in_piece, in_piece + 1, 2 * in_piece - 1] {
            let log = long_day(version, records).log();
            for (more, number) in [(0, 0), (1, 1), (-1, 1), (-20, 1), (-24, 1)] {
                let mut log = log.clone();
                log.resize(log.len().saturating_add_signed(more), 0);
                let name = format!("{records} records of version {version} and {more} bytes");
                let book = BookFile::Bytes(example_book());
                all.push(clerk_expecting(name, book, vec![(log, Feed::Uneven)], vec![number]));
            }
        }
    }
    all
}

/// The worked example with as many trades, each with brokers of its own.
fn long_day(version: u16, records: u16) -> Day {
    let trade = |broker| {
        let orders = [(1, 1, broker), (1, 1, u16::MAX - broker)];
        Record::Trade { contract: 101, buyer: 11, seller: 12, lots: 1, orders }
    };
    Day { version, records: (1..=records).map(|broker| (trade(broker), 1)).collect(), ..example_day() }
}
