//! Faults, each with the refusal that it brings where it stands alone, and how it is put into a scene.
use crate::book::DAYS;
use crate::book_scene::{book_faults, wrong_lengths, BookChange};
use crate::refusal::Refusal;
use crate::scene::{scene_cell, Change, Scene};

pub struct Fault {
    pub refusal: Refusal,
    pub make: Change,
}

fn fault(refusal: Refusal, make: impl Fn(&mut Scene) + 'static) -> Fault {
    Fault { refusal, make: Box::new(make) }
}

pub const BAD_DATES: [u32; 16] = [
    1,
    19991231,
    21000101,
    20230229,
    20240230,
    20240431,
    20240631,
    20240931,
    20241131,
    20241301,
    20240001,
    20240100,
    20240132,
    20241232,
    20240301 + 65_536 * 256,
    u32::MAX,
];

/// With a low byte of 1 and of 2, and with 2 in the high byte alone, among them.
pub const BAD_VERSIONS: [u16; 7] = [0, 3, 257, 258, 512, 513, 65_535];

/// Ids of a scene's contracts 101, 102 and 65,000 that do not rise, and numbers of its accounts 11, 12, 300 and 70,000.
pub const BAD_IDS: [(usize, u16); 9] =
    [(0, 0), (0, 102), (0, 65_000), (1, 0), (1, 101), (1, 65_000), (2, 102), (2, 101), (2, 1)];
pub const BAD_NUMBERS: [(usize, u32); 9] =
    [(0, 0), (0, 12), (1, 0), (1, 11), (1, 300), (1, 301), (2, 12), (3, 300), (3, 1)];
/// Group, kind and the two bytes that are zero.
pub const BAD_ACCOUNT_BYTES: [(usize, u8); 8] = [(4, 0), (4, 129), (4, 255), (5, 0), (5, 3), (5, 255), (6, 1), (7, 1)];

/// Faults in the tables' header: 1 (under 16) to 6.
fn header_faults() -> Vec<Fault> {
    let mut all = Vec::new();
    for length in [0, 1, 3, 15] {
        all.push(fault(Refusal::Short, move |s| s.tables.truncate(length)));
    }
    for (at, byte) in [(0, b'B'), (1, b'Y'), (2, b'B'), (0, 0), (2, b'd')] {
        all.push(fault(Refusal::Mark, move |s| s.put(at, &[byte])));
    }
    for version in BAD_VERSIONS {
        all.push(fault(Refusal::Version, move |s| s.put(4, &version.to_le_bytes())));
    }
    for rulebook in [0, 3, 255] {
        all.push(fault(Refusal::Rulebook, move |s| s.put(3, &[rulebook])));
    }
    for date in BAD_DATES.into_iter().chain([0]) {
        all.push(fault(Refusal::Date, move |s| s.put(6, &date.to_le_bytes())));
    }
    for (at, number) in [(10, 0u16), (10, 33), (10, 65_535), (12, 0), (12, 513), (12, 65_535), (14, 1), (14, 256)] {
        all.push(fault(Refusal::Header, move |s| s.put(at, &number.to_le_bytes())));
    }
    all
}

/// Faults in the tables: 1 (not the header's length), 7, 8.
fn entry_faults() -> Vec<Fault> {
    let mut all = Vec::new();
    for extra in [1, 8, 20] {
        all.push(fault(Refusal::Length, move |s| s.tables.resize(s.tables.len() + extra, 0)));
    }
    for missing in [1, 8] {
        all.push(fault(Refusal::Length, move |s| s.tables.truncate(s.tables.len().saturating_sub(missing))));
    }
    all.push(fault(Refusal::Length, |s| s.tables.truncate(16)));
    for place in [0, 1, 2] {
        for (at, byte) in [(2, 0), (2, 3), (2, 255), (3, 16), (3, 255)] {
            all.push(fault(Refusal::Contract, move |s| s.put(s.contract_at(place) + at, &[byte])));
        }
        for largest in [0u32, 1_000_001, u32::MAX] {
            all.push(fault(Refusal::Contract, move |s| s.put(s.contract_at(place) + 4, &largest.to_le_bytes())));
        }
    }
    for (place, id) in BAD_IDS {
        all.push(fault(Refusal::Contract, move |s| s.put(s.contract_at(place), &id.to_le_bytes())));
    }
    for place in [0, 1, 2, 3] {
        for (at, byte) in BAD_ACCOUNT_BYTES {
            all.push(fault(Refusal::Account, move |s| s.put(s.account_at(place) + at, &[byte])));
        }
    }
    for (place, number) in BAD_NUMBERS {
        all.push(fault(Refusal::Account, move |s| s.put(s.account_at(place), &number.to_le_bytes())));
    }
    all
}

/// Only rulebook 2 has no options.
fn option_fault() -> Fault {
    fault(Refusal::Contract, |s| match s.rulebook() {
        1 => s.put(s.contract_at(2) + 2, &[3]),
        _ => s.put(s.contract_at(2) + 2, &[2]),
    })
}

fn table_faults() -> Vec<Fault> {
    let mut all = header_faults();
    all.extend(entry_faults());
    all.push(option_fault());
    all
}

fn of_book(changes: Vec<BookChange>) -> Vec<Fault> {
    changes.into_iter().map(|change| fault(Refusal::Book, move |s| change(&mut s.book))).collect()
}

/// 18 and 9, of a book that is sound.
fn day_book_faults() -> Vec<Fault> {
    let mut all = vec![fault(Refusal::OtherRulebook, |s| s.book.head[3] = 3 - s.book.head[3])];
    all.push(fault(Refusal::NotLater, |s| {
        let date = s.tables[6..10].to_vec();
        s.book.head[6..10].copy_from_slice(&date);
        s.book.totals.clear();
    }));
    all.push(fault(Refusal::NotLater, |s| s.book.set_date(20991231)));
    all
}

fn counts_faults() -> Vec<Fault> {
    [0, 1, 12_287].map(|n| fault(Refusal::Counts, move |s| s.counts.0 = n)).into()
}

pub fn open_faults() -> Vec<Fault> {
    let some_head = [1, 1, 0, 0x31, 0xd8, 0x34, 1, 3, 0, 4, 0, 0, 0];
    let mut all = vec![fault(Refusal::DayState, move |s| s.day = Some((some_head.to_vec(), 7)))];
    all.extend(table_faults());
    all.extend(of_book(book_faults(&DAYS)));
    all.extend(day_book_faults());
    all.extend(counts_faults());
    all
}

/// How take and end begin: 10, 1, 16, 19 (tables).
fn start_faults() -> Vec<Fault> {
    let mut all = vec![fault(Refusal::DayState, |s| s.day = None)];
    for length in [0, 1, 19, 20, 21, 23, 24, 25, 40, 44, 48, 64] {
        all.push(fault(Refusal::Length, move |s| wrong_length(s, length)));
    }
    all.push(fault(Refusal::Length, other_length_due));
    all.extend(counts_faults());
    all.extend(table_faults().into_iter().map(as_changed));
    all.extend(table_faults().into_iter().map(as_changed).map(with_day_following));
    for at in 0..13 {
        all.push(fault(Refusal::TablesChanged, move |s| s.change_day(|head| head[at] ^= 2)));
    }
    for version in BAD_VERSIONS {
        all.push(fault(Refusal::TablesChanged, move |s| {
            s.change_day(|head| head[1..3].copy_from_slice(&version.to_le_bytes()));
        }));
    }
    // the other good version, in the state and in the tables
    all.push(fault(Refusal::TablesChanged, |s| {
        let other = 3 - s.version as u8;
        s.change_day(|head| head[1] = other);
    }));
    all.push(fault(Refusal::TablesChanged, |s| s.put(4, &[3 - s.version as u8])));
    all
}

/// A record fits the open day until now: where this length does too, it gets that of the other version.
fn wrong_length(s: &mut Scene, length: usize) {
    let other = if length == 24 { 20 } else { 24 };
    s.record.resize(if length == s.record.len() { other } else { length }, 0);
}

/// The record stays, and the open day is of the other version, whatever the tables are.
fn other_length_due(s: &mut Scene) {
    let version = if s.record.len() == 24 { 1 } else { 2 };
    s.day.iter_mut().for_each(|day| day.0[1..3].copy_from_slice(&[version, 0]));
}

fn as_changed(table_fault: Fault) -> Fault {
    Fault { refusal: Refusal::TablesChanged, make: table_fault.make }
}

/// The same with the open day's header as bad as the tables'.
fn with_day_following(table_fault: Fault) -> Fault {
    fault(Refusal::TablesChanged, move |s| {
        (table_fault.make)(s);
        if s.tables.len() >= 16 {
            s.follow_tables();
        }
    })
}

fn record_faults() -> Vec<Fault> {
    let mut all = Vec::new();
    for (at, byte) in [(0, 0), (0, 3), (0, 4), (0, 255), (1, 1), (1, 255)] {
        all.push(fault(Refusal::Record, move |s| s.set_record(at, &[byte])));
    }
    for lots in [0u32, 1_000_001, u32::MAX] {
        all.push(fault(Refusal::Record, move |s| s.set_record(12, &lots.to_le_bytes())));
    }
    for (at, byte) in [(16, 0), (16, 7), (16, 255), (17, 0), (17, 5), (17, 255)] {
        all.push(fault(Refusal::Record, move |s| s.set_record(at, &[byte])));
    }
    for (at, byte) in [(18, 0), (18, 7), (18, 255), (19, 0), (19, 5), (19, 255)] {
        all.push(fault(Refusal::Record, move |s| second_order_fault(s, at, byte)));
    }
    for (instead, arbitrage_or_stop) in [(7, 3), (0, 4)] {
        let byte = move |s: &Scene| if s.rulebook() == 2 { arbitrage_or_stop } else { instead };
        all.push(fault(Refusal::Record, move |s| s.set_record(16, &[byte(s)])));
        all.push(fault(Refusal::Record, move |s| second_order_fault(s, 18, byte(s))));
    }
    for at in [1, 8, 9, 10, 11, 18, 19] {
        all.push(fault(Refusal::Record, move |s| {
            s.make_cancel();
            s.set_record(at, &[1]);
        }));
    }
    all
}

/// In scenes of version 2: a broker that is due is not there, or a cancel has a second one.
fn broker_faults() -> Vec<Fault> {
    let mut all = vec![fault(Refusal::Brokers, |s| s.set_record(20, &[0; 2]))];
    all.push(fault(Refusal::Brokers, |s| s.set_record(20, &[0; 4])));
    all.push(fault(Refusal::Brokers, |s| {
        s.make_trade();
        s.set_record(22, &[0; 2]);
    }));
    for brokers in [[7, 0, 1, 0], [7, 0, 0, 1], [7, 0, 7, 0], [0, 0, 7, 0], [0, 1, 0, 255]] {
        all.push(fault(Refusal::Brokers, move |s| {
            s.make_cancel();
            s.set_record(20, &brokers);
        }));
    }
    all
}

/// Of a trade, whatever another fault made of the record: a cancel's zero would be right.
fn second_order_fault(s: &mut Scene, at: usize, byte: u8) {
    s.make_trade();
    s.set_record(at, &[byte]);
}

pub fn take_faults() -> Vec<Fault> {
    let mut all = start_faults();
    all.extend(record_faults());
    all.extend(broker_faults());
    for id in [0u16, 100, 103, 64_999, 65_001, 65_535] {
        all.push(fault(Refusal::NoContract, move |s| s.set_record(2, &id.to_le_bytes())));
    }
    for number in [0u32, 1, 10, 13, 301, 69_999, 70_001, u32::MAX] {
        all.push(fault(Refusal::NoAccount, move |s| s.set_record(4, &number.to_le_bytes())));
        all.push(fault(Refusal::NoAccount, move |s| {
            s.make_trade();
            s.set_record(8, &number.to_le_bytes());
        }));
    }
    all.push(fault(Refusal::NoAccount, |s| {
        s.make_cancel();
        s.set_record(4, &0u32.to_le_bytes());
    }));
    for taken in [1_000_000, 1_000_001, 4_000_000_000] {
        all.push(fault(Refusal::Full, move |s| s.set_taken(taken)));
    }
    all.push(fault(Refusal::CellsChanged, |s| s.cells.push((scene_cell(1), u32::MAX))));
    all.push(fault(Refusal::CellsChanged, |s| s.cells.push((scene_cell(1), s.taken() + 1))));
    for kind in [2, 3] {
        all.push(fault(Refusal::CellsChanged, move |s| {
            s.make_cancel();
            s.cells.push((scene_cell(kind), u32::MAX));
        }));
    }
    all.push(fault(Refusal::CellsChanged, market_maker));
    all
}

/// In rulebook 1 market making in futures counts for kind 2; in rulebook 2 it does not, so there the purpose stays.
fn market_maker(s: &mut Scene) {
    s.make_cancel();
    if s.rulebook() == 1 {
        s.set_record(17, &[4]);
    }
    s.cells.push((scene_cell(2), u32::MAX));
}

pub fn end_faults() -> Vec<Fault> {
    let mut all = start_faults();
    for record_type in [0, 1, 2, 4, 255] {
        all.push(fault(Refusal::Record, move |s| s.set_record(0, &[record_type])));
    }
    for at in [1, 2, 3, 8, 9, 10, 11, 12, 13, 14, 15, 16, 17, 18, 19] {
        all.push(fault(Refusal::Record, move |s| s.set_record(at, &[1])));
    }
    for (at, byte) in [(20, 1), (21, 1), (22, 1), (23, 1), (20, 255), (23, 128)] {
        all.push(fault(Refusal::Brokers, move |s| s.set_record(at, &[byte])));
    }
    for change in [-1, 1, 256, 65_536] {
        all.push(fault(Refusal::EndNumber, move |s| {
            let number = s.taken().wrapping_add_signed(change);
            s.set_record(4, &number.to_le_bytes());
        }));
    }
    all.extend(of_book(book_faults(&DAYS)));
    all.extend(day_book_faults());
    for cell in [0, 3, 31, 32, 6_000, 12_255, 12_287] {
        all.push(fault(Refusal::CellsChanged, move |s| s.cells.push((cell, s.taken() + 1))));
        all.push(fault(Refusal::CellsChanged, move |s| s.cells.push((cell, u32::MAX))));
    }
    for length in [0, 7] {
        all.push(fault(Refusal::Findings, move |s| s.findings.0 = length));
    }
    all
}

/// Some are 1 or 2 when cut to fewer bits.
pub const BAD_RULEBOOKS: [u64; 8] = [0, 3, 255, 257, 258, 65_537, 1 << 32 | 1, u64::MAX];

pub fn fresh_faults() -> Vec<Fault> {
    let mut all = Vec::new();
    for rulebook in BAD_RULEBOOKS {
        all.push(fault(Refusal::Rulebook, move |s| s.fresh = rulebook));
    }
    all.extend(of_book(wrong_lengths(&DAYS)));
    all
}

pub const BAD_GROUPS: [u64; 7] = [0, 129, 255, 256, 257, 1 << 32 | 3, u64::MAX];
pub const BAD_FAMILIES: [u64; 7] = [16, 17, 255, 256, 257, 1 << 32, u64::MAX];

pub fn ask_faults() -> Vec<Fault> {
    let mut all = of_book(book_faults(&DAYS));
    let kinds = [0, 4, 5, 255, 256, 257, 1 << 32 | 1, u64::MAX];
    for (which, numbers) in [&BAD_GROUPS[..], &kinds, &BAD_FAMILIES].into_iter().enumerate() {
        for &number in numbers {
            all.push(fault(Refusal::Asked, move |s| s.asked[which] = number));
        }
    }
    all
}

pub fn faults(call: &str) -> Vec<Fault> {
    match call {
        "fresh" => fresh_faults(),
        "open" => open_faults(),
        "take" => take_faults(),
        "end" => end_faults(),
        "abandon" => vec![fault(Refusal::DayState, |s| s.day = None)],
        _ => ask_faults(),
    }
}
