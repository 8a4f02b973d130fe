//! Faults of the calls on positions, each with the refusal that it brings where it stands alone. In a log each field is
//! tried on the wrong sides of its limits; the right sides are in `position_edges`.
use crate::book::POSITIONS;
use crate::book_scene::{book_faults, wrong_lengths, BookChange};
use crate::faults::{
    BAD_ACCOUNT_BYTES, BAD_DATES, BAD_FAMILIES, BAD_GROUPS, BAD_IDS, BAD_NUMBERS, BAD_RULEBOOKS, BAD_VERSIONS,
};
use crate::position_scene::{account_at, contract_at, record_at, PositionScene, RECORDS};
use crate::refusal::{Part, Refusal};

pub struct PositionFault {
    pub refusal: Refusal,
    pub make: Box<dyn Fn(&mut PositionScene)>,
}

fn fault(refusal: Refusal, make: impl Fn(&mut PositionScene) + 'static) -> PositionFault {
    PositionFault { refusal, make: Box::new(make) }
}

/// Bytes at a place of the log.
fn wrong(part: Part, at: usize, bytes: &[u8]) -> PositionFault {
    let bytes = bytes.to_vec();
    fault(Refusal::Positions(part), move |s| s.put(at, &bytes))
}

/// Some numbers change the length that is due as well.
fn header_faults() -> Vec<PositionFault> {
    let header = |at, bytes: &[u8]| wrong(Part::Header, at, bytes);
    let bytes = [(0, b'B'), (0, 0), (1, b'Y'), (2, b'D'), (2, b'Q'), (2, b'B'), (2, b'p'), (3, 0), (3, 3), (3, 255)];
    let mut all: Vec<PositionFault> = bytes.into_iter().map(|(at, byte)| header(at, &[byte])).collect();
    // a position log has one version
    for version in BAD_VERSIONS.into_iter().chain([2]) {
        all.push(header(4, &version.to_le_bytes()));
    }
    for date in BAD_DATES.into_iter().chain([0]) {
        all.push(header(6, &date.to_le_bytes()));
    }
    for (at, number) in
        [(10, 0u16), (10, 33), (10, 65_535), (12, 0), (12, 513), (12, 65_535), (14, 16_385), (14, 65_535)]
    {
        all.push(header(at, &number.to_le_bytes()));
    }
    all
}

fn length_faults() -> Vec<PositionFault> {
    let length = |make: fn(&mut PositionScene)| fault(Refusal::Positions(Part::Length), make);
    let mut all = vec![
        length(|s| s.log.truncate(s.log.len().saturating_sub(1))),
        length(|s| s.log.push(0)),
        length(|s| s.log.truncate(16)),
    ];
    all.push(length(|s| s.log.truncate(s.log.len().saturating_sub(16))));
    all.push(length(|s| s.log.extend([7; 16])));
    all.push(length(|s| s.log.truncate(record_at(0))));
    for kept in [0, 1, 3, 15] {
        all.push(fault(Refusal::Positions(Part::Length), move |s| s.log.truncate(kept)));
    }
    // the numbers are in range, and others than those that came
    for (at, number) in [(10, 2u16), (10, 4), (12, 3), (12, 5), (14, 0), (14, 11), (14, 13), (14, 16_384), (14, 268)] {
        all.push(wrong(Part::Length, at, &number.to_le_bytes()));
    }
    all
}

fn contract_faults() -> Vec<PositionFault> {
    let mut all = Vec::new();
    for place in [0, 1, 2] {
        let mut entry = |at, bytes: &[u8]| all.push(wrong(Part::Contract, contract_at(place) + at, bytes));
        for (at, byte) in [(2, 0), (2, 2), (2, 3), (2, 255), (3, 16), (3, 255), (12, 1), (13, 1), (14, 1), (15, 1)] {
            entry(at, &[byte]);
        }
        for limit in [0u32, 1_000_000_001, u32::MAX] {
            entry(4, &limit.to_le_bytes());
            entry(8, &limit.to_le_bytes());
        }
    }
    for (place, id) in BAD_IDS {
        all.push(wrong(Part::Contract, contract_at(place), &id.to_le_bytes()));
    }
    all
}

fn account_faults() -> Vec<PositionFault> {
    let mut all = Vec::new();
    for place in [0, 1, 2, 3] {
        for (at, byte) in BAD_ACCOUNT_BYTES {
            all.push(wrong(Part::Account, account_at(place) + at, &[byte]));
        }
    }
    for (place, number) in BAD_NUMBERS {
        all.push(wrong(Part::Account, account_at(place), &number.to_le_bytes()));
    }
    all
}

fn record_faults() -> Vec<PositionFault> {
    let mut all = Vec::new();
    for place in [0, 5, RECORDS - 1] {
        let mut record = |at, bytes: &[u8]| all.push(wrong(Part::Record, record_at(place) + at, bytes));
        record(2, &[1]);
        record(3, &[1]);
        for lots in [1_000_001u32, 16_777_216, u32::MAX] {
            record(8, &lots.to_le_bytes());
            record(12, &lots.to_le_bytes());
        }
    }
    // twice the same, by a fall and by a step back to the contract before; ids and numbers stay in the tables
    for (place, contract, account) in [
        (1, 101u16, 11u32),
        (2, 101, 11),
        (4, 101, 11),
        (4, 101, 70_000),
        (5, 102, 11),
        (6, 101, 300),
        (11, 65_000, 300),
        (11, 102, 70_000),
        (11, 65_000, 11),
        (0, 101, 12),
        (0, 65_000, 11),
    ] {
        let make = move |s: &mut PositionScene| {
            s.put(record_at(place), &contract.to_le_bytes());
            s.put(record_at(place) + 4, &account.to_le_bytes());
        };
        all.push(fault(Refusal::Positions(Part::Record), make));
    }
    all
}

/// Numbers that are not in the tables, in records that still rise.
fn unknown_faults() -> Vec<PositionFault> {
    let contracts = [(0, 0u16), (0, 100), (7, 103), (7, 64_999), (8, 103), (8, 64_999), (11, 65_001), (11, 65_535)];
    let contract = |(place, id): (usize, u16)| wrong(Part::Unknown, record_at(place), &id.to_le_bytes());
    let accounts = [
        (0, 0u32),
        (0, 1),
        (0, 10),
        (1, 13),
        (1, 299),
        (2, 301),
        (3, 69_999),
        (3, 70_001),
        (4, 0),
        (4, 10),
        (5, 256 + 12),
        (11, 70_001),
        (11, 70_000 + 65_536),
        (11, u32::MAX),
    ];
    let account = |(place, number): (usize, u32)| wrong(Part::Unknown, record_at(place) + 4, &number.to_le_bytes());
    let mut all: Vec<PositionFault> = contracts.map(contract).into_iter().chain(accounts.map(account)).collect();
    all.extend(contracts.map(contract).into_iter().chain(accounts.map(account)).map(of_no_lots));
    all
}

/// A position of nothing has to be somebody's as well.
fn of_no_lots(unknown: PositionFault) -> PositionFault {
    fault(unknown.refusal, move |s| {
        (0..RECORDS).for_each(|place| s.put(record_at(place) + 8, &[0; 8]));
        (unknown.make)(s);
    })
}

fn of_book(changes: Vec<BookChange>) -> Vec<PositionFault> {
    changes.into_iter().map(|change| fault(Refusal::Book, move |s| change(&mut s.book))).collect()
}

/// All that a position log can have, and nothing else.
pub fn log_faults() -> Vec<PositionFault> {
    let parts =
        [header_faults(), length_faults(), contract_faults(), account_faults(), record_faults(), unknown_faults()];
    parts.into_iter().flatten().collect()
}

fn judge_faults() -> Vec<PositionFault> {
    let mut all = log_faults();
    all.extend(of_book(book_faults(&POSITIONS)));
    all.push(fault(Refusal::OtherRulebook, |s| s.book.head[3] = 3 - s.book.head[3]));
    all.push(fault(Refusal::NotLater, |s| {
        let date = s.log[6..10].to_vec();
        s.book.head[6..10].copy_from_slice(&date);
        s.book.totals.clear();
    }));
    all.push(fault(Refusal::NotLater, |s| s.book.set_date(20991231)));
    all.extend([0, 1, 7].map(|length| fault(Refusal::Findings, move |s| s.findings.0 = length)));
    all
}

fn ask_faults() -> Vec<PositionFault> {
    let mut all = of_book(book_faults(&POSITIONS));
    let kinds = [0, 1, 2, 3, 4, 6, 255, 261, 1 << 32 | 5, u64::MAX];
    for (which, numbers) in [&BAD_GROUPS[..], &kinds, &BAD_FAMILIES].into_iter().enumerate() {
        for &number in numbers {
            all.push(fault(Refusal::Asked, move |s| s.asked[which] = number));
        }
    }
    all
}

fn fresh_faults() -> Vec<PositionFault> {
    let rulebooks = BAD_RULEBOOKS.map(|rulebook| fault(Refusal::Rulebook, move |s| s.fresh = rulebook));
    rulebooks.into_iter().chain(of_book(wrong_lengths(&POSITIONS))).collect()
}

pub fn position_faults(call: &str) -> Vec<PositionFault> {
    match call {
        "position fresh" => fresh_faults(),
        "judge" => judge_faults(),
        _ => ask_faults(),
    }
}
