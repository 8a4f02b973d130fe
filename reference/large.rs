//! Logs of a million records over full tables, with as many findings as a million records can bring.
use crate::build::{self, Day, Record, Total};
use crate::cases::{clerk_expecting, expecting, why, BookFile, Case, Feed};
use crate::edges::full_day;
use crate::random::Random;

const MILLION: usize = 1_000_000;

/// One of the group's four accounts.
fn account_of(random: &mut Random, day: &Day, group: usize) -> u32 {
    day.accounts[group - 1 + 128 * random.below(4)].number
}

/// Five self-trades on each of the 2,048 ladders of kind 1, then large cancels that count twice: 100 on each ladder of
/// kind 3, and 400 more on as many as there is room for, so that those reach kind 2 as well. Brokers go through all
/// their numbers, again and again.
fn records(random: &mut Random, day: &Day) -> Vec<Vec<u8>> {
    let ladders: Vec<(usize, u16)> = (1..=128).flat_map(|group| (0..16).map(move |f| (group, 101 + f))).collect();
    let mut all = Vec::with_capacity(MILLION + 1);
    let mut brokers = (1..=u16::MAX).cycle();
    let mut order = |instruction, purpose| (instruction, purpose, brokers.next().unwrap());
    for &(group, contract) in &ladders {
        for _ in 0..5 {
            let (buyer, seller) = (account_of(random, day, group), account_of(random, day, group));
            let orders = [order(1, 1), order(5, 3)];
            all.push(Record::Trade { contract, buyer, seller, lots: 7, orders }.bytes(day.version));
        }
    }
    for times in [100, 400] {
        for &(group, contract) in &ladders {
            for _ in 0..times {
                let account = account_of(random, day, group);
                all.push(Record::Cancel { contract, account, lots: 800, order: order(6, 1) }.bytes(day.version));
            }
        }
    }
    all.truncate(MILLION);
    for i in (1..all.len()).rev() {
        all.swap(i, random.below(i + 1));
    }
    all
}

fn book() -> Vec<u8> {
    let totals: Vec<Total> = (1..=128).map(|group| Total { group, kind: 2, family: 3, total: 2 }).collect();
    build::book(2, 20240304, &totals)
}

/// The book and the log without its end record.
fn million(random: &mut Random, version: u16) -> (Vec<u8>, Vec<u8>) {
    let day = Day { version, ..full_day(2, 20240305) };
    let mut log = day.tables();
    records(random, &day).iter().for_each(|record| log.extend(record));
    (book(), log)
}

/// The log as `time` runs it.
pub fn million_log(random: &mut Random, version: u16) -> (Vec<u8>, Vec<u8>) {
    let (book, mut log) = million(random, version);
    log.extend(build::end_record(version, MILLION as u32));
    (book, log)
}

/// All tails after a log of version 1; in version 2 the first two, as each is a long run. Then two of why.
pub fn large_cases(random: &mut Random) -> Vec<Case> {
    let mut all: Vec<Case> =
        [(1, 5), (2, 2)].into_iter().flat_map(|(version, tails)| with_tails(random, version, tails)).collect();
    all.extend([(1, &["1000000"][..], 0), (2, &[], 14)].map(|asked| why_of_a_million(random, asked)));
    all
}

/// The last record of a million by its number; or all that were spared, with one record too many.
fn why_of_a_million(random: &mut Random, (version, words, number): (u16, &[&str], u8)) -> Case {
    let (_, mut log) = million(random, version);
    if number == 14 {
        log.extend_from_within(log.len() - build::record_length(version)..);
    }
    log.extend(build::end_record(version, MILLION as u32));
    expecting(why(format!("why {words:?} of a million records"), words, log, Feed::Uneven), vec![number])
}

fn with_tails(random: &mut Random, version: u16, most: usize) -> Vec<Case> {
    let (book, log) = million(random, version);
    let good = log[log.len() - build::record_length(version)..].to_vec();
    let mut bad = good.clone();
    bad[0] = 9;
    let end = build::end_record(version, MILLION as u32);
    let tails = [
        ("a million records", end.clone(), 0),
        ("a million records and one", [&good[..], &build::end_record(version, MILLION as u32 + 1)].concat(), 14),
        ("a million records and a bad one", [bad, end.clone()].concat(), 11),
        ("a million records and a cut-off one", good[..good.len() - 1].to_vec(), 1),
        ("a million records and a byte after the end", [end, vec![0]].concat(), 1),
    ];
    let with_tail = |(name, tail, number): (&str, Vec<u8>, u8)| {
        let whole = [&log[..], &tail].concat();
        let name = format!("{name}, version {version}");
        clerk_expecting(name, BookFile::Bytes(book.clone()), vec![(whole, Feed::Uneven)], vec![number])
    };
    tails.into_iter().take(most).map(with_tail).collect()
}
