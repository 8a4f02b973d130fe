//! Random days and books that are sound, leaning to the edges of what is allowed.
use crate::build::{Account, Contract, Day, Order, Record, Total};
use crate::dates;
use crate::random::Random;

pub const LARGEST: [u32; 14] = [1, 2, 3, 4, 5, 6, 9, 10, 50, 999, 1_000, 1_001, 999_999, 1_000_000];
pub const GROUPS: [u8; 8] = [1, 2, 3, 63, 64, 100, 127, 128];
pub const EDGE_DATES: [u32; 16] = [
    20000101, 20000228, 20000229, 20000301, 20231231, 20240101, 20240105, 20240228, 20240229, 20240301, 20241230,
    20241231, 20250101, 20250228, 20991230, 20991231,
];

pub fn any_date(random: &mut Random) -> u32 {
    if random.one_in(3) {
        return random.pick(&EDGE_DATES);
    }
    let (year, month) = (random.within(2000, 2099), random.within(1, 12));
    (year * 10_000 + month * 100 + random.within(1, 28)) as u32
}

/// The first real day after some steps; none where the calendar is over.
pub fn later(date: u32, steps: usize) -> Option<u32> {
    let mut days = (date + 1..=20991231).filter(|&next| dates::is_day(next));
    days.nth(steps.max(1) - 1)
}

/// A later date: mostly the next ones, at times the turn of the year.
pub fn some_later(random: &mut Random, date: u32) -> u32 {
    let year = dates::year(date);
    let turn = random.pick(&[year * 10_000 + 1231, (year + 1) * 10_000 + 101, (year + 1) * 10_000 + 1231]);
    if random.one_in(4) && turn > date && dates::is_day(turn) {
        return turn;
    }
    later(date, random.within(1, 4)).unwrap_or(20991231)
}

pub fn some_contracts(random: &mut Random, rulebook: u8, n: usize) -> Vec<Contract> {
    let mut id = if random.one_in(3) { 65_535 - 32 } else { random.within(0, 500) as u16 };
    let products = random.pick(&[1, 2, 16]);
    (0..n)
        .map(|_| {
            id += if id < 60_000 { random.within(1, 300) as u16 } else { 1 };
            let contract_type = if rulebook == 1 { random.within(1, 2) as u8 } else { 1 };
            let product = if random.one_in(6) { 15 } else { random.below(products) as u8 };
            Contract { id, contract_type, product, largest: random.pick(&LARGEST) }
        })
        .collect()
}

pub fn some_accounts(random: &mut Random, n: usize) -> Vec<Account> {
    let mut number = if random.one_in(4) { u32::MAX - 512 } else { random.within(0, 70_000) as u32 };
    let members = random.pick(&[1, 2, 4, 1_000]);
    (0..n)
        .map(|_| {
            number += if number < u32::MAX - 100_000 { random.within(1, 300) as u32 } else { 1 };
            let kind = if random.one_in(members) { 2 } else { 1 };
            Account { number, group: random.pick(&GROUPS), kind }
        })
        .collect()
}

const BROKERS: [u16; 7] = [1, 255, 256, 257, 512, 65_280, 65_535];

/// Half of them have a byte that is zero, or are at an end of the range.
pub fn some_broker(random: &mut Random) -> u16 {
    if random.one_in(2) {
        return random.pick(&BROKERS);
    }
    random.within(1, 65_535) as u16
}

/// The same record, sent by others.
pub fn from_other_brokers(random: &mut Random, record: &Record) -> Record {
    let mut record = record.clone();
    match &mut record {
        Record::Trade { orders, .. } => orders.iter_mut().for_each(|order| order.2 = some_broker(random)),
        Record::Cancel { order, .. } => order.2 = some_broker(random),
    }
    record
}

fn instructions(rulebook: u8) -> &'static [u8] {
    if rulebook == 1 {
        &[1, 2, 3, 4, 5, 6]
    } else {
        &[1, 2, 5, 6]
    }
}

pub fn any_order(random: &mut Random, rulebook: u8) -> Order {
    (random.pick(instructions(rulebook)), random.within(1, 4) as u8, some_broker(random))
}

/// Mostly a plain or FOK order of an ordinary purpose, so that days reach their numbers.
pub fn some_order(random: &mut Random, rulebook: u8) -> Order {
    let usual = if rulebook == 1 { 1 } else { random.pick(&[1, 5, 6]) };
    let instruction = if random.one_in(5) { random.pick(instructions(rulebook)) } else { usual };
    let purpose = if random.one_in(5) { random.within(1, 4) as u8 } else { 1 };
    (instruction, purpose, some_broker(random))
}

/// Either side of four fifths of the largest order, and the ends of the range.
pub fn some_lots(random: &mut Random, largest: u32) -> u32 {
    let fifths = 4 * largest / 5;
    let lots = random.pick(&[1, fifths.max(1) - 1, fifths, fifths + 1, fifths + 2, largest, largest + 1, 1_000_000]);
    lots.clamp(1, 1_000_000)
}

pub fn some_record(random: &mut Random, day: &Day) -> Record {
    let contract = &day.contracts[random.below(day.contracts.len())];
    let first = &day.accounts[random.below(day.accounts.len())];
    let (contract, lots) = (contract.id, some_lots(random, contract.largest));
    if random.one_in(2) {
        return Record::Cancel { contract, account: first.number, lots, order: some_order(random, day.rulebook) };
    }
    let same_group: Vec<u32> = day.accounts.iter().filter(|a| a.group == first.group).map(|a| a.number).collect();
    let any = day.accounts[random.below(day.accounts.len())].number;
    let seller = if random.one_in(4) { any } else { random.pick(&same_group) };
    let orders = [some_order(random, day.rulebook), some_order(random, day.rulebook)];
    Record::Trade { contract, buyer: first.number, seller, lots, orders }
}

/// How often a record comes: once, or near one of the numbers.
fn some_times(random: &mut Random, is_trade: bool, most: u32) -> u32 {
    let near: &[u32] = if is_trade { &[1, 2, 4, 5, 6] } else { &[1, 2, 99, 100, 101, 399, 400, 401, 499, 500, 501] };
    random.pick(near).min(most)
}

pub fn some_version(random: &mut Random) -> u16 {
    random.within(1, 2) as u16
}

/// A day of some bursts. Big tables where asked for; `most` keeps a day's log short.
pub fn some_day(random: &mut Random, rulebook: u8, date: u32, most: u32) -> Day {
    let (c, a) = if random.one_in(12) {
        (random.pick(&[31, 32]), random.pick(&[511, 512]))
    } else {
        (random.within(1, 5), random.within(1, 8))
    };
    let (contracts, accounts) = (some_contracts(random, rulebook, c), some_accounts(random, a));
    let mut day = Day { rulebook, version: some_version(random), date, contracts, accounts, records: Vec::new() };
    for _ in 0..random.within(0, 7) {
        let record = some_record(random, &day);
        let times = some_times(random, matches!(record, Record::Trade { .. }), most);
        day.records.push((record, times));
    }
    day
}

/// A sound book: totals go up to the day number of its last date.
pub fn some_totals(random: &mut Random, rulebook: u8, last_date: u32) -> Vec<Total> {
    let highest = dates::day_number(last_date) as usize;
    let families = if rulebook == 1 { 2 } else { 16 };
    let n = if highest == 0 { 0 } else { random.pick(&[0, 5, 60]) };
    (0..n)
        .map(|_| {
            let total = random.pick(&[1, 2, 3, 4, 5, 6, 7, highest - 1, highest]).min(highest) as u16;
            let (group, kind) = (random.pick(&GROUPS) as usize, random.within(1, 3));
            Total { group, kind, family: random.below(families), total }
        })
        .collect()
}
