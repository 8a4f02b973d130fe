//! Years of accepted days from a fresh book in which two groups offend, each alone and only together, among others.
use crate::build::{Account, Contract, Day, Record};
use crate::dates;
use crate::days::{some_broker, some_lots, some_order, some_record, some_version, GROUPS, LARGEST};
use crate::random::Random;
use crate::rules;

pub struct Year {
    pub rulebook: u8,
    /// The group that is joined, and the group whose number its accounts are given.
    pub a: u8,
    pub b: u8,
    pub days: Vec<Day>,
}

/// What a year's days are made of.
struct Cast {
    rulebook: u8,
    /// The two groups to be joined come first.
    groups: Vec<u8>,
    contracts: Vec<Contract>,
    accounts: Vec<Account>,
    /// The offences that come again and again, so that ladders go past their third rung.
    habits: Vec<(usize, Contract)>,
}

/// Which groups may have members. Those of one group make the other's restrictions longer when the two are joined.
#[derive(Clone, Copy)]
pub enum Members {
    Anywhere,
    OnlyInA,
    OnlyInB,
}

/// Year number i of a seed.
pub fn some_year(random: &mut Random, i: usize) -> Year {
    let members = match i % 8 {
        0 => Members::OnlyInA,
        4 => Members::OnlyInB,
        _ => Members::Anywhere,
    };
    let cast = some_cast(random, 1 + (i % 2) as u8, members);
    let days = some_dates(random).into_iter().map(|date| some_day(random, &cast, date)).collect();
    Year { rulebook: cast.rulebook, a: cast.groups[0], b: cast.groups[1], days }
}

pub fn shuffle<T>(random: &mut Random, items: &mut [T]) {
    for i in (1..items.len()).rev() {
        items.swap(i, random.below(i + 1));
    }
}

/// 5 to 40 dates of one year, at times with its last day.
pub fn some_dates(random: &mut Random) -> Vec<u32> {
    let year = random.within(2000, 2099) as u32 * 10_000;
    let all: Vec<u32> = (year + 101..=year + 1231).filter(|&date| dates::is_day(date)).collect();
    let n = random.within(5, 40);
    let mut at = 0;
    let mut dates: Vec<u32> = Vec::new();
    for _ in 0..n {
        at += random.within(1, all.len() / n);
        dates.push(all[at - 1]);
    }
    if random.one_in(4) {
        dates[n - 1] = year + 1231;
    }
    dates
}

fn some_cast(random: &mut Random, rulebook: u8, members: Members) -> Cast {
    let mut groups = GROUPS.to_vec();
    shuffle(random, &mut groups);
    groups.truncate(random.within(3, 6));
    let contracts = some_contracts(random, rulebook);
    let first = random.below(3);
    let habits = (first..=first + random.within(1, 3))
        .map(|kind| (kind % 3 + 1, contracts[random.below(contracts.len())].clone()))
        .collect();
    let accounts = some_accounts(random, &groups, members);
    Cast { rulebook, groups, contracts, accounts, habits }
}

/// Few families, so that several contracts are of one.
fn some_contracts(random: &mut Random, rulebook: u8) -> Vec<Contract> {
    let products = random.pick(&[[0, 1, 2], [0, 7, 15], [15, 15, 0]]);
    let mut id = random.pick(&[0, 100, 65_000]);
    (0..random.within(2, 6))
        .map(|_| {
            id += random.within(1, 80) as u16;
            let contract_type = if rulebook == 1 { random.within(1, 2) as u8 } else { 1 };
            Contract { id, contract_type, product: random.pick(&products), largest: random.pick(&LARGEST) }
        })
        .collect()
}

/// One account to three for each group, their numbers mixed.
pub fn some_accounts(random: &mut Random, groups: &[u8], members: Members) -> Vec<Account> {
    let mut owners: Vec<u8> = groups.iter().flat_map(|&group| vec![group; random.within(1, 3)]).collect();
    shuffle(random, &mut owners);
    let mut number = random.pick(&[0, 70_000, u32::MAX - 1_000]);
    owners
        .into_iter()
        .map(|group| {
            number += random.within(1, 50) as u32;
            let is_member = match members {
                Members::Anywhere => random.one_in(4),
                Members::OnlyInA => group == groups[0],
                Members::OnlyInB => group == groups[1],
            };
            Account { number, group, kind: 1 + is_member as u8 }
        })
        .collect()
}

/// Some are left out of a day, never all.
pub fn mostly<T: Clone>(random: &mut Random, all: &[T]) -> Vec<T> {
    let left: Vec<T> = all.iter().filter(|_| !random.one_in(10)).cloned().collect();
    if left.is_empty() {
        return all.to_vec();
    }
    left
}

fn some_day(random: &mut Random, cast: &Cast, date: u32) -> Day {
    let (contracts, mut accounts) = (mostly(random, &cast.contracts), mostly(random, &cast.accounts));
    if random.one_in(10) {
        // for this day an account is another group's
        let i = random.below(accounts.len());
        accounts[i].group = random.pick(&cast.groups);
    }
    let (rulebook, version) = (cast.rulebook, some_version(random));
    let mut day = Day { rulebook, version, date, contracts, accounts, records: Vec::new() };
    for (kind, contract) in &cast.habits {
        if day.contracts.iter().any(|listed| listed.id == contract.id) {
            offend(random, cast, &mut day, *kind, contract);
        }
    }
    for _ in 0..random.below(4) {
        let record = some_record(random, &day);
        day.records.push((record, random.pick(&[1, 2, 5])));
    }
    shuffle(random, &mut day.records);
    day
}

/// The two groups offend each for itself, only together, or not at all; the others for themselves.
fn offend(random: &mut Random, cast: &Cast, day: &mut Day, kind: usize, contract: &Contract) {
    let number = rules::enough(cast.rulebook, kind);
    let about = |random: &mut Random| number + random.pick(&[0, 0, 0, 1]) - random.pick(&[0, 0, 0, 1]);
    let (a, b) = (cast.groups[0], cast.groups[1]);
    let of_a = random.within(1, number as usize - 1) as u32;
    let (times_a, times_b) = match random.below(6) {
        0 => (0, 0),
        1 => (about(random), 0),
        2 => (0, about(random)),
        3 => (about(random), about(random)),
        4 => (of_a, number - of_a),
        _ => (of_a, number - of_a - 1),
    };
    burst(random, day, a, kind, contract, times_a);
    burst(random, day, b, kind, contract, times_b);
    if kind == 1 && random.one_in(2) {
        trade_between(random, day, [a, b], contract);
    }
    for &other in &cast.groups[2..] {
        let times = if random.one_in(3) { about(random) } else { 0 };
        burst(random, day, other, kind, contract, times);
    }
}

fn accounts_of(day: &Day, group: u8) -> Vec<u32> {
    day.accounts.iter().filter(|account| account.group == group).map(|account| account.number).collect()
}

/// So many times of the kind, by one of the group's accounts or by two.
fn burst(random: &mut Random, day: &mut Day, group: u8, kind: usize, contract: &Contract, times: u32) {
    let accounts = accounts_of(day, group);
    if accounts.is_empty() {
        return;
    }
    let first = random.within(0, times as usize) as u32;
    for part in [first, times - first] {
        if part > 0 {
            let record = counted(random, day.rulebook, &accounts, kind, contract);
            day.records.push((record, part));
        }
    }
}

/// A record that counts for the kind; of cancels, some count for kinds 2 and 3.
fn counted(random: &mut Random, rulebook: u8, accounts: &[u32], kind: usize, contract: &Contract) -> Record {
    let (account, seller) = (random.pick(accounts), random.pick(accounts));
    let (id, lots) = (contract.id, some_lots(random, contract.largest));
    let fast = if rulebook == 1 { 1 } else { random.pick(&[5, 6]) };
    let [first, second] = [(); 2].map(|()| some_broker(random));
    match kind {
        1 => Record::Trade { contract: id, buyer: account, seller, lots, orders: [(1, 1, first), (fast, 4, second)] },
        2 => {
            // market making counts in futures of rulebook 1 alone
            let is_dce_future = rulebook == 1 && contract.contract_type == 1;
            let purpose = if is_dce_future { random.pick(&[1, 4]) } else { 1 };
            Record::Cancel { contract: id, account, lots, order: (fast, purpose, first) }
        }
        _ => {
            let (instruction, purpose) = random.pick(&[(1, 1), (1, 4), (fast, 1)]);
            Record::Cancel { contract: id, account, lots: contract.largest, order: (instruction, purpose, first) }
        }
    }
}

/// Trades that are self-trades only where the two groups are one; some are exempt.
fn trade_between(random: &mut Random, day: &mut Day, mut groups: [u8; 2], contract: &Contract) {
    shuffle(random, &mut groups);
    let [buyers, sellers] = groups.map(|group| accounts_of(day, group));
    if buyers.is_empty() || sellers.is_empty() {
        return;
    }
    for _ in 0..random.within(1, 3) {
        let is_plain = random.one_in(2);
        let orders = [(); 2].map(|()| match some_order(random, day.rulebook) {
            (_, _, broker) if is_plain => (1, 1, broker),
            order => order,
        });
        let (buyer, seller) = (random.pick(&buyers), random.pick(&sellers));
        let record = Record::Trade { contract: contract.id, buyer, seller, lots: 1, orders };
        day.records.push((record, random.within(1, 3) as u32));
    }
}
