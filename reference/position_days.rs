//! Random position logs and their books that are sound, leaning to either side of each limit.
use crate::build::Total;
use crate::dates;
use crate::days::{some_accounts, some_contracts, GROUPS};
use crate::position_build::{position_book, position_total, Limited, Position, PositionLog};
use crate::random::Random;
use std::collections::BTreeMap;

const LIMITS: [u32; 12] = [1, 2, 3, 9, 10, 1_000, 65_535, 65_536, 999_999, 1_000_000, 2_000_000, 1_000_000_000];
const MOST_LOTS: u32 = 1_000_000;

fn some_limits(random: &mut Random) -> (u32, u32) {
    let today = random.pick(&LIMITS);
    let previous = match random.below(4) {
        0 => today,
        1 => random.pick(&LIMITS),
        2 => today.max(2) - 1,
        _ => (today + 1).min(1_000_000_000),
    };
    (today, previous)
}

/// The ids and products of a day's contracts, which are futures in rulebook 2.
fn some_limited(random: &mut Random, n: usize) -> Vec<Limited> {
    let mut all = Vec::new();
    for contract in some_contracts(random, 2, n) {
        let (today, previous) = some_limits(random);
        all.push(Limited { id: contract.id, product: contract.product, today, previous });
    }
    all
}

/// Long and short lots by contract and account: in the order of a log.
#[derive(Default)]
pub struct Holdings(BTreeMap<(u16, u32), [u32; 2]>);

impl Holdings {
    /// So many lots on one side, in parts that add up, as far as the accounts can hold them.
    pub fn add(&mut self, random: &mut Random, accounts: &[u32], contract: u16, side: usize, lots: u32) {
        let mut rest = lots;
        for (i, &account) in accounts.iter().enumerate() {
            let left = accounts.len() - 1 - i;
            let part = if left == 0 { rest } else { random.within(0, rest as usize) as u32 };
            // what the others cannot hold stays here
            let least = rest.saturating_sub(left as u32 * MOST_LOTS);
            let held = &mut self.0.entry((contract, account)).or_default()[side];
            let more = part.max(least).min(MOST_LOTS - *held);
            *held += more;
            rest -= more;
        }
    }

    /// A position of no lots may be left out.
    pub fn positions(self, random: &mut Random) -> Vec<Position> {
        let mut all = Vec::new();
        for ((contract, account), [long, short]) in self.0 {
            if long + short > 0 || random.one_in(2) {
                all.push(Position { contract, account, long, short });
            }
        }
        all
    }
}

/// Either side of the contract's two limits, nothing, and the ends of the range.
fn some_sum(random: &mut Random, contract: &Limited) -> u32 {
    let (today, previous) = (contract.today, contract.previous);
    random.pick(&[0, 0, 1, today - 1, today, today + 1, previous, previous + 1, today + previous, 65_536, MOST_LOTS])
}

pub fn some_positions(random: &mut Random, rulebook: u8, date: u32) -> PositionLog {
    let (c, a) = match random.below(16) {
        0 => (random.pick(&[31, 32]), random.pick(&[511, 512])),
        1 => (1, 1),
        _ => (random.within(1, 5), random.within(1, 12)),
    };
    let contracts = some_limited(random, c);
    let accounts = some_accounts(random, a);
    let mut holdings = Holdings::default();
    for contract in &contracts {
        for group in GROUPS {
            let numbers: Vec<u32> = accounts.iter().filter(|a| a.group == group).map(|a| a.number).collect();
            for side in [0, 1] {
                if random.one_in(2) {
                    let lots = some_sum(random, contract);
                    holdings.add(random, &numbers, contract.id, side, lots);
                }
            }
        }
    }
    let positions = holdings.positions(random);
    PositionLog { rulebook, date, contracts, accounts, positions }
}

/// A sound book's: they go up to the day number of its last date.
pub fn some_position_totals(random: &mut Random, rulebook: u8, last_date: u32) -> Vec<Total> {
    let highest = dates::day_number(last_date) as usize;
    let families = if rulebook == 1 { 2 } else { 16 };
    let n = if highest == 0 { 0 } else { random.pick(&[0, 5, 40]) };
    (0..n)
        .map(|_| {
            let total = random.pick(&[1, 2, 3, 4, 5, 6, highest - 1, highest]).min(highest) as u16;
            position_total(random.pick(&GROUPS) as usize, random.below(families), total)
        })
        .collect()
}

pub fn some_position_book(random: &mut Random, rulebook: u8, last_date: u32) -> Vec<u8> {
    let totals = some_position_totals(random, rulebook, last_date);
    position_book(rulebook, last_date, &totals)
}
