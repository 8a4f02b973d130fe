//! Years of accepted position logs from a fresh book in which two groups offend, each alone and only together, among
//! others.
use crate::build::Account;
use crate::days::GROUPS;
use crate::position_build::{Limited, PositionLog};
use crate::position_days::Holdings;
use crate::random::Random;
use crate::years::{mostly, shuffle, some_accounts, some_dates, Members};

pub struct PositionYear {
    pub rulebook: u8,
    /// The group that is joined, and the group whose number its accounts are given.
    pub a: u8,
    pub b: u8,
    pub days: Vec<PositionLog>,
}

/// Low enough for one account to be above.
const LIMITS: [u32; 8] = [1, 2, 10, 999, 1_000, 65_535, 65_536, 500_000];

/// What a year's days are made of.
struct Cast {
    rulebook: u8,
    /// The two groups to be joined come first.
    groups: Vec<u8>,
    contracts: Vec<Limited>,
    accounts: Vec<Account>,
    /// The contracts on which they offend again and again, so that ladders go past their third rung.
    habits: Vec<u16>,
}

/// Year number i of a seed.
pub fn some_position_year(random: &mut Random, i: usize) -> PositionYear {
    let cast = some_cast(random, 1 + (i % 2) as u8);
    let mut contracts = cast.contracts.clone();
    let mut days = Vec::new();
    for date in some_dates(random) {
        next_limits(random, &mut contracts);
        days.push(some_day(random, &cast, &contracts, date));
    }
    PositionYear { rulebook: cast.rulebook, a: cast.groups[0], b: cast.groups[1], days }
}

fn some_cast(random: &mut Random, rulebook: u8) -> Cast {
    let mut groups = GROUPS.to_vec();
    shuffle(random, &mut groups);
    groups.truncate(random.within(3, 6));
    let products = random.pick(&[[0, 1, 2], [0, 7, 15], [15, 15, 0]]);
    let mut id = random.pick(&[0, 100, 65_000]);
    let mut contracts = Vec::new();
    for _ in 0..random.within(2, 6) {
        id += random.within(1, 80) as u16;
        let limit = random.pick(&LIMITS);
        contracts.push(Limited { id, product: random.pick(&products), today: limit, previous: limit });
    }
    let habits = (0..random.within(1, 3)).map(|_| contracts[random.below(contracts.len())].id).collect();
    let accounts = some_accounts(random, &groups, Members::Anywhere);
    Cast { rulebook, groups, contracts, accounts, habits }
}

/// Today's limit is the next day's previous one, and mostly stays; at times the log says otherwise.
fn next_limits(random: &mut Random, contracts: &mut [Limited]) {
    for contract in contracts {
        contract.previous = if random.one_in(20) { random.pick(&LIMITS) } else { contract.today };
        if random.one_in(5) {
            contract.today = random.pick(&LIMITS);
        }
    }
}

fn some_day(random: &mut Random, cast: &Cast, contracts: &[Limited], date: u32) -> PositionLog {
    let (contracts, mut accounts) = (mostly(random, contracts), mostly(random, &cast.accounts));
    if random.one_in(10) {
        // for this day an account is another group's
        let i = random.below(accounts.len());
        accounts[i].group = random.pick(&cast.groups);
    }
    let mut holdings = Holdings::default();
    for contract in contracts.iter().filter(|contract| cast.habits.contains(&contract.id)) {
        hold(random, cast, &accounts, contract, &mut holdings);
    }
    for account in &accounts {
        let contract = &contracts[random.below(contracts.len())];
        let lots = random.below(contract.today.min(9) as usize) as u32;
        let side = random.below(2);
        holdings.add(random, &[account.number], contract.id, side, lots);
    }
    let positions = holdings.positions(random);
    PositionLog { rulebook: cast.rulebook, date, contracts, accounts, positions }
}

/// The two groups are above the limit each for itself, only together, or just not; the others for themselves.
fn hold(random: &mut Random, cast: &Cast, accounts: &[Account], contract: &Limited, holdings: &mut Holdings) {
    let above = 1 + if cast.rulebook == 1 { contract.today.max(contract.previous) } else { contract.today };
    let of_a = random.within(1, above as usize - 1) as u32;
    let (lots_a, lots_b) = match random.below(7) {
        0 => (0, 0),
        1 => (above, 0),
        2 => (0, above),
        3 => (above, above - 1),
        4 => (above, above),
        5 => (of_a, above - of_a),
        _ => (of_a, above - 1 - of_a),
    };
    let side = random.below(2);
    let mut all = vec![(cast.groups[0], lots_a), (cast.groups[1], lots_b)];
    all.extend(cast.groups[2..].iter().map(|&other| (other, if random.one_in(3) { above } else { 0 })));
    for (group, lots) in all {
        let numbers: Vec<u32> = accounts.iter().filter(|a| a.group == group).map(|a| a.number).collect();
        holdings.add(random, &numbers, contract.id, side, lots);
    }
}
