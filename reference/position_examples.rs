//! The examples that the desk of positions is tried on.
use crate::build::Account;
use crate::position_build::{position_book, position_total, Limited, Position, PositionLog};

/// What the example gives day after day from a fresh book, by document 02 and not by the reference: three rungs, the
/// first again, the same day once more, and a later year.
pub const LADDER: [(u32, &str); 6] = [
    (20240305, "AXP 20240305 DCE\n3 5 0 1 2 102\nfindings 1\n"),
    (20240306, "AXP 20240306 DCE\n3 5 0 2 7 102\nfindings 1\n"),
    (20240307, "AXP 20240307 DCE\n3 5 0 3 8 102\nfindings 1\n"),
    (20240308, "AXP 20240308 DCE\n3 5 0 4 2 102\nfindings 1\n"),
    (20240308, "refused 9\n"),
    (20250102, "AXP 20250102 DCE\n3 5 0 1 2 102\nfindings 1\n"),
];

/// Group 3 has one offence in this year.
pub fn example_book() -> Vec<u8> {
    position_book(1, 20240304, &[position_total(3, 0, 1)])
}

/// Accounts 11 and 12, both in group 3, are at the limits of contract 101 and one lot above both of 102's, short.
pub fn example(date: u32) -> PositionLog {
    let limited = |id| Limited { id, product: 0, today: 1_000, previous: 900 };
    let account = |number| Account { number, group: 3, kind: 1 };
    let position = |contract, account, long, short| Position { contract, account, long, short };
    PositionLog {
        rulebook: 1,
        date,
        contracts: vec![limited(101), limited(102)],
        accounts: vec![account(11), account(12)],
        positions: vec![
            position(101, 11, 600, 0),
            position(101, 12, 400, 1_000),
            position(102, 11, 0, 600),
            position(102, 12, 7, 401),
        ],
    }
}

pub fn example_log(date: u32) -> Vec<u8> {
    example(date).bytes()
}

/// The longest log there is: every account of a full table on every contract, in rulebook 1.
pub fn long_log() -> Vec<u8> {
    full(1, 20240305, 3, 999_999_999).bytes()
}

/// 32 contracts in 16 products, 512 accounts in 128 groups, and 16,384 records of as many lots, long and short.
pub fn full(rulebook: u8, date: u32, lots: u32, limit: u32) -> PositionLog {
    let contracts: Vec<Limited> =
        (0..32u8).map(|i| Limited { id: 101 + i as u16, product: i % 16, today: limit, previous: limit }).collect();
    let accounts: Vec<Account> = (0..512)
        .map(|i| Account { number: 11 + i, group: (i % 128 + 1) as u8, kind: (1 + i / 128 % 2) as u8 })
        .collect();
    let of_contract = |contract: &Limited| {
        let contract = contract.id;
        accounts.iter().map(move |account| Position { contract, account: account.number, long: lots, short: lots })
    };
    let positions = contracts.iter().flat_map(of_contract).collect();
    PositionLog { rulebook, date, contracts, accounts, positions }
}
