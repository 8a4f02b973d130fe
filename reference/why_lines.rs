//! What the program why (K5) says of a record: every word that it has for an order and a kind. The lines are the
//! request's own, and not the reference's.
use crate::build::{Day, Record};
use crate::cases::{why_printing, Case};
use crate::edges::small_day;

pub fn why_lines() -> Vec<Case> {
    let mut all = Vec::new();
    for version in [1, 2] {
        all.extend(of_rows(1, version, &DCE));
        all.extend(of_rows(2, version, &CFX));
    }
    all
}

/// Contract, accounts and orders of a trade; contract, account, lots and order of a cancel.
pub enum Made {
    Trade(u16, [u32; 2], [(u8, u8); 2]),
    Cancel(u16, u32, u32, (u8, u8)),
}
use Made::{Cancel, Trade};

/// The record's line too. One with the words `exempt by` was spared.
type Row = (Made, &'static str);

/// Contract 101 is futures and 102 an option. More than 800 lots are large. Accounts 11 and 12 are one group's.
const DCE: [Row; 16] = [
    (Cancel(101, 11, 800, (1, 1)), "1. contract 101, account 11, frequent cancels: counts; large cancels: not large"),
    (Cancel(101, 11, 801, (1, 4)), "2. contract 101, account 11, frequent cancels: counts; large cancels: counts"),
    (
        Cancel(102, 12, 801, (1, 4)),
        "3. contract 102, account 12, frequent cancels: exempt by purpose; large cancels: counts",
    ),
    (
        Cancel(102, 12, 800, (1, 4)),
        "4. contract 102, account 12, frequent cancels: exempt by purpose; large cancels: not large",
    ),
    (
        Cancel(102, 13, 1, (5, 4)),
        "5. contract 102, account 13, frequent cancels: exempt by instruction and purpose; \
         large cancels: exempt by instruction",
    ),
    (
        Cancel(101, 13, 1_000, (2, 1)),
        "6. contract 101, account 13, frequent cancels: exempt by instruction; large cancels: exempt by instruction",
    ),
    (
        Cancel(101, 11, 1, (1, 2)),
        "7. contract 101, account 11, frequent cancels: exempt by purpose; large cancels: exempt by purpose",
    ),
    (
        Cancel(101, 11, 1_000, (3, 3)),
        "8. contract 101, account 11, frequent cancels: exempt by instruction and purpose; \
         large cancels: exempt by instruction and purpose",
    ),
    (
        Trade(101, [11, 12], [(1, 1), (1, 4)]),
        "9. contract 101, account 11, self-trade: counts; account 12, self-trade: counts",
    ),
    (
        Trade(102, [12, 13], [(1, 1), (1, 4)]),
        "10. contract 102, account 12, self-trade: two groups; account 13, self-trade: two groups",
    ),
    (
        Trade(101, [12, 11], [(1, 2), (1, 1)]),
        "11. contract 101, account 12, self-trade: exempt by purpose; \
         account 11, self-trade: the other order is exempt",
    ),
    (
        Trade(101, [11, 11], [(1, 1), (2, 1)]),
        "12. contract 101, account 11, self-trade: the other order is exempt; \
         account 11, self-trade: exempt by instruction",
    ),
    (
        Trade(102, [11, 13], [(6, 3), (1, 1)]),
        "13. contract 102, account 11, self-trade: exempt by instruction and purpose; \
         account 13, self-trade: the other order is exempt",
    ),
    (
        Trade(102, [13, 12], [(5, 4), (1, 3)]),
        "14. contract 102, account 13, self-trade: exempt by instruction; account 12, self-trade: exempt by purpose",
    ),
    (
        Trade(101, [13, 13], [(1, 1), (1, 1)]),
        "15. contract 101, account 13, self-trade: counts; account 13, self-trade: counts",
    ),
    (
        Trade(101, [13, 11], [(1, 4), (4, 2)]),
        "16. contract 101, account 13, self-trade: the other order is exempt; \
         account 11, self-trade: exempt by instruction and purpose",
    ),
];

/// Both contracts are futures, and 800 lots are large.
const CFX: [Row; 12] = [
    (
        Cancel(101, 11, 799, (1, 1)),
        "1. contract 101, account 11, frequent cancels: exempt by instruction; large cancels: not large",
    ),
    (
        Cancel(101, 12, 800, (1, 1)),
        "2. contract 101, account 12, frequent cancels: exempt by instruction; large cancels: counts",
    ),
    (
        Cancel(102, 12, 1, (1, 3)),
        "3. contract 102, account 12, frequent cancels: exempt by instruction and purpose; \
         large cancels: exempt by purpose",
    ),
    (
        Cancel(102, 13, 799, (1, 4)),
        "4. contract 102, account 13, frequent cancels: exempt by instruction and purpose; large cancels: not large",
    ),
    (
        Cancel(102, 13, 800, (5, 4)),
        "5. contract 102, account 13, frequent cancels: exempt by purpose; large cancels: counts",
    ),
    (Cancel(101, 13, 800, (6, 1)), "6. contract 101, account 13, frequent cancels: counts; large cancels: counts"),
    (Cancel(101, 13, 799, (5, 1)), "7. contract 101, account 13, frequent cancels: counts; large cancels: not large"),
    (
        Cancel(101, 13, 800, (2, 3)),
        "8. contract 101, account 13, frequent cancels: exempt by instruction and purpose; \
         large cancels: exempt by instruction and purpose",
    ),
    (
        Trade(101, [11, 12], [(1, 3), (5, 4)]),
        "9. contract 101, account 11, self-trade: counts; account 12, self-trade: counts",
    ),
    (
        Trade(102, [12, 11], [(2, 3), (1, 1)]),
        "10. contract 102, account 12, self-trade: exempt by instruction; \
         account 11, self-trade: the other order is exempt",
    ),
    (
        Trade(102, [11, 13], [(6, 1), (1, 3)]),
        "11. contract 102, account 11, self-trade: two groups; account 13, self-trade: two groups",
    ),
    (
        Trade(101, [13, 12], [(5, 2), (2, 2)]),
        "12. contract 101, account 13, self-trade: exempt by purpose; \
         account 12, self-trade: exempt by instruction and purpose",
    ),
];

impl Made {
    fn record(&self) -> Record {
        match *self {
            Trade(contract, [buyer, seller], orders) => {
                let orders = orders.map(|(instruction, purpose)| (instruction, purpose, 7));
                Record::Trade { contract, buyer, seller, lots: 900, orders }
            }
            Cancel(contract, account, lots, (instruction, purpose)) => {
                Record::Cancel { contract, account, lots, order: (instruction, purpose, 7) }
            }
        }
    }
}

/// Contracts 101 and 102, of 1,000 lots; accounts 11 and 12 in one group, 13 in another.
pub fn day_of<'a>(rulebook: u8, version: u16, records: impl IntoIterator<Item = &'a Made>) -> Day {
    let option = if rulebook == 1 { 2 } else { 1 };
    let day = small_day(rulebook, 20240305, &[(1, 0), (option, 1)], &[(3, 1), (3, 2), (4, 1)]);
    Day { version, records: records.into_iter().map(|made| (made.record(), 1)).collect(), ..day }
}

/// All that were spared, and each record by its number.
fn of_rows(rulebook: u8, version: u16, rows: &[Row]) -> Vec<Case> {
    let log = day_of(rulebook, version, rows.iter().map(|row| &row.0)).log();
    let heading = if rulebook == 1 { "AXD 20240305 DCE" } else { "AXD 20240305 CFX" };
    let mut lines: Vec<&str> = rows.iter().map(|row| row.1).filter(|line| line.contains("exempt by")).collect();
    let last = format!("spared {}", lines.len());
    lines.insert(0, heading);
    lines.push(&last);
    let name = format!("why, all words, rulebook {rulebook}, version {version}");
    let mut all = vec![why_printing(&name, &[], log.clone(), &lines)];
    for (i, (_, line)) in rows.iter().enumerate() {
        let word = (i + 1).to_string();
        all.push(why_printing(format!("{name}, record {word}"), &[&word], log.clone(), &[heading, line]));
    }
    all
}
