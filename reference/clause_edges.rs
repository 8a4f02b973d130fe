//! The edges of request K5 by calls: the clauses that taking a record passes on. They are the request's own, and not
//! the reference's.
use crate::build::{Day, Order, Record, Script};
use crate::cases::{replay_ending, Case};
use crate::edges::{small_day, taken_once, RULEBOOKS_AND_VERSIONS};

pub fn clause_edges() -> Vec<Case> {
    let mut all = Vec::new();
    for (rulebook, version) in RULEBOOKS_AND_VERSIONS {
        all.push(rows(rulebook, version));
        all.push(refusals(rulebook, version));
    }
    all
}

/// Rulebook, contract type, instruction and purpose; the clauses of kinds 1, 2 and 3.
const ROWS: [([u8; 4], [u8; 3]); 35] = [
    ([1, 1, 1, 1], [0, 0, 0]),
    ([1, 1, 1, 2], [2, 2, 2]),
    ([1, 1, 1, 3], [2, 2, 2]),
    ([1, 1, 2, 1], [1, 1, 1]),
    ([1, 1, 3, 1], [1, 1, 1]),
    ([1, 1, 6, 1], [1, 1, 1]),
    ([1, 1, 2, 2], [3, 3, 3]),
    ([1, 1, 4, 3], [3, 3, 3]),
    // market making, in futures and in options
    ([1, 1, 1, 4], [0, 0, 0]),
    ([1, 1, 5, 4], [1, 1, 1]),
    ([1, 1, 6, 4], [1, 1, 1]),
    ([1, 1, 2, 4], [1, 1, 1]),
    ([1, 2, 1, 4], [0, 2, 0]),
    ([1, 2, 5, 4], [1, 3, 1]),
    ([1, 2, 2, 4], [1, 3, 1]),
    ([1, 2, 1, 1], [0, 0, 0]),
    ([1, 2, 1, 2], [2, 2, 2]),
    ([1, 2, 6, 1], [1, 1, 1]),
    ([1, 2, 3, 3], [3, 3, 3]),
    // rulebook 2: a limit for kind 2, a market order for all, FOK and FAK for none
    ([2, 1, 1, 1], [0, 1, 0]),
    ([2, 1, 2, 1], [1, 1, 1]),
    ([2, 1, 5, 1], [0, 0, 0]),
    ([2, 1, 6, 1], [0, 0, 0]),
    ([2, 1, 1, 2], [2, 3, 2]),
    ([2, 1, 2, 2], [3, 3, 3]),
    ([2, 1, 5, 2], [2, 2, 2]),
    ([2, 1, 6, 2], [2, 2, 2]),
    // arbitrage for kinds 2 and 3, market making for kind 2
    ([2, 1, 1, 3], [0, 3, 2]),
    ([2, 1, 2, 3], [1, 3, 3]),
    ([2, 1, 5, 3], [0, 2, 2]),
    ([2, 1, 6, 3], [0, 2, 2]),
    ([2, 1, 1, 4], [0, 3, 0]),
    ([2, 1, 2, 4], [1, 3, 1]),
    ([2, 1, 5, 4], [0, 2, 0]),
    ([2, 1, 6, 4], [0, 2, 0]),
];

/// Contract 101 is futures, 102 in rulebook 1 an option; accounts 11 and 12 are in one group, 13 in another.
fn day_of(rulebook: u8, version: u16) -> Day {
    let option = if rulebook == 1 { 2 } else { 1 };
    let day = small_day(rulebook, 20240305, &[(1, 0), (option, 1)], &[(3, 1), (3, 2), (4, 1)]);
    Day { version, ..day }
}

/// An order that no clause exempts: a limit in rulebook 1, FOK in rulebook 2.
fn plain(rulebook: u8) -> Order {
    (if rulebook == 1 { 1 } else { 5 }, 1, 8)
}

/// Two orders' clauses as they stand in a line.
fn end_of(first: [u8; 3], second: [u8; 3]) -> String {
    let words: Vec<String> = (0..3).flat_map(|kind| [first[kind], second[kind]]).map(|n| n.to_string()).collect();
    words.join(" ")
}

/// Each row's order first, second and as both, in one group and between two, and as a small and a large cancel.
fn rows(rulebook: u8, version: u16) -> Case {
    let day = day_of(rulebook, version);
    // a fresh book and opening print nothing after the checksums
    let (mut script, mut ends) = (taken_once(&day, &[]), vec![String::new(); 2]);
    for ([_, contract_type, instruction, purpose], clauses) in ROWS.into_iter().filter(|row| row.0[0] == rulebook) {
        let (contract, order) = (100 + contract_type as u16, (instruction, purpose, 7));
        let trades = [([order, plain(rulebook)], [clauses, [0; 3]]), ([plain(rulebook), order], [[0; 3], clauses])];
        for (orders, [first, second]) in trades.into_iter().chain([([order, order], [clauses, clauses])]) {
            for (buyer, seller) in [(11, 12), (12, 13), (13, 13)] {
                script.take(&Record::Trade { contract, buyer, seller, lots: 1_000, orders }.bytes(version));
                ends.push(end_of(first, second));
            }
        }
        for lots in [1, 800, 801, 1_000] {
            let cancel = Record::Cancel { contract, account: 11, lots, order }.bytes(version);
            script.take(&cancel);
            script.take_often(3, &cancel);
            ends.extend([(); 2].map(|()| end_of(clauses, [0; 3])));
        }
    }
    replay_ending(format!("clauses by document 02, rulebook {rulebook}, version {version}"), script, ends)
}

/// A refusal passes on no clause, also where calls of the same m were accepted before it.
fn refusals(rulebook: u8, version: u16) -> Case {
    let day = day_of(rulebook, version);
    let hedge = |contract, account, lots| Record::Cancel { contract, account, lots, order: (2, 2, 7) }.bytes(version);
    let bad = [hedge(103, 11, 1), hedge(101, 14, 1), hedge(101, 11, 0), hedge(101, 11, 1)[1..].to_vec()];
    let good = hedge(101, 11, 1);
    let (mut script, mut ends) = (Script::default(), Vec::new());
    script.counts(12_288, 0);
    script.tables(&day.tables());
    script.take(&good);
    script.opened(&day.head(), 999_996);
    for record in &bad {
        script.take(record);
        script.take_often(2, record);
    }
    ends.resize(1 + 2 * bad.len(), String::new());
    script.take(&good);
    script.take_often(2, &good);
    ends.extend([(); 2].map(|()| end_of([3; 3], [0; 3])));
    script.take_often(2, &good);
    script.take(&good);
    ends.extend([(); 2].map(|()| String::new()));
    replay_ending(format!("no clauses of a refusal, rulebook {rulebook}, version {version}"), script, ends)
}
