//! Cases at the edges: each fault alone, each pair of faults that tests an order, either side of every number, the
//! turns of years, rungs, full sizes. They are the same for every seed but for what does not matter to the edge. Those
//! of request K2 alone are in `broker_edges`, of K3 in `sheet_edges`, of K5 in `clause_edges`.
use crate::build::{self, Account, Contract, Day, Record, Script, Total};
use crate::cases::{replay, replay_expecting, Case};
use crate::dates;
use crate::days::{EDGE_DATES, LARGEST};
use crate::faults::{faults, Fault};
use crate::random::Random;
use crate::refusal::{order, Refusal};
use crate::rules;
use crate::scene::{changed_scenes, scene, scene_cell, scene_of, Change, Scene};

pub const CALLS: [&str; 6] = ["fresh", "open", "take", "end", "abandon", "ask"];

pub fn edges(random: &mut Random) -> Vec<Case> {
    let mut all = Vec::new();
    for call in CALLS {
        all.extend(single_faults(random, call));
        all.extend(fault_pairs(random, call));
    }
    all.extend(accepted_sides(random));
    all.extend(thresholds());
    all.extend(year_turns());
    all.extend(rungs());
    all.extend(four_fifths());
    all.extend(exemptions());
    all.extend(market_makers());
    all.extend(full_sizes());
    all.extend(changed_tables(random));
    all
}

pub const RULEBOOKS_AND_VERSIONS: [(u8, u16); 4] = [(1, 1), (2, 1), (1, 2), (2, 2)];

/// Each fault in both rulebooks and both versions. Only version 2 has brokers.
fn single_faults(random: &mut Random, call: &str) -> Vec<Case> {
    let mut all = Vec::new();
    for (rulebook, version) in RULEBOOKS_AND_VERSIONS {
        let is_possible = |fault: &Fault| version == 2 || fault.refusal != Refusal::Brokers;
        let faults: Vec<Fault> = faults(call).into_iter().filter(is_possible).collect();
        for (i, chunk) in faults.chunks(12).enumerate() {
            let script = changed_scenes(random, call, (rulebook, version), chunk.iter().map(|fault| &fault.make));
            let numbers = chunk.iter().map(|fault| fault.refusal.number()).collect();
            let name = format!("{call}, one fault, rulebook {rulebook}, version {version}, part {i}");
            all.push(replay_expecting(name, script, numbers));
        }
    }
    all
}

/// For each two refusals of the order, scenes with a fault of either: the earlier one is due. The later fault goes in
/// first, as the earlier one may cut off what it stands in.
fn fault_pairs(random: &mut Random, call: &str) -> Vec<Case> {
    let faults = faults(call);
    let of = |refusal: Refusal| faults.iter().filter(|f| f.refusal == refusal).collect::<Vec<_>>();
    let mut all = Vec::new();
    for (i, &earlier) in order(call).iter().enumerate() {
        for &later in &order(call)[i + 1..] {
            let mut script = Script::default();
            let of_brokers = [earlier, later].contains(&Refusal::Brokers);
            for (rulebook, version) in RULEBOOKS_AND_VERSIONS.repeat(2) {
                let mut scene = scene_of(random, call, rulebook, if of_brokers { 2 } else { version });
                (random.pick(&of(later)).make)(&mut scene);
                (random.pick(&of(earlier)).make)(&mut scene);
                scene.call(call, &mut script);
            }
            let name = format!("{call}, {earlier:?} before {later:?}");
            all.push(replay_expecting(name, script, vec![earlier.number(); 8]));
        }
    }
    all
}

/// Changes up to an edge that must still be accepted, by call.
fn accepted_changes(call: &str) -> Vec<Change> {
    fn change(f: impl Fn(&mut Scene) + 'static) -> Change {
        Box::new(f)
    }
    let mut all: Vec<Change> = Vec::new();
    for n in [12_288, 12_289, 20_000] {
        all.push(change(move |s| s.counts.0 = n));
    }
    for at in [12_288, 12_289, 19_999] {
        all.push(change(move |s| {
            s.counts.0 = 20_000;
            s.cells.push((at, u32::MAX));
        }));
    }
    for product in [0, 15] {
        all.push(change(move |s| s.put(s.contract_at(1) + 3, &[product])));
    }
    for largest in [1u32, 1_000_000] {
        all.push(change(move |s| s.put(s.contract_at(2) + 4, &largest.to_le_bytes())));
    }
    all.push(change(|s| s.put(s.contract_at(0), &1u16.to_le_bytes())));
    all.push(change(|s| s.put(s.contract_at(2), &65_535u16.to_le_bytes())));
    all.push(change(|s| s.put(s.account_at(0), &11u32.to_le_bytes())));
    all.push(change(|s| s.put(s.account_at(3), &u32::MAX.to_le_bytes())));
    for (group, kind) in [(1, 1), (128, 2), (127, 2), (2, 1)] {
        all.push(change(move |s| s.put(s.account_at(2) + 4, &[group, kind])));
    }
    all.extend(match call {
        "take" => accepted_takes(),
        "end" => accepted_ends(),
        _ => Vec::new(),
    });
    all
}

fn accepted_takes() -> Vec<Change> {
    let mut all: Vec<Change> = Vec::new();
    for lots in [1u32, 799, 800, 801, 1_000, 1_001, 1_000_000] {
        all.push(Box::new(move |s| s.set_record(12, &lots.to_le_bytes())));
        all.push(Box::new(move |s| {
            s.make_cancel();
            s.set_record(12, &lots.to_le_bytes());
        }));
    }
    all.push(Box::new(|s| s.set_taken(999_999)));
    all.push(Box::new(|s| s.cells.push((scene_cell(1), s.taken()))));
    // cells that this record does not raise may stand anywhere
    all.push(Box::new(|s| s.cells.extend([(scene_cell(2), u32::MAX), (scene_cell(3), u32::MAX), (0, u32::MAX)])));
    // a trade between groups counts for nothing and looks at no cell
    all.push(Box::new(|s| {
        s.set_record(8, &300u32.to_le_bytes());
        s.cells.push((scene_cell(1), u32::MAX));
    }));
    // an exempt order, likewise
    all.push(Box::new(|s| {
        s.set_record(18, &[2]);
        s.cells.push((scene_cell(1), u32::MAX));
    }));
    // a small cancel looks at kind 2 alone
    all.push(Box::new(|s| {
        s.make_cancel();
        s.set_record(12, &700u32.to_le_bytes());
        s.cells.push((scene_cell(3), u32::MAX));
    }));
    // market making is spared for kind 2 only, in rulebook 1 in options only: on the third contract, which there is an
    // option, kind 3 is raised past a changed cell of kind 2
    all.push(Box::new(|s| {
        s.make_cancel();
        s.set_record(2, &65_000u16.to_le_bytes());
        s.set_record(17, &[4]);
        s.cells.push((scene_cell(2) + 1, u32::MAX));
    }));
    all
}

fn accepted_ends() -> Vec<Change> {
    let mut all: Vec<Change> = Vec::new();
    for taken in [999_999, 1_000_000, 1_000_001, u32::MAX] {
        for cell in [0, 31, 97, 12_255, 12_287] {
            all.push(Box::new(move |s| {
                s.set_taken(taken);
                s.set_record(4, &taken.to_le_bytes());
                s.cells.push((cell, taken));
                s.findings.0 = 16;
            }));
        }
    }
    all.push(Box::new(|s| s.findings.0 = 8));
    all
}

fn accepted_sides(random: &mut Random) -> Vec<Case> {
    let mut all = Vec::new();
    for call in ["open", "take", "end"] {
        for (rulebook, version) in RULEBOOKS_AND_VERSIONS {
            for (i, chunk) in accepted_changes(call).chunks(12).enumerate() {
                let script = changed_scenes(random, call, (rulebook, version), chunk);
                let name = format!("{call}, accepted edge, rulebook {rulebook}, version {version}, part {i}");
                all.push(replay_expecting(name, script, vec![0; chunk.len()]));
            }
        }
    }
    all
}

/// A small day of version 1, written without chance: contracts 101.., one for each type and product given.
pub fn small_day(rulebook: u8, date: u32, contracts: &[(u8, u8)], accounts: &[(u8, u8)]) -> Day {
    let contract = |(i, &(contract_type, product)): (usize, &(u8, u8))| Contract {
        id: 101 + i as u16,
        contract_type,
        product,
        largest: 1_000,
    };
    let account = |(i, &(group, kind)): (usize, &(u8, u8))| Account { number: 11 + i as u32, group, kind };
    Day {
        rulebook,
        version: 1,
        date,
        contracts: contracts.iter().enumerate().map(contract).collect(),
        accounts: accounts.iter().enumerate().map(account).collect(),
        records: Vec::new(),
    }
}

/// A day to be ended with these cells, over a book with these totals.
fn hand_day(script: &mut Script, day: &Day, last_date: u32, totals: &[Total], taken: u32, cells: &[(u32, u32)]) {
    script.opened(&day.head(), taken);
    script.tables(&day.tables());
    script.book(12_304);
    script.book_bytes(0, &build::book_head(day.rulebook, last_date));
    totals.iter().for_each(|total| script.total(total));
    script.counts(12_288, 0);
    cells.iter().for_each(|&(cell, value)| script.count(cell, value));
    script.end(&build::end_record(day.version, taken));
}

fn cell(group: u32, kind: u32, place: u32) -> u32 {
    96 * (group - 1) + 32 * (kind - 1) + place
}

/// Either side of each number, on one contract and split over two of a family.
fn thresholds() -> Vec<Case> {
    let mut all = Vec::new();
    for rulebook in [1, 2] {
        for kind in 1..=3u32 {
            let enough = rules::enough(rulebook, kind as usize);
            let mut script = Script::default();
            script.findings(64, 170);
            let day = small_day(rulebook, 20240305, &[(1, 2), (1, 2), (1, 3)], &[(3, 1), (128, 2)]);
            for group in [1, 3, 128] {
                for (a, b) in [(enough - 1, 0), (enough, 0), (enough + 1, 0), (enough - 1, enough - 1), (0, enough)] {
                    let cells = [(cell(group, kind, 0), a), (cell(group, kind, 1), b)];
                    hand_day(&mut script, &day, 20240304, &[], 2_000, &cells);
                }
                let both = [(cell(group, kind, 1), enough), (cell(group, kind, 2), enough)];
                hand_day(&mut script, &day, 20240304, &[], 2_000, &both);
                // past the last contract nothing is judged
                hand_day(&mut script, &day, 20240304, &[], 2_000, &[(cell(group, kind, 3), 2_000)]);
            }
            all.push(replay(format!("numbers of kind {kind}, rulebook {rulebook}"), script));
        }
    }
    let mut script = Script::default();
    script.findings(64, 1);
    let day = small_day(1, 20240305, &[(1, 0), (2, 0)], &[(3, 1)]);
    hand_day(&mut script, &day, 0, &[], 2_000, &[(cell(3, 1, 0), 5), (cell(3, 1, 1), 5)]);
    all.push(replay("futures and options on one day", script));
    all
}

/// Last date in one year, day in the same or another, with a total at its highest, ended with and without a finding.
fn year_turns() -> Vec<Case> {
    let mut all = Vec::new();
    for last_date in EDGE_DATES.into_iter().chain([0]) {
        let mut script = Script::default();
        script.findings(64, 3);
        let highest = dates::day_number(last_date) as u16;
        for date in EDGE_DATES {
            let day = small_day(2, date, &[(1, 0), (1, 9)], &[(3, 1)]);
            for cells in [&[][..], &[(cell(3, 1, 1), 5)]] {
                let totals = [(3, 1, 9, highest), (3, 2, 9, highest), (128, 3, 15, highest / 2)]
                    .map(|(group, kind, family, total)| Total { group, kind, family, total });
                hand_day(&mut script, &day, last_date, &totals, 10, cells);
                script.ask([3, 1, 9]);
            }
            script.closed();
            script.open();
            script.abandon();
        }
        all.push(replay(format!("from last date {last_date}"), script));
        all.push(replay(format!("highest totals of {last_date}"), highest_totals(last_date)));
    }
    all
}

/// Totals at the day number and one above, asked and opened over.
fn highest_totals(last_date: u32) -> Script {
    let mut script = Script::default();
    let highest = dates::day_number(last_date) as u16;
    script.counts(12_288, 1);
    for rulebook in [1, 2] {
        let day = small_day(rulebook, 20991231, &[(1, 0)], &[(1, 1)]);
        script.tables(&day.tables());
        for (group, kind, family) in [(1, 1, 0), (1, 1, 1), (64, 2, 1), (128, 3, 15), (128, 3, 2), (2, 1, 3)] {
            for total in [highest.saturating_sub(1), highest, highest + 1] {
                script.book(12_304);
                script.book_bytes(0, &build::book_head(rulebook, last_date));
                script.total(&Total { group, kind, family, total });
                script.ask([group as u64, kind as u64, family as u64]);
                script.open();
                script.closed();
            }
        }
    }
    script
}

/// Totals 0 to 7 and some high ones, for clients, members and groups of both, and for a group with no account.
fn rungs() -> Vec<Case> {
    let mut all = Vec::new();
    let makers: [(&str, &[(u8, u8)]); 4] = [
        ("clients", &[(3, 1), (3, 1)]),
        ("a member", &[(3, 2), (4, 1)]),
        ("a client and a member", &[(3, 1), (4, 1), (3, 2)]),
        ("no account", &[(4, 2)]),
    ];
    for rulebook in [1, 2] {
        for (who, accounts) in makers {
            let mut script = Script::default();
            script.findings(64, 9);
            for total in [0, 1, 2, 3, 4, 5, 6, 7, 250, 251, 252, 300, 363, 364] {
                let day = small_day(rulebook, 20231231, &[(1, 1)], accounts);
                let family = if rulebook == 1 { 0 } else { 1 };
                let totals = [1, 2, 3].map(|kind| Total { group: 3, kind, family, total });
                let cells = [1, 2, 3].map(|kind| (cell(3, kind, 0), 500));
                hand_day(&mut script, &day, 20231230, &totals, 500, &cells);
                script.ask([3, 2, family as u64]);
            }
            all.push(replay(format!("rungs of {who}, rulebook {rulebook}"), script));
        }
    }
    all
}

/// Opens the day and takes each record once, with counts and a book that fit.
pub fn taken_once(day: &Day, records: &[Vec<u8>]) -> Script {
    let mut script = Script::default();
    script.book(12_304);
    script.fresh(day.rulebook as u64);
    script.counts(12_288, 0);
    script.tables(&day.tables());
    script.open();
    records.iter().for_each(|record| script.take(record));
    script
}

fn four_fifths() -> Vec<Case> {
    let mut all = Vec::new();
    for rulebook in [1, 2] {
        let mut day = small_day(rulebook, 20240305, &[(1, 0); 14], &[(3, 1)]);
        for (contract, largest) in day.contracts.iter_mut().zip(LARGEST) {
            contract.largest = largest;
        }
        for contract in &day.contracts {
            let fifths = 4 * contract.largest / 5;
            let lots = (fifths.saturating_sub(1)..=fifths + 2).filter(|lots| (1..=1_000_000).contains(lots));
            let records: Vec<Vec<u8>> = lots
                .map(|lots| Record::Cancel { contract: contract.id, account: 11, lots, order: (1, 1, 7) }.bytes(1))
                .collect();
            let name = format!("four fifths of {}, rulebook {rulebook}", contract.largest);
            all.push(replay(name, taken_once(&day, &records)));
        }
    }
    all
}

/// Every instruction with every purpose, as a trade's first and second order, in one group and between two, as both
/// orders, and as a small and a large cancel, on futures and, in rulebook 1, on an option.
fn exemptions() -> Vec<Case> {
    let mut all = Vec::new();
    for (rulebook, version) in RULEBOOKS_AND_VERSIONS {
        let option = if rulebook == 1 { 2 } else { 1 };
        let day = small_day(rulebook, 20240305, &[(1, 0), (option, 1)], &[(3, 1), (3, 2), (4, 1)]);
        let day = Day { version, ..day };
        for instruction in 0..=7 {
            let mut records = Vec::new();
            for purpose in 0..=5 {
                records.extend(records_with(version, 101, (instruction, purpose, 7)));
                records.extend(records_with(version, 102, (instruction, purpose, 7)));
            }
            let name = format!("instruction {instruction}, each purpose, rulebook {rulebook}, version {version}");
            all.push(replay(name, taken_once(&day, &records)));
        }
    }
    all
}

fn records_with(version: u16, contract: u16, order: build::Order) -> Vec<Vec<u8>> {
    let trades = [12, 13].into_iter().flat_map(|seller| {
        [[order, (5, 1, 8)], [(1, 1, 8), order], [order, order]].map(|orders| Record::Trade {
            contract,
            buyer: 11,
            seller,
            lots: 1,
            orders,
        })
    });
    let cancels = [1, 1_000].map(|lots| Record::Cancel { contract, account: 12, lots, order });
    trades.chain(cancels).map(|record| record.bytes(version)).collect()
}

/// Cancels of market making by rulebook, contract type, lots of 1,000 and times. With no room for a finding, 20 tells
/// that there is one: the numbers are document 02's, K1, and not the reference's.
fn market_makers() -> Vec<Case> {
    let rows = [
        (1, 1, 1, 499, 0),
        (1, 1, 1, 500, 20),
        (1, 2, 1, 500, 0),
        (1, 2, 1_000, 399, 0),
        (1, 2, 1_000, 400, 20),
        (2, 1, 1, 500, 0),
        (2, 1, 1_000, 100, 20),
    ];
    let case = |(rulebook, contract_type, lots, times, number)| {
        let day = small_day(rulebook, 20240305, &[(contract_type, 0)], &[(3, 1)]);
        let instruction = if rulebook == 1 { 1 } else { 5 };
        let mut script = taken_once(&day, &[]);
        script.findings(7, 0);
        let record = Record::Cancel { contract: 101, account: 11, lots, order: (instruction, 4, 7) };
        script.take_often(times, &record.bytes(day.version));
        script.end(&build::end_record(day.version, times));
        let name = format!("{times} of a market maker's cancels, type {contract_type}, rulebook {rulebook}");
        replay_expecting(name, script, vec![0, 0, 0, number])
    };
    rows.map(case).into()
}

/// 32 contracts in 16 families, 512 accounts in 128 groups.
pub fn full_day(rulebook: u8, date: u32) -> Day {
    let kinds: Vec<(u8, u8)> = (0..32).map(|i| (if rulebook == 1 { 1 + i % 2 } else { 1 }, i % 16)).collect();
    let accounts: Vec<(u8, u8)> = (0..512).map(|i| ((i % 128 + 1) as u8, (1 + i / 128 % 2) as u8)).collect();
    small_day(rulebook, date, &kinds, &accounts)
}

/// All cells by hand: 6,144 findings in rulebook 2, 768 in rulebook 1; and the findings buffer a byte short.
fn full_sizes() -> Vec<Case> {
    let mut all = Vec::new();
    for (rulebook, findings) in [(1, 768u32), (2, 6_144)] {
        for (length, number) in [(8 * findings - 1, 20), (8 * findings, 0), (8 * findings + 1, 0), (70_000, 0)] {
            let day = full_day(rulebook, 20240305);
            let mut script = Script::default();
            script.opened(&day.head(), 500);
            script.tables(&day.tables());
            script.book(12_304);
            script.book_bytes(0, &build::book_head(rulebook, 20240304));
            script.counts(12_288, 500);
            script.findings(length, 85);
            script.end(&build::end_record(day.version, 500));
            script.ask([128, 3, 1]);
            let name = format!("{findings} findings into {length} bytes");
            all.push(replay_expecting(name, script, vec![number, 0]));
        }
    }
    for (contracts, accounts, number) in [(32, 512, 0), (33, 512, 6), (32, 513, 6)] {
        let accounts: Vec<(u8, u8)> = (0..accounts).map(|i| ((i % 128 + 1) as u8, 1)).collect();
        let day = small_day(2, 20240305, &vec![(1, 0); contracts], &accounts);
        let name = format!("{contracts} contracts, {} accounts", accounts.len());
        all.push(replay_expecting(name, taken_once(&day, &[]), vec![0, number]));
    }
    all.push(replay_expecting("a million records by m", million(), vec![0, 0, 0, 14, 14, 15, 0]));
    all
}

/// The records taken go from 0 to 1,000,000 and no further.
fn million() -> Script {
    let day = small_day(1, 20240305, &[(1, 0)], &[(3, 1)]);
    let record = Record::Cancel { contract: 101, account: 11, lots: 1_000, order: (1, 1, 7) }.bytes(day.version);
    let mut script = taken_once(&day, &[]);
    script.findings(64, 0);
    script.take_often(999_999, &record);
    script.take_often(5, &record);
    script.take(&record);
    script.end(&build::end_record(day.version, 999_999));
    script.end(&build::end_record(day.version, 1_000_000));
    script
}

/// Tables whose header stands and that are sound are not changed, whatever else in them did: calls answer by them.
fn changed_tables(random: &mut Random) -> Vec<Case> {
    let mut script = Script::default();
    for call in ["take", "end"] {
        let [mut other_group, mut other_kind, mut other_contract] = [(); 3].map(|()| scene(random, call));
        other_group.put(other_group.account_at(1) + 4, &[128]);
        other_kind.put(other_kind.account_at(1) + 5, &[2]);
        other_contract.put(other_contract.contract_at(1), &110u16.to_le_bytes());
        [other_group, other_kind, other_contract].iter().for_each(|changed| changed.call(call, &mut script));
    }
    vec![replay_expecting("sound tables under the same header", script, vec![0, 0, 12, 0, 0, 0])]
}
