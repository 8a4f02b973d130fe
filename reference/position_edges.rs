//! Cases of positions at the edges, by calls: each fault alone, each pair that tests an order, the last values that are
//! accepted, full sizes. They are the same for every seed but for what does not matter to the edge. What is an offence
//! is in `position_lines`.
use crate::build::{Account, Script};
use crate::cases::{replay_expecting, Case};
use crate::edges::{small_day, taken_once};
use crate::position_build::{position_total, Limited, Position, PositionLog};
use crate::position_examples::full;
use crate::position_faults::{position_faults, PositionFault};
use crate::position_lines::on_contracts;
use crate::position_scene::{position_scene, record_at, scene_log, PositionScene, POSITION_CALLS};
use crate::random::Random;
use crate::refusal::{order, Part, Refusal};

pub fn position_edges(random: &mut Random) -> Vec<Case> {
    let mut all = Vec::new();
    for call in POSITION_CALLS {
        all.extend(single_faults(random, call));
        all.extend(fault_pairs(random, call));
    }
    all.extend(entry_faults(random));
    all.extend(accepted_fields());
    all.extend(accepted_scenes(random));
    all.extend(numbers_of_entries());
    all.extend(full_sizes());
    all.push(beside_a_day());
    all
}

/// Each fault in both rulebooks.
fn single_faults(random: &mut Random, call: &str) -> Vec<Case> {
    let mut all = Vec::new();
    for rulebook in [1, 2] {
        for (i, chunk) in position_faults(call).chunks(20).enumerate() {
            let mut script = Script::default();
            for fault in chunk {
                let mut scene = position_scene(random, rulebook);
                (fault.make)(&mut scene);
                scene.call(call, &mut script);
            }
            let numbers = chunk.iter().map(|fault| fault.refusal.number()).collect();
            all.push(replay_expecting(format!("{call}, one fault, rulebook {rulebook}, part {i}"), script, numbers));
        }
    }
    all
}

/// For each two refusals of the order, scenes with a fault of either: the earlier one is due. The later fault goes in
/// first, as the earlier one may cut off what it stands in.
fn fault_pairs(random: &mut Random, call: &str) -> Vec<Case> {
    let faults = position_faults(call);
    let of = |refusal: Refusal| faults.iter().filter(|f| f.refusal == refusal).collect::<Vec<&PositionFault>>();
    let mut all = Vec::new();
    for (i, &earlier) in order(call).iter().enumerate() {
        for &later in &order(call)[i + 1..] {
            let mut script = Script::default();
            for rulebook in [1, 2].repeat(4) {
                let mut scene = position_scene(random, rulebook);
                (random.pick(&of(later)).make)(&mut scene);
                (random.pick(&of(earlier)).make)(&mut scene);
                scene.call(call, &mut script);
            }
            let name = format!("{call}, {earlier:?} before {later:?}");
            all.push(replay_expecting(name, script, vec![earlier.number(); 8]));
        }
    }
    all
}

/// Faults of the header and the entries in a log of no records: there no record can be at odds with them.
fn entry_faults(random: &mut Random) -> Vec<Case> {
    let is_of_entries = |fault: &PositionFault| {
        let parts = [Part::Header, Part::Contract, Part::Account];
        parts.iter().any(|&part| fault.refusal == Refusal::Positions(part))
    };
    let faults: Vec<PositionFault> = position_faults("judge").into_iter().filter(is_of_entries).collect();
    let mut all = Vec::new();
    for (i, chunk) in faults.chunks(20).enumerate() {
        let mut script = Script::default();
        for fault in chunk {
            let mut scene = position_scene(random, 1 + (i % 2) as u8);
            scene.log.truncate(record_at(0));
            scene.put(14, &[0, 0]);
            (fault.make)(&mut scene);
            scene.call("judge", &mut script);
        }
        all.push(replay_expecting(format!("judge, one fault and no records, part {i}"), script, vec![22; chunk.len()]));
    }
    all
}

type LogChange = fn(&mut PositionLog);

/// Each field of a log at the last value that it may have.
fn accepted_fields() -> Vec<Case> {
    let changes: [LogChange; 16] = [
        |log| log.contracts[0].product = 15,
        |log| log.contracts[2].product = 0,
        |log| log.contracts[1].today = 1,
        |log| log.contracts[1].today = 1_000_000_000,
        |log| log.contracts[1].previous = 1,
        |log| log.contracts[1].previous = 1_000_000_000,
        |log| log.accounts[2].group = 127,
        |log| log.accounts[3].group = 2,
        |log| log.accounts[0].kind = 2,
        |log| log.positions[0].long = 1_000_000,
        |log| log.positions[11].short = 1_000_000,
        |log| log.positions[5].long = 0,
        |log| log.positions.clear(),
        |log| log.positions.retain(|position| position.contract == 102),
        |log| log.positions.retain(|position| position.account == 70_000),
        ends_of_the_numbers,
    ];
    let case = |rulebook| {
        let mut script = Script::default();
        script.findings(80, 170);
        for change in changes {
            let mut log = scene_log(rulebook, 20240305);
            change(&mut log);
            script.position_start(rulebook, 20240304, &[]);
            script.judge(&log.bytes());
        }
        let numbers = vec![0; changes.len()];
        replay_expecting(format!("fields at their limits, rulebook {rulebook}"), script, numbers)
    };
    [1, 2].map(case).into()
}

/// The lowest and the highest id and account number there are.
fn ends_of_the_numbers(log: &mut PositionLog) {
    log.contracts[0].id = 1;
    log.contracts[2].id = 65_535;
    log.accounts[0].number = 1;
    log.accounts[3].number = u32::MAX;
    for position in &mut log.positions {
        position.contract = match position.contract {
            101 => 1,
            65_000 => 65_535,
            id => id,
        };
        position.account = match position.account {
            11 => 1,
            70_000 => u32::MAX,
            number => number,
        };
    }
}

/// Scenes with a book or a buffer that just does: family 1 may stand in rulebook 1, and nothing need be later than no
/// date.
fn accepted_scenes(random: &mut Random) -> Vec<Case> {
    let changes: [fn(&mut PositionScene); 8] = [
        |_| {},
        |s| s.findings.0 = 8,
        |s| s.findings = (70_000, 3),
        |s| s.book.set_date(0),
        |s| s.book.totals.push((18, 5)),
        |s| s.book.totals.push((4_112 - 30, 1)),
        |s| s.book.totals.push((16 + 2 * (127 * 16), 5)),
        |s| s.book.totals.push((16, 4)),
    ];
    let mut all = Vec::new();
    for call in POSITION_CALLS {
        for rulebook in [1, 2] {
            let mut script = Script::default();
            for change in changes {
                let mut scene = position_scene(random, rulebook);
                // a date that every total here fits
                scene.log[6..10].copy_from_slice(&20240306u32.to_le_bytes());
                scene.book.set_date(20240105);
                change(&mut scene);
                if scene.book.head[6..10] == [0; 4] {
                    scene.book.totals.clear();
                }
                scene.call(call, &mut script);
            }
            let name = format!("{call}, accepted edge, rulebook {rulebook}");
            all.push(replay_expecting(name, script, vec![0; changes.len()]));
        }
    }
    all
}

/// Contracts, accounts and records on either side of their limits, where everything else is right.
fn numbers_of_entries() -> Vec<Case> {
    let rows = [
        (1, 1, 0, 0),
        (1, 1, 1, 0),
        (32, 512, 0, 0),
        (32, 512, 16_383, 0),
        (32, 512, 16_384, 0),
        (33, 512, 0, 22),
        (32, 513, 0, 22),
        (33, 512, 16_385, 22),
        (33, 500, 16_384, 22),
        (0, 1, 0, 22),
        (1, 0, 0, 22),
        (0, 0, 0, 22),
    ];
    let case = |(contracts, accounts, records, number)| {
        let log = of_numbers(contracts, accounts, records);
        let mut script = Script::default();
        script.position_start(2, 0, &[]);
        script.findings(64, 0);
        script.judge(&log.bytes());
        let name = format!("{contracts} contracts, {accounts} accounts, {records} positions");
        replay_expecting(name, script, vec![number])
    };
    rows.map(case).into()
}

/// The first of all positions that these contracts and accounts can have.
fn of_numbers(contracts: u16, accounts: u32, records: usize) -> PositionLog {
    let limited = |id| Limited { id, product: 3, today: 1_000_000_000, previous: 1 };
    let account = |number| Account { number, group: (number % 128 + 1) as u8, kind: 1 };
    let of_contract = |contract| {
        (1..=accounts).map(move |account| Position { contract, account, long: account, short: contract as u32 })
    };
    PositionLog {
        rulebook: 2,
        date: 20000101,
        contracts: (1..=contracts).map(limited).collect(),
        accounts: (1..=accounts).map(account).collect(),
        positions: (1..=contracts).flat_map(of_contract).take(records).collect(),
    }
}

/// The longest log with a finding on every ladder, 128 in rulebook 1 and 2,048 in rulebook 2; and the findings buffer a
/// byte short.
fn full_sizes() -> Vec<Case> {
    let mut all = Vec::new();
    for (rulebook, findings) in [(1, 128u32), (2, 2_048)] {
        for (length, number) in [(8 * findings - 1, 20), (8 * findings, 0), (8 * findings + 1, 0), (70_000, 0)] {
            let mut script = Script::default();
            script.position_start(rulebook, 20240304, &[position_total(128, 0, 3)]);
            script.findings(length, 85);
            script.judge(&full(rulebook, 20240305, 1, 3).bytes());
            script.position_ask([128, 5, 0]);
            script.judge(&full(rulebook, 20250101, 1, 4).bytes());
            let name = format!("{findings} findings of positions into {length} bytes");
            all.push(replay_expecting(name, script, vec![number, 0, 0]));
        }
    }
    all
}

/// Judging looks at no open day, and changes nothing of it; nor does a day anything of the position book.
fn beside_a_day() -> Case {
    let day = small_day(1, 20240305, &[(1, 0)], &[(3, 1), (3, 1)]);
    let mut script = taken_once(&day, &[]);
    script.findings(16, 7);
    script.position_ask([3, 5, 0]);
    script.position_book(4_112);
    script.position_fresh(2);
    script.judge(&on_contracts(2, &[(0, 1_001, 0)]).bytes());
    script.open();
    script.abandon();
    script.judge(&on_contracts(2, &[(0, 1_001, 0)]).bytes());
    script.position_ask([3, 5, 0]);
    script.ask([3, 1, 0]);
    script.fresh(1);
    script.position_ask([3, 5, 0]);
    replay_expecting("positions beside an open day", script, vec![0, 0, 17, 0, 0, 10, 0, 9, 0, 0, 0, 0])
}
