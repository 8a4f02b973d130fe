//! What is an offence of positions and what is not: either side of every limit, families, ladders, the turns of years.
use crate::build::{Account, Script};
use crate::cases::{replay, replay_expecting, Case};
use crate::dates;
use crate::days::EDGE_DATES;
use crate::position_build::{position_total, Limited, Position, PositionLog};

pub fn position_lines() -> Vec<Case> {
    let mut all = limits();
    all.extend(families());
    all.extend(ladders());
    all.extend(year_turns());
    all
}

/// A group's account with its lots, long and short.
type Held = (u8, u32, u32);

/// One contract 101 of product 2, and these accounts, each with a position; those of no lots can be left out.
fn one_contract(rulebook: u8, (today, previous): (u32, u32), held: &[Held], with_empty: bool) -> PositionLog {
    let numbered = || (11..).zip(held);
    PositionLog {
        rulebook,
        date: 20240305,
        contracts: vec![Limited { id: 101, product: 2, today, previous }],
        accounts: numbered().map(|(number, &(group, ..))| Account { number, group, kind: 1 }).collect(),
        positions: numbered()
            .filter(|&(_, &(_, long, short))| with_empty || long + short > 0)
            .map(|(account, &(_, long, short))| Position { contract: 101, account, long, short })
            .collect(),
    }
}

/// Limits of today and of the day before, who holds what, and whether it is an offence in rulebook 1 and in 2: by
/// document 02, and not by the reference.
const LINES: [((u32, u32), &[Held], [bool; 2]); 30] = [
    ((1_000, 1_000), &[(3, 600, 0), (3, 400, 0)], [false, false]),
    ((1_000, 1_000), &[(3, 600, 0), (3, 401, 0)], [true, true]),
    ((1_000, 1_000), &[(3, 0, 600), (3, 0, 400)], [false, false]),
    ((1_000, 1_000), &[(3, 0, 600), (3, 0, 401)], [true, true]),
    // the two sides are not added, and neither is taken from the other
    ((1_000, 1_000), &[(3, 600, 400), (3, 400, 600)], [false, false]),
    ((1_000, 1_000), &[(3, 1_001, 1_001), (3, 0, 0)], [true, true]),
    // above today's only; equal to the previous one; above both; above the previous one only
    ((1_000, 2_000), &[(3, 600, 0), (3, 401, 0)], [false, true]),
    ((1_000, 1_001), &[(3, 600, 0), (3, 401, 0)], [false, true]),
    ((1_000, 1_001), &[(3, 600, 0), (3, 402, 0)], [true, true]),
    ((1_001, 1_000), &[(3, 600, 0), (3, 401, 0)], [false, false]),
    ((1_001, 1_000), &[(3, 600, 0), (3, 402, 0)], [true, true]),
    ((2_000, 1_000), &[(3, 0, 1_000), (3, 0, 999)], [false, false]),
    // one side above today's alone, the other above no limit; or above both
    ((1_000, 2_000), &[(3, 1_000, 900), (3, 500, 100)], [false, true]),
    ((1_000, 2_000), &[(3, 1_000, 1_500), (3, 500, 501)], [true, true]),
    // one account is no combined position; a second one need not hold anything; others' do not count
    ((1_000, 1_000), &[(3, 1_000_000, 1_000_000)], [false, false]),
    ((1_000, 1_000), &[(3, 1_001, 0), (3, 0, 0)], [true, true]),
    ((1_000, 1_000), &[(3, 600, 0), (4, 401, 0)], [false, false]),
    ((1_000, 1_000), &[(3, 600, 0), (4, 401, 0), (3, 400, 0)], [false, false]),
    ((1_000, 1_000), &[(3, 600, 0), (4, 1, 0), (3, 401, 0)], [true, true]),
    ((1_000, 1_000), &[(128, 600, 0), (127, 600, 0), (128, 401, 0)], [true, true]),
    ((1_000, 1_000), &[(1, 334, 0), (1, 334, 0), (1, 333, 0)], [true, true]),
    // the ends of the range, and sums that 16 bits do not hold
    ((1, 1), &[(3, 1, 1), (3, 0, 0)], [false, false]),
    ((1, 1), &[(3, 1, 0), (3, 1, 0)], [true, true]),
    ((65_536, 65_536), &[(3, 65_535, 0), (3, 1, 0)], [false, false]),
    ((65_536, 65_536), &[(3, 65_535, 0), (3, 2, 0)], [true, true]),
    ((65_535, 1), &[(3, 65_535, 0), (3, 1, 0)], [true, true]),
    ((1_000_000, 1_000_000), &[(3, 1_000_000, 0), (3, 0, 0)], [false, false]),
    ((1_000_000, 1_000_000), &[(3, 1_000_000, 0), (3, 1, 0)], [true, true]),
    ((2_000_000, 1_999_999), &[(3, 0, 1_000_000), (3, 0, 1_000_000)], [false, false]),
    ((1_999_999, 1_999_999), &[(3, 0, 1_000_000), (3, 0, 1_000_000)], [true, true]),
];

/// With no room for a finding, 20 tells that there is one; then again with room.
fn told(script: &mut Script, numbers: &mut Vec<u8>, log: &PositionLog, is_offence: bool) {
    script.position_start(log.rulebook, 20240304, &[]);
    script.findings(7, 1);
    script.judge(&log.bytes());
    script.findings(80, 1);
    script.judge(&log.bytes());
    numbers.extend([if is_offence { 20 } else { 0 }, if is_offence { 0 } else { 9 }]);
}

fn limits() -> Vec<Case> {
    let mut all = Vec::new();
    for rulebook in [1, 2] {
        let (mut script, mut numbers) = (Script::default(), Vec::new());
        for (limits, held, is_offence) in LINES {
            for with_empty in [true, false] {
                let log = one_contract(rulebook, limits, held, with_empty);
                told(&mut script, &mut numbers, &log, is_offence[rulebook as usize - 1]);
            }
        }
        all.push(replay_expecting(format!("limits of positions, rulebook {rulebook}"), script, numbers));
        let (mut script, mut numbers) = (Script::default(), Vec::new());
        for (limit, is_offence) in [(511_999_999, true), (512_000_000, false), (1_000_000_000, false)] {
            let log = one_contract(rulebook, (limit, limit), &[(77, 1_000_000, 1_000_000); 512], true);
            told(&mut script, &mut numbers, &log, is_offence);
        }
        all.push(replay_expecting(format!("512 accounts at 1,000,000 lots, rulebook {rulebook}"), script, numbers));
    }
    all
}

/// Contracts of one product and of others: lots are not added over contracts, a family has one finding, and it names
/// the lowest contract that is over. In rulebook 1 there is one family. How many findings there are in either rulebook.
fn families() -> Vec<Case> {
    let rows: [(&[(u8, u32, u32)], [usize; 2]); 8] = [
        (&[(2, 500, 500), (2, 501, 0)], [0, 0]),
        (&[(2, 1_000, 0), (2, 1_001, 0)], [1, 1]),
        (&[(2, 1_001, 0), (2, 1_001, 0)], [1, 1]),
        (&[(2, 1_001, 0), (2, 0, 1_001)], [1, 1]),
        (&[(2, 1_001, 0), (3, 1_001, 0)], [1, 2]),
        (&[(15, 1_001, 0), (0, 0, 1_001), (15, 1_001, 0)], [1, 2]),
        (&[(3, 1_000, 0), (2, 1_001, 0), (1, 1_001, 0), (0, 1_001, 0)], [1, 3]),
        (&[(0, 1_001, 1_001); 5], [1, 1]),
    ];
    let case = |rulebook: u8| {
        let (mut script, mut numbers) = (Script::default(), Vec::new());
        for (held, found) in rows {
            let log = on_contracts(rulebook, held);
            let found = found[rulebook as usize - 1];
            for (room, number) in [((8 * found).max(1) - 1, if found == 0 { 0 } else { 20 }), (8 * found, 0)] {
                script.position_start(rulebook, 20240304, &[]);
                script.findings(room as u32, 0);
                script.judge(&log.bytes());
                numbers.push(number);
            }
        }
        replay_expecting(format!("families of positions, rulebook {rulebook}"), script, numbers)
    };
    [1, 2].map(case).into()
}

/// Contracts 101.. of the given products, on which group 3's two accounts together hold so much. The limits are 1,000.
pub fn on_contracts(rulebook: u8, held: &[(u8, u32, u32)]) -> PositionLog {
    let limited = |(id, &(product, ..)): (u16, &(u8, u32, u32))| Limited { id, product, today: 1_000, previous: 1_000 };
    let account = |number| Account { number, group: 3, kind: number as u8 - 10 };
    let mut positions = Vec::new();
    for (contract, &(_, long, short)) in (101..).zip(held) {
        let first = Position { contract, account: 11, long: long / 2, short: short / 3 };
        let second = Position { account: 12, long: long - first.long, short: short - first.short, ..first };
        positions.extend([first, second]);
    }
    let contracts = (101..).zip(held).map(limited).collect();
    PositionLog { rulebook, date: 20240305, contracts, accounts: vec![account(11), account(12)], positions }
}

/// Totals 0 to 7 and some high ones, for clients and members, on the ladders of either rulebook.
fn ladders() -> Vec<Case> {
    let mut all = Vec::new();
    for rulebook in [1, 2] {
        for kind in [1, 2] {
            let mut script = Script::default();
            script.findings(80, 9);
            for total in [0, 1, 2, 3, 4, 5, 6, 7, 250, 251, 252, 300, 362, 363, 364] {
                let mut log = on_contracts(rulebook, &[(0, 1_001, 0), (9, 1_001, 0)]);
                log.date = 20231231;
                log.accounts.iter_mut().for_each(|account| account.kind = kind);
                let totals = [(3, 0, total), (3, 1, total), (4, 0, total)].map(|(g, f, t)| position_total(g, f, t));
                script.position_start(rulebook, 20231230, &totals);
                script.judge(&log.bytes());
                [0, 1, 9].iter().for_each(|&family| script.position_ask([3, 5, family]));
                script.position_ask([4, 5, 0]);
            }
            all.push(replay(format!("ladders of positions, kind {kind}, rulebook {rulebook}"), script));
        }
    }
    all
}

/// Last date in one year, day in the same or another, with totals at their highest, with and without a finding.
fn year_turns() -> Vec<Case> {
    let mut all = Vec::new();
    for last_date in EDGE_DATES.into_iter().chain([0]) {
        let mut script = Script::default();
        script.findings(64, 3);
        let highest = dates::day_number(last_date) as u16;
        for date in EDGE_DATES {
            for lots in [1_000, 1_001] {
                let log = PositionLog { date, ..on_contracts(2, &[(0, 1, 1), (9, lots, 1)]) };
                let totals = [(3, 9, highest), (3, 0, highest), (128, 15, highest / 2)];
                script.position_start(2, last_date, &totals.map(|(g, f, t)| position_total(g, f, t)));
                script.judge(&log.bytes());
                script.position_ask([3, 5, 9]);
                script.position_ask([128, 5, 15]);
            }
        }
        all.push(replay(format!("positions from last date {last_date}"), script));
        all.push(replay(format!("highest totals of positions of {last_date}"), highest_totals(last_date)));
    }
    all
}

/// Totals at the day number and one above, asked and judged over.
fn highest_totals(last_date: u32) -> Script {
    let mut script = Script::default();
    let highest = dates::day_number(last_date) as u16;
    script.findings(64, 5);
    for rulebook in [1, 2] {
        let log = PositionLog { date: 20991231, ..on_contracts(rulebook, &[(1, 1_001, 0)]) };
        for (group, family) in [(1, 0), (1, 1), (64, 1), (128, 15), (128, 2), (2, 3), (3, 1)] {
            for total in [highest.saturating_sub(1), highest, highest + 1] {
                script.position_start(rulebook, last_date, &[position_total(group, family, total)]);
                script.position_ask([group as u64, 5, family as u64]);
                script.judge(&log.bytes());
            }
        }
    }
    script
}
