//! One call on positions with all that it is handed, written out by hand in a script. Faults are put into scenes.
use crate::book_scene::BookScene;
use crate::build::{Account, Script};
use crate::days::any_date;
use crate::position_build::{position_head, position_total, Limited, Position, PositionLog};
use crate::random::Random;

pub const POSITION_CALLS: [&str; 3] = ["position fresh", "judge", "position ask"];

#[derive(Clone)]
pub struct PositionScene {
    pub log: Vec<u8>,
    pub book: BookScene,
    pub findings: (u32, u8),
    pub fresh: u64,
    pub asked: [u64; 3],
}

impl PositionScene {
    /// Sets everything, so that scenes in one script do not hang on each other.
    pub fn call(&self, call: &str, script: &mut Script) {
        script.position_book(self.book.length);
        self.book.pieces().iter().for_each(|(at, piece)| script.position_bytes(*at, piece));
        script.findings(self.findings.0, self.findings.1);
        match call {
            "position fresh" => script.position_fresh(self.fresh),
            "judge" => script.judge(&self.log),
            _ => script.position_ask(self.asked),
        }
    }

    /// Bytes into the log; nothing where another fault has cut that place off.
    pub fn put(&mut self, at: usize, bytes: &[u8]) {
        if let Some(room) = self.log.get_mut(at..at + bytes.len()) {
            room.copy_from_slice(bytes);
        }
    }
}

/// Where a scene's three contracts, four accounts and twelve records stand.
pub fn contract_at(i: usize) -> usize {
    16 + 16 * i
}

pub fn account_at(i: usize) -> usize {
    contract_at(3) + 8 * i
}

pub fn record_at(i: usize) -> usize {
    account_at(4) + 16 * i
}

pub const RECORDS: usize = 12;

/// Accounts 11 and 12 are in group 3, one is in 128, one in 1; each has a position in each contract. Group 3 is one lot
/// above the limit of the second contract, and nobody else is above any.
pub fn scene_log(rulebook: u8, date: u32) -> PositionLog {
    let limited = |id, product| Limited { id, product, today: 1_000, previous: 900 };
    let account = |number, group, kind| Account { number, group, kind };
    let contracts = vec![limited(101, 0), limited(102, 1), limited(65_000, 15)];
    let accounts = vec![account(11, 3, 1), account(12, 3, 2), account(300, 128, 1), account(70_000, 1, 2)];
    let mut positions = Vec::new();
    for contract in &contracts {
        for account in &accounts {
            let is_long = contract.id == 102 && account.group == 3;
            let long = if is_long { [600, 401][(account.number - 11) as usize] } else { 7 };
            positions.push(Position { contract: contract.id, account: account.number, long, short: 300 });
        }
    }
    PositionLog { rulebook, date, contracts, accounts, positions }
}

/// A scene in which each call is accepted, and judging gives one finding.
pub fn position_scene(random: &mut Random, rulebook: u8) -> PositionScene {
    let log = scene_log(rulebook, any_date(random).min(20991230));
    let last_date = if log.date > 20240105 { 20240105 } else { 0 };
    let family = if rulebook == 1 { 0 } else { 1 };
    let total = position_total(3, family, random.within(1, 5) as u16);
    let totals = if last_date == 0 { Vec::new() } else { vec![(total.place() as u32, total.total)] };
    PositionScene {
        log: log.bytes(),
        book: BookScene { length: 4_112, head: position_head(rulebook, last_date), totals },
        findings: (random.pick(&[8, 9, 80]), random.next() as u8),
        fresh: rulebook as u64,
        asked: [3, 5, family as u64],
    }
}
