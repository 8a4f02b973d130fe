//! Position logs, their book and the steps of a script for them, as plain data and its bytes (document 02, K4). The
//! model reads with its own.
use crate::build::{head_of, header, with_totals, Account, Script, Total};

#[derive(Clone)]
pub struct Limited {
    pub id: u16,
    pub product: u8,
    pub today: u32,
    pub previous: u32,
}

#[derive(Clone)]
pub struct Position {
    pub contract: u16,
    pub account: u32,
    pub long: u32,
    pub short: u32,
}

#[derive(Clone)]
pub struct PositionLog {
    pub rulebook: u8,
    pub date: u32,
    pub contracts: Vec<Limited>,
    pub accounts: Vec<Account>,
    pub positions: Vec<Position>,
}

impl Limited {
    fn bytes(&self) -> Vec<u8> {
        let mut bytes = self.id.to_le_bytes().to_vec();
        bytes.extend([1, self.product]);
        bytes.extend([self.today, self.previous, 0].iter().flat_map(|n| n.to_le_bytes()));
        bytes
    }
}

impl Position {
    pub fn bytes(&self) -> Vec<u8> {
        let mut bytes = self.contract.to_le_bytes().to_vec();
        bytes.extend([0, 0]);
        bytes.extend([self.account, self.long, self.short].iter().flat_map(|n| n.to_le_bytes()));
        bytes
    }
}

impl PositionLog {
    pub fn bytes(&self) -> Vec<u8> {
        let numbers = [self.contracts.len(), self.accounts.len(), self.positions.len()];
        let mut bytes = header(b"AXP", self.rulebook, 1, self.date, numbers);
        bytes.extend(self.contracts.iter().flat_map(Limited::bytes));
        bytes.extend(self.accounts.iter().flat_map(Account::bytes));
        bytes.extend(self.positions.iter().flat_map(Position::bytes));
        bytes
    }
}

pub fn position_head(rulebook: u8, last_date: u32) -> Vec<u8> {
    head_of(b"AXQ", rulebook, last_date)
}

pub fn position_book(rulebook: u8, last_date: u32, totals: &[Total]) -> Vec<u8> {
    with_totals(position_head(rulebook, last_date), 4_112, totals)
}

/// On a ladder of positions.
pub fn position_total(group: usize, family: usize, total: u16) -> Total {
    Total { group, kind: 5, family, total }
}

impl Script {
    pub fn position_book(&mut self, n: u32) {
        self.step(b'A', &[n], &[]);
    }

    pub fn position_bytes(&mut self, at: u32, bytes: &[u8]) {
        self.step(b'j', &[at, bytes.len() as u32], bytes);
    }

    /// A sound book: its head and these totals, and zero elsewhere.
    pub fn position_start(&mut self, rulebook: u8, last_date: u32, totals: &[Total]) {
        self.position_book(4_112);
        self.position_bytes(0, &position_head(rulebook, last_date));
        for total in totals {
            self.position_bytes(total.place() as u32, &total.total.to_le_bytes());
        }
    }

    pub fn position_fresh(&mut self, rulebook: u64) {
        self.step(b'g', &[], &rulebook.to_le_bytes());
    }

    pub fn judge(&mut self, log: &[u8]) {
        self.step(b'p', &[log.len() as u32], log);
    }

    pub fn position_ask(&mut self, asked: [u64; 3]) {
        self.step(b'r', &[], &asked.map(u64::to_le_bytes).concat());
    }
}
