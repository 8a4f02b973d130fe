//! The day log's header, its two tables and its records (document 01, "Layouts").
use crate::dates;
use crate::refusal::Refusal;
use crate::rules::{is_order, last_type};

pub const HEADER: usize = 16;
pub const ENTRY: usize = 8;
/// Where a record's brokers are, in version 2. The other bytes are the same in both versions.
const BROKERS: usize = 20;

/// A version that opening refuses can stand in a state made by hand: then a record has no brokers.
pub fn record_length(version: u16) -> usize {
    if version == 2 {
        BROKERS + 4
    } else {
        BROKERS
    }
}

pub fn read16(bytes: &[u8], at: usize) -> u16 {
    u16::from_le_bytes([bytes[at], bytes[at + 1]])
}

pub fn read32(bytes: &[u8], at: usize) -> u32 {
    u32::from_le_bytes([bytes[at], bytes[at + 1], bytes[at + 2], bytes[at + 3]])
}

/// Bytes 3 to 15 of a header.
#[derive(Clone, Copy, PartialEq, Eq)]
pub struct Header {
    pub rulebook: u8,
    pub version: u16,
    pub date: u32,
    pub contracts: u16,
    pub accounts: u16,
    pub filler: u16,
}

impl Header {
    pub fn read(bytes: &[u8]) -> Header {
        Header {
            rulebook: bytes[3],
            version: read16(bytes, 4),
            date: read32(bytes, 6),
            contracts: read16(bytes, 10),
            accounts: read16(bytes, 12),
            filler: read16(bytes, 14),
        }
    }

    /// The length of the header with its tables.
    pub fn length(&self) -> usize {
        HEADER + ENTRY * (self.contracts as usize + self.accounts as usize)
    }

    /// 1 to 32 contracts and 1 to 512 accounts.
    pub fn numbers_fit(&self) -> bool {
        (1..=32).contains(&self.contracts) && (1..=512).contains(&self.accounts)
    }

    /// The entries of the contracts and of the accounts, of tables that have the header's length.
    fn split<'a>(&self, bytes: &'a [u8]) -> (&'a [[u8; ENTRY]], &'a [[u8; ENTRY]]) {
        bytes[HEADER..].as_chunks().0.split_at(self.contracts as usize)
    }
}

fn check_header(bytes: &[u8]) -> Result<Header, Refusal> {
    if bytes.len() < HEADER {
        return Err(Refusal::Short);
    }
    let header = Header::read(bytes);
    if bytes[..3] != *b"AXD" {
        return Err(Refusal::Mark);
    }
    if header.version != 1 && header.version != 2 {
        return Err(Refusal::Version);
    }
    if header.rulebook != 1 && header.rulebook != 2 {
        return Err(Refusal::Rulebook);
    }
    if !dates::is_day(header.date) {
        return Err(Refusal::Date);
    }
    if !header.numbers_fit() || header.filler != 0 {
        return Err(Refusal::Header);
    }
    Ok(header)
}

/// One pass with one branch an entry: a take passes over sound entries as good as always.
fn contracts_are_sound(entries: &[[u8; ENTRY]], rulebook: u8) -> bool {
    let types = 1..=last_type(rulebook);
    let mut last = 0;
    for &[i, d, contract_type, product, l, a, r, g] in entries {
        let (id, largest) = (u16::from_le_bytes([i, d]), u32::from_le_bytes([l, a, r, g]));
        let is_known = types.contains(&contract_type) & (product <= 15);
        if !((id > last) & is_known & (1..=1_000_000).contains(&largest)) {
            return false;
        }
        last = id;
    }
    true
}

pub fn accounts_are_sound(entries: &[[u8; ENTRY]]) -> bool {
    let mut last = 0;
    for &[n, u, m, b, group, kind, zero, too] in entries {
        let number = u32::from_le_bytes([n, u, m, b]);
        let is_known = (1..=128).contains(&group) & (1..=2).contains(&kind);
        if !((number > last) & is_known & (u16::from_le_bytes([zero, too]) == 0)) {
            return false;
        }
        last = number;
    }
    true
}

/// Opening's checks 1 to 8, in their order.
pub fn check(bytes: &[u8]) -> Result<Header, Refusal> {
    let header = check_header(bytes)?;
    if bytes.len() != header.length() {
        return Err(Refusal::Length);
    }
    let (contracts, accounts) = header.split(bytes);
    if !contracts_are_sound(contracts, header.rulebook) {
        return Err(Refusal::Contract);
    }
    if !accounts_are_sound(accounts) {
        return Err(Refusal::Account);
    }
    Ok(header)
}

/// Tables that have been checked.
pub struct Tables<'a> {
    pub header: Header,
    contracts: &'a [[u8; ENTRY]],
    accounts: &'a [[u8; ENTRY]],
}

#[derive(Clone, Copy)]
pub struct Contract {
    pub place: usize,
    pub id: u16,
    pub contract_type: u8,
    pub product: u8,
    pub largest: u32,
}

#[derive(Clone, Copy)]
pub struct Account {
    pub group: u8,
    pub is_member: bool,
}

impl<'a> Tables<'a> {
    pub fn read(bytes: &'a [u8], header: Header) -> Tables<'a> {
        let (contracts, accounts) = header.split(bytes);
        Tables { header, contracts, accounts }
    }

    pub fn contracts(&self) -> impl Iterator<Item = Contract> + 'a {
        self.contracts.iter().enumerate().map(|(place, entry)| contract_of(place, entry))
    }

    pub fn accounts(&self) -> impl Iterator<Item = Account> + 'a {
        self.accounts.iter().map(account_of)
    }

    /// Contracts and accounts rise strictly, so halving finds the one there is.
    pub fn contract(&self, id: u16) -> Option<Contract> {
        let place = self.contracts.binary_search_by_key(&id, |entry| read16(entry, 0)).ok()?;
        Some(contract_of(place, &self.contracts[place]))
    }

    pub fn account(&self, number: u32) -> Option<Account> {
        find_account(self.accounts, number)
    }
}

fn contract_of(place: usize, entry: &[u8; ENTRY]) -> Contract {
    let (id, largest) = (read16(entry, 0), read32(entry, 4));
    Contract { place, id, contract_type: entry[2], product: entry[3], largest }
}

/// Among entries that rise strictly.
pub fn find_account(entries: &[[u8; ENTRY]], number: u32) -> Option<Account> {
    let place = entries.binary_search_by_key(&number, |entry| read32(entry, 0)).ok()?;
    Some(account_of(&entries[place]))
}

fn account_of(entry: &[u8; ENTRY]) -> Account {
    Account { group: entry[4], is_member: entry[5] == 2 }
}

/// A record's own fields as bytes 0..19 give them. Nothing is counted by brokers, so they are not kept.
pub struct Record {
    pub is_trade: bool,
    pub contract: u16,
    pub first: u32,
    pub second: u32,
    pub lots: u32,
    pub orders: [(u8, u8); 2],
}

/// A trade or a cancel whose own fields are good, of the length that its version has.
pub fn record(bytes: &[u8], rulebook: u8) -> Result<Record, Refusal> {
    let record = Record {
        is_trade: bytes[0] == 1,
        contract: read16(bytes, 2),
        first: read32(bytes, 4),
        second: read32(bytes, 8),
        lots: read32(bytes, 12),
        orders: [(bytes[16], bytes[17]), (bytes[18], bytes[19])],
    };
    let second_is_good = match bytes[0] {
        1 => is_order(rulebook, record.orders[1]),
        2 => record.second == 0 && record.orders[1] == (0, 0),
        _ => false,
    };
    let lots_are_good = (1..=1_000_000).contains(&record.lots);
    if bytes[1] != 0 || !lots_are_good || !is_order(rulebook, record.orders[0]) || !second_is_good {
        return Err(Refusal::Record);
    }
    if !brokers_are_good(&bytes[BROKERS..], record.is_trade) {
        return Err(Refusal::Brokers);
    }
    Ok(record)
}

/// Each order has a broker, and a cancel has one order. Version 1 has no brokers.
fn brokers_are_good(brokers: &[u8], is_trade: bool) -> bool {
    brokers.is_empty() || (read16(brokers, 0) != 0 && (read16(brokers, 2) != 0) == is_trade)
}

/// The number in an end record whose type and zero bytes are good.
pub fn end_number(bytes: &[u8]) -> Result<u32, Refusal> {
    let is_zero = |part: &[u8]| part.iter().all(|&byte| byte == 0);
    if bytes[0] != 3 || !is_zero(&bytes[1..4]) || !is_zero(&bytes[8..BROKERS]) {
        return Err(Refusal::Record);
    }
    if !is_zero(&bytes[BROKERS..]) {
        return Err(Refusal::Brokers);
    }
    Ok(read32(bytes, 4))
}
