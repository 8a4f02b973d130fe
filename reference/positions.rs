//! Positions over the limit (document 02, K4): a position log is checked from its first byte to its last, each group's
//! lots are added up, and the groups above a limit are the findings.
use crate::book::POSITIONS;
use crate::calls::{self, Finding};
use crate::dates;
use crate::refusal::{Part, Refusal};
use crate::rules::{self, FAMILIES, GROUPS, PLACES};
use crate::tables::{self, read16, read32, Header, ENTRY, HEADER};

const CONTRACT: usize = 16;
const RECORD: usize = 16;
const MOST_RECORDS: u16 = 16_384;
const MOST_LOTS: u32 = 1_000_000;
const HIGHEST_LIMIT: u32 = 1_000_000_000;
/// The only kind of offence of this book.
pub const KIND: usize = 5;
/// A log with everything that it can have.
pub const LONGEST: usize = 266_768;

struct Contract {
    id: u16,
    family: usize,
    today: u32,
    previous: u32,
}

/// Long and short lots by group and by the contract's place.
pub type Sums = Vec<[[u64; 2]; PLACES]>;

/// A log that has no fault.
pub struct Log {
    pub header: Header,
    contracts: Vec<Contract>,
    /// How many accounts each group has.
    sizes: [usize; GROUPS + 1],
    pub sums: Sums,
}

fn faulty<T>(part: Part) -> Result<T, Refusal> {
    Err(Refusal::Positions(part))
}

/// The bytes that stand where the day log has zero are the number of records.
fn check_header(log: &[u8]) -> Result<Header, Refusal> {
    if log.len() < HEADER {
        return faulty(Part::Length);
    }
    let header = Header::read(log);
    let is_good = log[..3] == *b"AXP"
        && (header.rulebook == 1 || header.rulebook == 2)
        && header.version == 1
        && dates::is_day(header.date)
        && header.numbers_fit()
        && header.filler <= MOST_RECORDS;
    if !is_good {
        return faulty(Part::Header);
    }
    Ok(header)
}

fn read_contracts(entries: &[u8], rulebook: u8) -> Result<Vec<Contract>, Refusal> {
    let mut contracts = Vec::new();
    let mut last = 0;
    for entry in entries.chunks_exact(CONTRACT) {
        let (id, product) = (read16(entry, 0), entry[3]);
        let (today, previous) = (read32(entry, 4), read32(entry, 8));
        let limits_are_good = [today, previous].iter().all(|limit| (1..=HIGHEST_LIMIT).contains(limit));
        if id <= last || entry[2] != 1 || product > 15 || !limits_are_good || read32(entry, 12) != 0 {
            return faulty(Part::Contract);
        }
        contracts.push(Contract { id, family: rules::position_family(rulebook, product), today, previous });
        last = id;
    }
    Ok(contracts)
}

/// Each account at most once a contract, and contract by contract.
fn add_up(records: &[u8], contracts: &[Contract], accounts: &[[u8; ENTRY]]) -> Result<Sums, Refusal> {
    let mut sums = vec![[[0; 2]; PLACES]; GROUPS + 1];
    let mut last = None;
    for record in records.chunks_exact(RECORD) {
        let (id, number) = (read16(record, 0), read32(record, 4));
        let lots = [read32(record, 8), read32(record, 12)];
        let is_in_order = last < Some((id, number));
        if !is_in_order || read16(record, 2) != 0 || lots.iter().any(|&lots| lots > MOST_LOTS) {
            return faulty(Part::Record);
        }
        let place = contracts.iter().position(|contract| contract.id == id);
        let (Some(place), Some(account)) = (place, tables::find_account(accounts, number)) else {
            return faulty(Part::Unknown);
        };
        for (sum, lots) in sums[account.group as usize][place].iter_mut().zip(lots) {
            *sum += lots as u64;
        }
        last = Some((id, number));
    }
    Ok(sums)
}

/// The log's numbers, or its first fault.
pub fn read(log: &[u8]) -> Result<Log, Refusal> {
    let header = check_header(log)?;
    let (c, a, r) = (header.contracts as usize, header.accounts as usize, header.filler as usize);
    if log.len() != HEADER + CONTRACT * c + ENTRY * a + RECORD * r {
        return faulty(Part::Length);
    }
    let (entries, rest) = log[HEADER..].split_at(CONTRACT * c);
    let (accounts, records) = rest.split_at(ENTRY * a);
    let accounts = accounts.as_chunks().0;
    let contracts = read_contracts(entries, header.rulebook)?;
    if !tables::accounts_are_sound(accounts) {
        return faulty(Part::Account);
    }
    let sums = add_up(records, &contracts, accounts)?;
    let mut sizes = [0; GROUPS + 1];
    accounts.iter().for_each(|entry| sizes[entry[4] as usize] += 1);
    Ok(Log { header, contracts, sizes, sums })
}

impl Log {
    /// For each family the lowest contract id on which the group is over: contracts rise, so it is the first. One
    /// account alone is no combined position.
    fn offences(&self, group: usize) -> [Option<u16>; FAMILIES] {
        let mut lowest = [None; FAMILIES];
        for (contract, sums) in self.contracts.iter().zip(self.sums[group]) {
            let is_over = |sum| rules::is_over(self.header.rulebook, sum, contract.today, contract.previous);
            if self.sizes[group] >= 2 && sums.into_iter().any(is_over) {
                lowest[contract.family].get_or_insert(contract.id);
            }
        }
        lowest
    }

    fn findings(&self, book: &[u8]) -> Vec<Finding> {
        let mut found = Vec::new();
        for group in 1..=GROUPS {
            for (family, contract) in self.offences(group).into_iter().enumerate() {
                let Some(contract) = contract else { continue };
                let total = calls::next_total(&POSITIONS, book, self.header.date, (group, KIND, family));
                let sanction = rules::position_sanction(rules::rung(total));
                let (group, kind, family) = (group as u8, KIND as u8, family as u8);
                found.push(Finding { group, kind, family, sanction, total, contract });
            }
        }
        found
    }
}

/// The number of findings.
pub fn judge(log: &[u8], book: &mut [u8], findings: &mut [u8]) -> Result<usize, Refusal> {
    let log = read(log)?;
    calls::check_book(&POSITIONS, book, &log.header)?;
    let found = log.findings(book);
    calls::write_findings(&found, findings)?;
    calls::write_book(&POSITIONS, book, log.header.date, &found);
    Ok(found.len())
}
