//! Days, books and scripts as plain data, and their bytes. The generators write through these; the calls read with
//! their own, so that a slip in one shows.

#[derive(Clone)]
pub struct Contract {
    pub id: u16,
    pub contract_type: u8,
    pub product: u8,
    pub largest: u32,
}

#[derive(Clone)]
pub struct Account {
    pub number: u32,
    pub group: u8,
    pub kind: u8,
}

/// Instruction, purpose and broker. A log of version 1 leaves the broker out.
pub type Order = (u8, u8, u16);

#[derive(Clone)]
pub enum Record {
    Trade { contract: u16, buyer: u32, seller: u32, lots: u32, orders: [Order; 2] },
    Cancel { contract: u16, account: u32, lots: u32, order: Order },
}

#[derive(Clone)]
pub struct Day {
    pub rulebook: u8,
    pub version: u16,
    pub date: u32,
    pub contracts: Vec<Contract>,
    pub accounts: Vec<Account>,
    /// Each record with how many times it comes in a row.
    pub records: Vec<(Record, u32)>,
}

/// Version 2 adds the two brokers.
pub fn record_length(version: u16) -> usize {
    if version == 2 {
        24
    } else {
        20
    }
}

impl Record {
    pub fn bytes(&self, version: u16) -> Vec<u8> {
        let (record_type, contract, first, second, lots, orders) = match *self {
            Record::Trade { contract, buyer, seller, lots, orders } => (1, contract, buyer, seller, lots, orders),
            Record::Cancel { contract, account, lots, order } => (2, contract, account, 0, lots, [order, (0, 0, 0)]),
        };
        let mut bytes = vec![record_type, 0];
        bytes.extend(contract.to_le_bytes());
        bytes.extend([first, second, lots].iter().flat_map(|n| n.to_le_bytes()));
        bytes.extend(orders.iter().flat_map(|&(instruction, purpose, _)| [instruction, purpose]));
        bytes.extend(orders.iter().flat_map(|&(_, _, broker)| broker.to_le_bytes()));
        bytes.truncate(record_length(version));
        bytes
    }
}

pub fn end_record(version: u16, number: u32) -> Vec<u8> {
    let mut bytes = vec![0; record_length(version)];
    bytes[0] = 3;
    bytes[4..8].copy_from_slice(&number.to_le_bytes());
    bytes
}

/// A header of either log; the three numbers are contracts, accounts and what stands in bytes 14..15.
pub fn header(mark: &[u8; 3], rulebook: u8, version: u16, date: u32, numbers: [usize; 3]) -> Vec<u8> {
    let mut bytes = mark.to_vec();
    bytes.push(rulebook);
    bytes.extend(version.to_le_bytes());
    bytes.extend(date.to_le_bytes());
    bytes.extend(numbers.iter().flat_map(|&n| (n as u16).to_le_bytes()));
    bytes
}

impl Account {
    pub fn bytes(&self) -> Vec<u8> {
        let mut bytes = self.number.to_le_bytes().to_vec();
        bytes.extend([self.group, self.kind, 0, 0]);
        bytes
    }
}

impl Day {
    /// The header with the tables.
    pub fn tables(&self) -> Vec<u8> {
        let numbers = [self.contracts.len(), self.accounts.len(), 0];
        let mut bytes = header(b"AXD", self.rulebook, self.version, self.date, numbers);
        for contract in &self.contracts {
            bytes.extend(contract.id.to_le_bytes());
            bytes.extend([contract.contract_type, contract.product]);
            bytes.extend(contract.largest.to_le_bytes());
        }
        bytes.extend(self.accounts.iter().flat_map(Account::bytes));
        bytes
    }

    /// Bytes 3 to 15 of the header.
    pub fn head(&self) -> Vec<u8> {
        self.tables()[3..16].to_vec()
    }

    pub fn taken(&self) -> u32 {
        self.records.iter().map(|(_, times)| times).sum()
    }

    pub fn end(&self) -> Vec<u8> {
        end_record(self.version, self.taken())
    }

    pub fn log(&self) -> Vec<u8> {
        let mut bytes = self.tables();
        for (record, times) in &self.records {
            bytes.extend(record.bytes(self.version).repeat(*times as usize));
        }
        bytes.extend(self.end());
        bytes
    }
}

pub struct Total {
    pub group: usize,
    pub kind: usize,
    pub family: usize,
    pub total: u16,
}

impl Total {
    /// Kind 5 has a book of its own.
    pub fn place(&self) -> usize {
        let ladder = if self.kind == 5 { (self.group - 1) * 16 } else { (self.group - 1) * 48 + (self.kind - 1) * 16 };
        16 + (ladder + self.family) * 2
    }
}

pub fn book_head(rulebook: u8, last_date: u32) -> Vec<u8> {
    head_of(b"AXB", rulebook, last_date)
}

pub fn head_of(mark: &[u8; 3], rulebook: u8, last_date: u32) -> Vec<u8> {
    let mut bytes = mark.to_vec();
    bytes.extend([rulebook, 1, 0]);
    bytes.extend(last_date.to_le_bytes());
    bytes.extend([0; 6]);
    bytes
}

pub fn book(rulebook: u8, last_date: u32, totals: &[Total]) -> Vec<u8> {
    with_totals(book_head(rulebook, last_date), 12_304, totals)
}

pub fn with_totals(head: Vec<u8>, length: usize, totals: &[Total]) -> Vec<u8> {
    let mut bytes = head;
    bytes.resize(length, 0);
    for total in totals {
        bytes[total.place()..total.place() + 2].copy_from_slice(&total.total.to_le_bytes());
    }
    bytes
}

/// A replay script, step by step.
#[derive(Clone, Default)]
pub struct Script(pub Vec<u8>);

impl Script {
    pub fn step(&mut self, letter: u8, numbers: &[u32], bytes: &[u8]) {
        self.0.push(letter);
        self.0.extend(numbers.iter().flat_map(|n| n.to_le_bytes()));
        self.0.extend(bytes);
    }

    pub fn closed(&mut self) {
        self.step(b'N', &[], &[]);
    }

    pub fn opened(&mut self, head: &[u8], taken: u32) {
        self.step(b'S', &[], head);
        self.0.extend(taken.to_le_bytes());
    }

    pub fn counts(&mut self, n: u32, value: u32) {
        self.step(b'C', &[n, value], &[]);
    }

    pub fn count(&mut self, i: u32, value: u32) {
        self.step(b'c', &[i, value], &[]);
    }

    pub fn findings(&mut self, n: u32, byte: u8) {
        self.step(b'F', &[n], &[byte]);
    }

    pub fn book(&mut self, n: u32) {
        self.step(b'B', &[n], &[]);
    }

    pub fn book_bytes(&mut self, at: u32, bytes: &[u8]) {
        self.step(b'b', &[at, bytes.len() as u32], bytes);
    }

    pub fn total(&mut self, total: &Total) {
        self.book_bytes(total.place() as u32, &total.total.to_le_bytes());
    }

    pub fn tables(&mut self, bytes: &[u8]) {
        self.step(b'T', &[bytes.len() as u32], bytes);
    }

    pub fn fresh(&mut self, rulebook: u64) {
        self.step(b'f', &[], &rulebook.to_le_bytes());
    }

    pub fn open(&mut self) {
        self.step(b'o', &[], &[]);
    }

    pub fn take(&mut self, record: &[u8]) {
        self.step(b't', &[record.len() as u32], record);
    }

    pub fn take_often(&mut self, times: u32, record: &[u8]) {
        self.step(b'm', &[times, record.len() as u32], record);
    }

    pub fn end(&mut self, record: &[u8]) {
        self.step(b'e', &[record.len() as u32], record);
    }

    pub fn abandon(&mut self) {
        self.step(b'a', &[], &[]);
    }

    pub fn ask(&mut self, asked: [u64; 3]) {
        self.step(b'q', &[], &asked.map(u64::to_le_bytes).concat());
    }

    /// The exemption test: rulebook, edition, contract type, kind, instruction, purpose.
    pub fn exemption(&mut self, codes: [u8; 6]) {
        self.step(b'x', &[], &codes);
    }

    /// A whole day by calls.
    pub fn day(&mut self, day: &Day) {
        self.tables(&day.tables());
        self.open();
        for (record, times) in &day.records {
            self.take_often(*times, &record.bytes(day.version));
        }
        self.end(&day.end());
    }
}
