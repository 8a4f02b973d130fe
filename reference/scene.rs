//! One call with all that it is handed, written out by hand in a script. Faults are put into scenes.
use crate::book_scene::BookScene;
use crate::build::{self, Account, Contract, Day, Record, Script, Total};
use crate::days::{any_date, some_broker, some_version};
use crate::random::Random;

#[derive(Clone)]
pub struct Scene {
    /// The open day's header from byte 3, and its records taken; none where no day is open.
    pub day: Option<(Vec<u8>, u32)>,
    pub tables: Vec<u8>,
    pub book: BookScene,
    pub counts: (u32, u32),
    pub cells: Vec<(u32, u32)>,
    pub findings: (u32, u8),
    /// The version that the record is written in.
    pub version: u16,
    pub record: Vec<u8>,
    pub fresh: u64,
    pub asked: [u64; 3],
}

pub type Change = Box<dyn Fn(&mut Scene)>;

impl Scene {
    /// Sets everything, so that scenes in one script do not hang on each other.
    pub fn set(&self, script: &mut Script) {
        match &self.day {
            None => script.closed(),
            Some((head, taken)) => script.opened(head, *taken),
        }
        script.tables(&self.tables);
        script.book(self.book.length);
        self.book.pieces().iter().for_each(|(at, piece)| script.book_bytes(*at, piece));
        script.counts(self.counts.0, self.counts.1);
        for &(i, value) in self.cells.iter().filter(|&&(i, _)| i < self.counts.0) {
            script.count(i, value);
        }
        script.findings(self.findings.0, self.findings.1);
    }

    pub fn call(&self, call: &str, script: &mut Script) {
        self.set(script);
        match call {
            "fresh" => script.fresh(self.fresh),
            "open" => script.open(),
            "take" => script.take(&self.record),
            "end" => script.end(&self.record),
            "abandon" => script.abandon(),
            _ => script.ask(self.asked),
        }
    }

    pub fn rulebook(&self) -> u8 {
        self.tables.get(3).copied().unwrap_or(1)
    }

    pub fn contract_at(&self, i: usize) -> usize {
        16 + 8 * i
    }

    /// After a scene's three contracts.
    pub fn account_at(&self, i: usize) -> usize {
        16 + 8 * (3 + i)
    }

    /// Bytes into the tables; nothing where another fault has cut that place off.
    pub fn put(&mut self, at: usize, bytes: &[u8]) {
        if let Some(room) = self.tables.get_mut(at..at + bytes.len()) {
            room.copy_from_slice(bytes);
        }
    }

    pub fn set_record(&mut self, at: usize, bytes: &[u8]) {
        if let Some(room) = self.record.get_mut(at..at + bytes.len()) {
            room.copy_from_slice(bytes);
        }
    }

    pub fn set_taken(&mut self, taken: u32) {
        self.day.iter_mut().for_each(|day| day.1 = taken);
    }

    pub fn taken(&self) -> u32 {
        self.day.as_ref().map_or(0, |day| day.1)
    }

    /// The open day's header is changed, and the record has the length that goes with it.
    pub fn change_day(&mut self, change: impl Fn(&mut [u8])) {
        if let Some((head, _)) = &mut self.day {
            change(head);
            self.record.resize(build::record_length(u16::from_le_bytes([head[1], head[2]])), 0);
        }
    }

    /// The open day's header follows the tables: then only the tables' own checks can tell.
    pub fn follow_tables(&mut self) {
        let head = self.tables[3..16].to_vec();
        self.change_day(|day| day.copy_from_slice(&head));
    }

    /// The record becomes a trade with both orders alike, whatever another fault made of it.
    pub fn make_trade(&mut self) {
        self.record[0] = 1;
        self.record.copy_within(16..18, 18);
        if let Some(brokers) = self.record.get_mut(20..24) {
            brokers.copy_within(..2, 2);
        }
    }

    /// The record becomes a cancel of the same contract, account and lots.
    pub fn make_cancel(&mut self) {
        self.record[0] = 2;
        self.record[8..12].fill(0);
        self.record[18..20].fill(0);
        self.set_record(22, &[0; 2]);
    }
}

/// Three contracts, four accounts: the first two in group 3, one in 128, one in 1. The scene's cell for a self-trade
/// of group 3 on the second contract stands at 5, and seven records are taken.
fn plain_day(random: &mut Random, rulebook: u8, version: u16) -> Day {
    let date = any_date(random).min(20991230);
    let option = if rulebook == 1 { 2 } else { 1 };
    let contract = |id, contract_type, product| Contract { id, contract_type, product, largest: 1_000 };
    let account = |number, group, kind| Account { number, group, kind };
    let member = random.within(1, 2) as u8;
    Day {
        rulebook,
        version,
        date,
        contracts: vec![contract(101, 1, 0), contract(102, 1, 1), contract(65_000, option, 15)],
        accounts: vec![account(11, 3, 1), account(12, 3, member), account(300, 128, 1), account(70_000, 1, 2)],
        records: Vec::new(),
    }
}

/// The cell of group 3, kind k on the second contract.
pub fn scene_cell(kind: u32) -> u32 {
    2 * 96 + (kind - 1) * 32 + 1
}

/// A scene in which each call but open and fresh is accepted; `for_call` names the one it is for.
pub fn scene(random: &mut Random, for_call: &str) -> Scene {
    let (rulebook, version) = (random.within(1, 2) as u8, some_version(random));
    scene_of(random, for_call, rulebook, version)
}

pub fn scene_of(random: &mut Random, for_call: &str, rulebook: u8, version: u16) -> Scene {
    let day = plain_day(random, rulebook, version);
    let taken = random.within(7, 400) as u32;
    let plain = if rulebook == 1 { 1 } else { 5 };
    let orders = [(); 2].map(|()| (plain, 1, some_broker(random)));
    let trade = Record::Trade { contract: 102, buyer: 11, seller: 12, lots: 900, orders };
    let last_date = if day.date > 20240105 { 20240105 } else { 0 };
    let mut totals = Vec::new();
    if last_date != 0 {
        let total = Total { group: 3, kind: 1, family: 0, total: random.within(1, 5) as u16 };
        totals.push((total.place() as u32, total.total));
    }
    let is_open = for_call != "open" && for_call != "fresh";
    let record = if for_call == "end" { build::end_record(version, taken) } else { trade.bytes(version) };
    Scene {
        day: is_open.then(|| (day.head(), taken)),
        tables: day.tables(),
        book: BookScene { length: 12_304, head: build::book_head(rulebook, last_date), totals },
        counts: (12_288, random.pick(&[0, 1, 4])),
        cells: vec![(scene_cell(1), 5)],
        findings: (random.pick(&[8, 9, 80]), random.next() as u8),
        version,
        record,
        fresh: rulebook as u64,
        asked: [3, 1, 0],
    }
}

/// Scenes in one script, each with a change of its own.
pub fn changed_scenes<'a>(
    random: &mut Random,
    call: &str,
    (rulebook, version): (u8, u16),
    changes: impl IntoIterator<Item = &'a Change>,
) -> Script {
    let mut script = Script::default();
    for change in changes {
        let mut scene = scene_of(random, call, rulebook, version);
        change(&mut scene);
        scene.call(call, &mut script);
    }
    script
}
