//! The six calls (document 01, "The calls and their refusals"), on plain data. A refusal changes nothing: each call
//! makes all its tests first, in the document's order, and then writes. Those on a book alone are of either book.
use crate::book::{self, Form, DAYS};
use crate::counted::Counted;
use crate::dates;
use crate::refusal::Refusal;
use crate::rules::{self, FAMILIES, GROUPS, KINDS, PLACES};
use crate::tables::{self, Contract, Header, Tables};

pub const CELLS: usize = GROUPS * KINDS * PLACES;
pub const FINDING: usize = 8;
pub const MOST_RECORDS: u32 = 1_000_000;

#[derive(Clone, Copy)]
pub struct Day {
    pub header: Header,
    pub taken: u32,
}

#[derive(Clone, Copy)]
pub enum State {
    Closed,
    Open(Day),
}

pub fn fresh(form: &Form, rulebook: u64, book: &mut [u8]) -> Result<(), Refusal> {
    if rulebook != 1 && rulebook != 2 {
        return Err(Refusal::Rulebook);
    }
    if book.len() != form.length {
        return Err(Refusal::Book);
    }
    form.make_fresh(book, rulebook as u8);
    Ok(())
}

pub fn open(state: &mut State, tables: &[u8], book: &[u8], counts: &mut [u32]) -> Result<(), Refusal> {
    if let State::Open(_) = state {
        return Err(Refusal::DayState);
    }
    let header = tables::check(tables)?;
    check_book(&DAYS, book, &header)?;
    if counts.len() < CELLS {
        return Err(Refusal::Counts);
    }
    counts[..CELLS].fill(0);
    *state = State::Open(Day { header, taken: 0 });
    Ok(())
}

/// 17, 18, 9: at opening and again at the end, and for a position log.
pub fn check_book(form: &Form, book: &[u8], header: &Header) -> Result<(), Refusal> {
    if !form.is_sound(book) {
        return Err(Refusal::Book);
    }
    if book::rulebook(book) != header.rulebook {
        return Err(Refusal::OtherRulebook);
    }
    if header.date <= book::last_date(book) {
        return Err(Refusal::NotLater);
    }
    Ok(())
}

/// 10, 1, 16, 19 (tables): how take and end begin.
fn check_start<'a>(
    state: &State,
    tables: &'a [u8],
    record: &[u8],
    counts: &[u32],
) -> Result<(Day, Tables<'a>), Refusal> {
    let State::Open(day) = *state else {
        return Err(Refusal::DayState);
    };
    if record.len() != tables::record_length(day.header.version) {
        return Err(Refusal::Length);
    }
    if counts.len() < CELLS {
        return Err(Refusal::Counts);
    }
    match tables::check(tables) {
        Ok(header) if header == day.header => Ok((day, Tables::read(tables, header))),
        _ => Err(Refusal::TablesChanged),
    }
}

pub fn cell(group: usize, kind: usize, place: usize) -> usize {
    ((group - 1) * KINDS + (kind - 1)) * PLACES + place
}

/// What the record counts as, with the clauses that take passes on.
pub fn take(state: &mut State, tables: &[u8], record: &[u8], counts: &mut [u32]) -> Result<Counted, Refusal> {
    let (day, tables) = check_start(state, tables, record, counts)?;
    let counted = Counted::of(&tables, tables::record(record, day.header.rulebook)?)?;
    if day.taken >= MOST_RECORDS {
        return Err(Refusal::Full);
    }
    if counted.cells().any(|cell| counts[cell] > day.taken) {
        return Err(Refusal::CellsChanged);
    }
    for cell in counted.cells() {
        counts[cell] += 1;
    }
    *state = State::Open(Day { taken: day.taken + 1, ..day });
    Ok(counted)
}

pub struct Finding {
    pub group: u8,
    pub kind: u8,
    pub family: u8,
    pub sanction: u8,
    pub total: u16,
    pub contract: u16,
}

impl Finding {
    pub fn bytes(&self) -> [u8; FINDING] {
        let ([t0, t1], [c0, c1]) = (self.total.to_le_bytes(), self.contract.to_le_bytes());
        [self.group, self.kind, self.family, self.sanction, t0, t1, c0, c1]
    }

    pub fn read(bytes: &[u8]) -> Finding {
        let [group, kind, family, sanction] = [bytes[0], bytes[1], bytes[2], bytes[3]];
        Finding { group, kind, family, sanction, total: tables::read16(bytes, 4), contract: tables::read16(bytes, 6) }
    }
}

pub fn end(
    state: &mut State,
    tables: &[u8],
    record: &[u8],
    book: &mut [u8],
    counts: &[u32],
    findings: &mut [u8],
) -> Result<usize, Refusal> {
    let (day, tables) = check_start(state, tables, record, counts)?;
    let number = tables::end_number(record)?;
    if number != day.taken {
        return Err(Refusal::EndNumber);
    }
    check_book(&DAYS, book, &day.header)?;
    if counts[..CELLS].iter().any(|&count| count > day.taken) {
        return Err(Refusal::CellsChanged);
    }
    let found = judge(&tables, counts, book);
    write_findings(&found, findings)?;
    write_book(&DAYS, book, day.header.date, &found);
    *state = State::Closed;
    Ok(found.len())
}

/// From the buffer's start; 20 where they do not fit.
pub fn write_findings(found: &[Finding], buffer: &mut [u8]) -> Result<(), Refusal> {
    if buffer.len() < found.len() * FINDING {
        return Err(Refusal::Findings);
    }
    for (finding, room) in found.iter().zip(buffer.chunks_exact_mut(FINDING)) {
        room.copy_from_slice(&finding.bytes());
    }
    Ok(())
}

fn is_later_year(date: u32, book: &[u8]) -> bool {
    dates::year(date) > dates::year(book::last_date(book))
}

pub fn write_book(form: &Form, book: &mut [u8], date: u32, found: &[Finding]) {
    if is_later_year(date, book) {
        book::clear_totals(book);
    }
    for finding in found {
        let [group, kind, family] = [finding.group, finding.kind, finding.family].map(usize::from);
        form.set_total(book, group, kind, family, finding.total);
    }
    book::set_last_date(book, date);
}

/// The total that an offence of the date brings its ladder to.
pub fn next_total(form: &Form, book: &[u8], date: u32, (group, kind, family): (usize, usize, usize)) -> u16 {
    if is_later_year(date, book) {
        return 1;
    }
    form.total(book, group, kind, family) + 1
}

/// The day's offences, each with the total that it brings its ladder to.
fn judge(tables: &Tables, counts: &[u32], book: &[u8]) -> Vec<Finding> {
    let rulebook = tables.header.rulebook;
    let contracts: Vec<Contract> = tables.contracts().collect();
    let has_member = groups_with_member(tables);
    let mut found = Vec::new();
    for (group, kind) in DAYS.groups_and_kinds() {
        let lowest = lowest_reached(rulebook, &contracts, counts, group, kind);
        for (family, contract) in lowest.iter().enumerate() {
            let Some(contract) = *contract else { continue };
            let total = next_total(&DAYS, book, tables.header.date, (group, kind, family));
            let sanction = rules::sanction(rulebook, has_member[group], rules::rung(total));
            let (group, kind, family) = (group as u8, kind as u8, family as u8);
            found.push(Finding { group, kind, family, sanction, total, contract });
        }
    }
    found
}

fn groups_with_member(tables: &Tables) -> [bool; GROUPS + 1] {
    let mut has_member = [false; GROUPS + 1];
    for account in tables.accounts() {
        has_member[account.group as usize] |= account.is_member;
    }
    has_member
}

/// For each family the lowest contract id that reached the number: contracts rise, so it is the first.
fn lowest_reached(
    rulebook: u8,
    contracts: &[Contract],
    counts: &[u32],
    group: usize,
    kind: usize,
) -> [Option<u16>; FAMILIES] {
    let mut lowest = [None; FAMILIES];
    for contract in contracts {
        if counts[cell(group, kind, contract.place)] >= rules::enough(rulebook, kind) {
            lowest[rules::family(rulebook, contract.contract_type, contract.product)].get_or_insert(contract.id);
        }
    }
    lowest
}

pub fn abandon(state: &mut State) -> Result<(), Refusal> {
    if let State::Closed = state {
        return Err(Refusal::DayState);
    }
    *state = State::Closed;
    Ok(())
}

/// The total and its rung.
pub fn ask(form: &Form, book: &[u8], [group, kind, family]: [u64; 3]) -> Result<(u16, u8), Refusal> {
    if !form.is_sound(book) {
        return Err(Refusal::Book);
    }
    let kinds = form.kinds().start as u64..form.kinds().end as u64;
    if !(1..=128).contains(&group) || !kinds.contains(&kind) || family > 15 {
        return Err(Refusal::Asked);
    }
    let total = form.total(book, group as usize, kind as usize, family as usize);
    Ok((total, rules::rung(total)))
}
