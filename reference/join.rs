//! The join of two groups (demand 3): all accounts of group a are given b's number in every day's table. What it does
//! to the bytes and to the counts, and what must hold between the year as it was and the joined one.
use crate::book::DAYS;
use crate::build::{Day, Order, Record};
use crate::calls::{self, cell, Finding, State, CELLS};
use crate::desk::Desk;
use crate::refusal::Refusal;
use crate::rules::{self, FAMILIES, GROUPS, KINDS, PLACES};
use crate::tables::{read16, ENTRY, HEADER};
use crate::years::Year;

/// A desk's log, or its tables alone, with byte 4 of a's account entries changed and nothing else.
pub fn joined(desk: &Desk, log: &[u8], (a, b): (u8, u8)) -> Vec<u8> {
    let mut bytes = log.to_vec();
    let (contracts, accounts) = (read16(log, 10) as usize, read16(log, 12) as usize);
    let start = HEADER + desk.entry * contracts;
    for entry in bytes[start..start + ENTRY * accounts].chunks_exact_mut(ENTRY) {
        if entry[4] == a {
            entry[4] = b;
        }
    }
    bytes
}

/// The day's counts by the reference's calls, over these tables.
pub fn cells(day: &Day, tables: &[u8]) -> Result<Vec<u32>, Refusal> {
    let (mut state, mut counts, book) = (State::Closed, vec![0; CELLS], DAYS.fresh(day.rulebook));
    calls::open(&mut state, tables, &book, &mut counts)?;
    for (record, times) in &day.records {
        let bytes = record.bytes(day.version);
        for _ in 0..*times {
            calls::take(&mut state, tables, &bytes, &mut counts)?;
        }
    }
    Ok(counts)
}

/// What the join makes of a day's counts: b's and a's added, with the trades between the two among the self-trades.
pub fn joined_cells(year: &Year, day: &Day, mut cells: Vec<u32>) -> Vec<u32> {
    let [between, _] = trades_between(year, day);
    for kind in 1..=KINDS {
        for place in 0..PLACES {
            let (from, to) = (cell(year.a as usize, kind, place), cell(year.b as usize, kind, place));
            cells[to] += std::mem::take(&mut cells[from]);
            cells[to] += if kind == 1 { between[place] } else { 0 };
        }
    }
    cells
}

/// The trades between the two groups by contract: those that are not exempt, and those that are.
pub fn trades_between(year: &Year, day: &Day) -> [[u32; PLACES]; 2] {
    let group_of = |number| day.accounts.iter().find(|account| account.number == number).map(|account| account.group);
    let mut between = [[0; PLACES]; 2];
    for (record, times) in &day.records {
        let Record::Trade { contract, buyer, seller, orders, .. } = record else { continue };
        let groups = [group_of(*buyer), group_of(*seller)];
        let is_between = groups.contains(&Some(year.a)) && groups.contains(&Some(year.b));
        if is_between {
            let place = day.contracts.iter().position(|listed| listed.id == *contract);
            let place = place.expect("the record's contract is in the tables");
            let contract_type = day.contracts[place].contract_type;
            let is_exempt = |order: &Order| rules::clause([day.rulebook, 0, contract_type, 1, order.0, order.1]) != 0;
            between[orders.iter().any(is_exempt) as usize][place] += times;
        }
    }
    between
}

/// A finding with the line that it was read from.
pub struct Line {
    pub text: String,
    pub finding: Finding,
}

impl Line {
    fn is_of(&self, group: u8, (kind, family): Ladder) -> bool {
        let finding = &self.finding;
        (finding.group, finding.kind as usize, finding.family as usize) == (group, kind, family)
    }
}

/// What a desk's program gave for a year: the findings of each day, and the book after the last.
pub struct Given {
    pub desk: &'static Desk,
    pub days: Vec<Vec<Line>>,
    pub book: Vec<u8>,
}

type Ladder = (usize, usize);

impl Given {
    fn ladders(&self) -> impl Iterator<Item = Ladder> {
        self.desk.form.kinds().flat_map(|kind| (0..FAMILIES).map(move |family| (kind, family)))
    }

    pub fn has(&self, day: usize, group: u8, ladder: Ladder) -> bool {
        self.days[day].iter().any(|line| line.is_of(group, ladder))
    }

    fn total(&self, group: u8, (kind, family): Ladder) -> u16 {
        self.desk.form.total(&self.book, group as usize, kind, family)
    }

    /// The year's findings of the group on the ladder with one of the sanctions.
    fn with_sanction(&self, group: u8, ladder: Ladder, sanctions: &[u8]) -> usize {
        let lines = self.days.iter().flatten();
        lines.filter(|line| line.is_of(group, ladder) && sanctions.contains(&line.finding.sanction)).count()
    }

    /// No opening for a while. In a day's ladders a member in the other group can turn a month into three.
    fn restrictions(&self, group: u8, ladder: Ladder) -> usize {
        self.with_sanction(group, ladder, self.desk.restrictions)
    }
}

/// A year as it was and as it is when group a is joined to b.
pub struct Join<'a> {
    pub pair: (u8, u8),
    pub dates: Vec<u32>,
    pub before: &'a Given,
    pub after: &'a Given,
}

impl Join<'_> {
    pub fn check(&self) -> Result<(), String> {
        for (day, &date) in self.dates.iter().enumerate() {
            self.others_are_as_they_were(day).map_err(|what| format!("{date}: {what}"))?;
            self.offences_stay(day).map_err(|what| format!("{date}: {what}"))?;
        }
        self.other_totals_are_as_they_were()?;
        self.before.ladders().try_for_each(|ladder| self.no_fewer(ladder))
    }

    /// The two groups apart, whole lines; and group a has none any more.
    fn others_are_as_they_were(&self, day: usize) -> Result<(), String> {
        let (a, b) = self.pair;
        let mut lines = self.after.days[day].iter();
        if let Some(line) = lines.find(|line| line.finding.group == a) {
            return Err(format!("group {a} still has {:?}", line.text));
        }
        let [before, after] = [self.before, self.after].map(|given| {
            let others = given.days[day].iter().filter(|line| ![a, b].contains(&line.finding.group));
            others.map(|line| &line.text[..]).collect::<Vec<_>>()
        });
        if before != after {
            return Err(format!("other groups had {before:?}, and have {after:?} when {a} is joined to {b}"));
        }
        Ok(())
    }

    fn offences_stay(&self, day: usize) -> Result<(), String> {
        let (a, b) = self.pair;
        for ladder in self.before.ladders() {
            let had = self.before.has(day, a, ladder) || self.before.has(day, b, ladder);
            if had && !self.after.has(day, b, ladder) {
                return Err(format!("{a} or {b} had an offence on {ladder:?}, and joined they have none"));
            }
        }
        Ok(())
    }

    fn other_totals_are_as_they_were(&self) -> Result<(), String> {
        let (a, b) = self.pair;
        for group in (1..=GROUPS as u8).filter(|&group| group != b) {
            for ladder in self.before.ladders() {
                let before = if group == a { 0 } else { self.before.total(group, ladder) };
                let after = self.after.total(group, ladder);
                if after != before {
                    return Err(format!("group {group}'s total on {ladder:?} is {after} and should be {before}"));
                }
            }
        }
        Ok(())
    }

    /// Neither the year's total nor its restrictions are fewer than either group had.
    fn no_fewer(&self, ladder: Ladder) -> Result<(), String> {
        let (a, b) = self.pair;
        let total = self.after.total(b, ladder);
        let restrictions = self.after.restrictions(b, ladder);
        for group in [a, b] {
            let had = self.before.total(group, ladder);
            let had_restrictions = self.before.restrictions(group, ladder);
            if total < had {
                return Err(format!("group {group}'s total on {ladder:?} was {had}, the joined one's is {total}"));
            }
            if restrictions < had_restrictions {
                return Err(format!(
                    "group {group} had {had_restrictions} restrictions on {ladder:?}, joined there are {restrictions}"
                ));
            }
        }
        Ok(())
    }

    pub fn has_restriction(&self) -> bool {
        let (a, b) = self.pair;
        self.before.ladders().any(|ladder| [a, b].iter().any(|&group| self.before.restrictions(group, ladder) > 0))
    }

    /// A ladder of the joined group that started again after its third rung.
    pub fn is_past_third(&self) -> bool {
        self.after.ladders().any(|ladder| self.after.total(self.pair.1, ladder) > 3)
    }

    /// An offence of the two together on a day that was neither's.
    pub fn gained(&self, day: usize) -> bool {
        let (a, b) = self.pair;
        self.after.ladders().any(|ladder| {
            self.after.has(day, b, ladder) && ![a, b].iter().any(|&group| self.before.has(day, group, ladder))
        })
    }

    /// Where counting sanction 3 alone would find fewer than before: a day's line of the ladder and what it becomes.
    pub fn lost_by_sanction_3(&self) -> Option<String> {
        let (a, b) = self.pair;
        let mut all = self.before.ladders().flat_map(|ladder| [a, b].map(|group| (ladder, group)));
        all.find_map(|(ladder, group)| {
            let had = self.before.with_sanction(group, ladder, &[3]);
            let has = self.after.with_sanction(b, ladder, &[3]);
            let (date, line, now) = self.turned_into_5(ladder, group).filter(|_| has < had)?;
            Some(format!("{a} joined to {b}: on {date} {line:?} becomes {now:?}; sanction 3 on it: {had}, then {has}"))
        })
    }

    fn turned_into_5(&self, ladder: Ladder, group: u8) -> Option<(u32, &str, &str)> {
        self.dates.iter().enumerate().find_map(|(day, &date)| {
            let mut before = self.before.days[day].iter();
            let mut after = self.after.days[day].iter();
            let line = before.find(|line| line.is_of(group, ladder) && line.finding.sanction == 3)?;
            let now = after.find(|line| line.is_of(self.pair.1, ladder) && line.finding.sanction == 5)?;
            Some((date, &line.text[..], &now.text[..]))
        })
    }
}
