//! What a record counts as by a day's tables, and which clauses spare its orders (document 01, "What counts"; document
//! 02, K5).
use crate::calls::cell;
use crate::refusal::Refusal;
use crate::rules::{self, KINDS};
use crate::tables::{Record, Tables};

/// By kind: the clause of the first order and that of the second.
pub type Clauses = [[u8; 2]; KINDS];

pub struct Counted {
    pub record: Record,
    pub clauses: Clauses,
    /// By kind, whether the record counts as it.
    pub is_counted: [bool; KINDS],
    group: usize,
    place: usize,
}

impl Counted {
    /// 12 and 13 where the tables do not have what the record names.
    pub fn of(tables: &Tables, record: Record) -> Result<Counted, Refusal> {
        let rulebook = tables.header.rulebook;
        let contract = tables.contract(record.contract).ok_or(Refusal::NoContract)?;
        let first = tables.account(record.first).ok_or(Refusal::NoAccount)?;
        let clauses = clauses(rulebook, contract.contract_type, &record);
        let [self_trade, frequent, large] = clauses;
        let is_counted = if record.is_trade {
            let second = tables.account(record.second).ok_or(Refusal::NoAccount)?;
            [first.group == second.group && self_trade == [0, 0], false, false]
        } else {
            let is_large = rules::is_large(rulebook, record.lots, contract.largest);
            [false, frequent[0] == 0, is_large && large[0] == 0]
        };
        Ok(Counted { record, clauses, is_counted, group: first.group as usize, place: contract.place })
    }

    /// The cells that the record counts in: at most two, for a cancel of kinds 2 and 3.
    pub fn cells(&self) -> impl Iterator<Item = usize> + '_ {
        (1..=KINDS).filter(|kind| self.is_counted[kind - 1]).map(|kind| cell(self.group, kind, self.place))
    }
}

/// A cancel has no second order, which no clause exempts.
fn clauses(rulebook: u8, contract_type: u8, record: &Record) -> Clauses {
    [1, 2, 3].map(|kind| {
        let clause = |(instruction, purpose)| rules::clause([rulebook, 0, contract_type, kind, instruction, purpose]);
        let [first, second] = record.orders;
        [clause(first), if record.is_trade { clause(second) } else { 0 }]
    })
}
