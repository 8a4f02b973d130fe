//! The refusals of document 01. Two of its numbers stand at two places in an order: each place has a case of its
//! own here, so that a run can show that both were reached. So has the 11 of brokers (document 02, K2), and each part
//! of a position log, which is 22 for any fault in it (K4).

#[derive(Clone, Copy, PartialEq, Eq, PartialOrd, Ord, Debug)]
pub enum Refusal {
    Short,
    Mark,
    Version,
    Rulebook,
    Date,
    Header,
    Length,
    Contract,
    Account,
    NotLater,
    DayState,
    Record,
    Brokers,
    NoContract,
    NoAccount,
    Full,
    EndNumber,
    Counts,
    Book,
    OtherRulebook,
    TablesChanged,
    CellsChanged,
    Findings,
    Asked,
    Positions(Part),
}

/// Where a position log's fault is.
#[derive(Clone, Copy, PartialEq, Eq, PartialOrd, Ord, Debug)]
pub enum Part {
    Header,
    Length,
    Contract,
    Account,
    Record,
    Unknown,
}

use Refusal::*;

impl Refusal {
    pub fn number(self) -> u8 {
        match self {
            Short | Length => 1,
            Mark => 2,
            Version => 3,
            Rulebook => 4,
            Date => 5,
            Header => 6,
            Contract => 7,
            Account => 8,
            NotLater => 9,
            DayState => 10,
            Record | Brokers => 11,
            NoContract => 12,
            NoAccount => 13,
            Full => 14,
            EndNumber => 15,
            Counts => 16,
            Book => 17,
            OtherRulebook => 18,
            TablesChanged | CellsChanged => 19,
            Findings => 20,
            Asked => 21,
            Positions(_) => 22,
        }
    }

    pub fn note(self) -> &'static str {
        match self {
            Short => " (under 16)",
            Brokers => " (brokers)",
            TablesChanged => " (tables)",
            CellsChanged => " (cells)",
            Positions(Part::Header) => " (header)",
            Positions(Part::Length) => " (length)",
            Positions(Part::Contract) => " (contract)",
            Positions(Part::Account) => " (account)",
            Positions(Part::Record) => " (record)",
            Positions(Part::Unknown) => " (unknown number)",
            _ => "",
        }
    }
}

const OPEN: [Refusal; 14] = [
    DayState,
    Short,
    Mark,
    Version,
    Rulebook,
    Date,
    Header,
    Length,
    Contract,
    Account,
    Book,
    OtherRulebook,
    NotLater,
    Counts,
];

const TAKE: [Refusal; 10] =
    [DayState, Length, Counts, TablesChanged, Record, Brokers, NoContract, NoAccount, Full, CellsChanged];

const END: [Refusal; 12] = [
    DayState,
    Length,
    Counts,
    TablesChanged,
    Record,
    Brokers,
    EndNumber,
    Book,
    OtherRulebook,
    NotLater,
    CellsChanged,
    Findings,
];

/// Those of a position log could stand in any order, as they have one number.
const JUDGE: [Refusal; 10] = [
    Positions(Part::Header),
    Positions(Part::Length),
    Positions(Part::Contract),
    Positions(Part::Account),
    Positions(Part::Record),
    Positions(Part::Unknown),
    Book,
    OtherRulebook,
    NotLater,
    Findings,
];

/// A call's order of refusals, as document 01 writes it. The two of number 11 could stand either way round.
pub fn order(call: &str) -> &'static [Refusal] {
    match call {
        "fresh" | "position fresh" => &[Rulebook, Book],
        "open" => &OPEN,
        "take" => &TAKE,
        "end" => &END,
        "abandon" => &[DayState],
        "ask" | "position ask" => &[Book, Asked],
        "judge" => &JUDGE,
        _ => panic!("no call {call}"),
    }
}
