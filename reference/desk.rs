//! The two desks that a clerk works at, each with its program, its book and its logs. What is tried at one is tried at
//! the other.
use crate::book::{self, Form};
use crate::clerk::{self, Outcome};
use crate::clerk_edges;
use crate::position_examples;
use std::io::{self, Read};

pub struct Desk {
    /// The program's.
    pub name: &'static str,
    /// The book's, in the working folder.
    pub file: &'static str,
    pub form: &'static Form,
    /// The word that newbook wants after the rulebook's number.
    pub asked: Option<&'static str>,
    /// A log's mark, and the first word of what is printed.
    pub mark: &'static str,
    /// The length of a contract's entry in a log.
    pub entry: usize,
    /// The sanctions with which a group may not open positions.
    pub restrictions: &'static [u8],
    pub judge: fn(Option<&[u8]>, &mut dyn Read) -> io::Result<Outcome>,
    /// A book that takes the two logs: with a finding, and so long that no pipe holds half of it.
    pub example_book: fn() -> Vec<u8>,
    pub example_log: fn(u32) -> Vec<u8>,
    pub long_log: fn() -> Vec<u8>,
}

pub static DAYS: Desk = Desk {
    name: "clerk",
    file: "book.axb",
    form: &book::DAYS,
    asked: None,
    mark: "AXD",
    entry: 8,
    restrictions: &[3, 5],
    judge: clerk::clerk,
    example_book: clerk_edges::example_book,
    example_log: clerk_edges::example_log,
    long_log: clerk_edges::long_log,
};

pub static POSITIONS: Desk = Desk {
    name: "position_clerk",
    file: "positions.axq",
    form: &book::POSITIONS,
    asked: Some("positions"),
    mark: "AXP",
    entry: 16,
    restrictions: &[7, 8],
    judge: clerk::position_clerk,
    example_book: position_examples::example_book,
    example_log: position_examples::example_log,
    long_log: position_examples::long_log,
};

impl Desk {
    /// The program's answer by the reference.
    pub fn on(&self, book: Option<&[u8]>, mut log: &[u8]) -> Outcome {
        (self.judge)(book, &mut log).expect("a slice can be read")
    }

    /// The words for newbook.
    pub fn newbook_words(&self, rulebook: u8) -> Vec<String> {
        let more = self.asked.map(String::from);
        std::iter::once(rulebook.to_string()).chain(more).collect()
    }

    /// A line that the program says on standard error begins so.
    pub fn says(&self, words: &str) -> String {
        format!("{}: {words}", self.name)
    }

    /// The same about its book.
    pub fn says_of_book(&self, words: &str) -> String {
        self.says(&format!("{} {words}", self.file))
    }
}
