//! The program why (document 02, K5): the records that were spared, or the one asked for, with the clauses in words.
use crate::book::DAYS;
use crate::calls::{self, State, CELLS};
use crate::clerk::heading;
use crate::counted::Counted;
use crate::log::{read_tables, Reader, Stop};
use crate::sheet::{CLAUSES, KINDS};
use crate::tables::{record_length, Header, Record};
use std::io::{self, Read, Write};

const USAGE: &str = "usage: why [NUMBER] <day.axd\n";
const NO_SUCH_RECORD: &str = "why: the log has no such record\n";

pub struct Outcome {
    pub text: String,
    /// What goes to standard error.
    pub error: &'static str,
    pub stop: Option<Stop>,
}

/// The number of the record asked for, 0 where all that were spared are; nothing where the words are no good.
fn asked(words: &[&str]) -> Option<u32> {
    match words {
        [] => Some(0),
        [word] if word.len() <= 9 && word.bytes().all(|byte| byte.is_ascii_digit()) => {
            word.parse().ok().filter(|&number| number > 0)
        }
        _ => None,
    }
}

/// The program over a log that is read as it comes, and not at all where the words are no good.
pub fn why(words: &[&str], log: &mut dyn Read) -> io::Result<Outcome> {
    let Some(asked) = asked(words) else {
        return Ok(Outcome { text: String::new(), error: USAGE, stop: None });
    };
    let mut answer = Answer { asked, text: String::new(), records: 0, lines: 0 };
    let stop = answer.read(&mut Reader::new(log))?;
    Ok(answer.close(stop))
}

struct Answer {
    asked: u32,
    text: String,
    records: u32,
    lines: u32,
}

impl Answer {
    /// Up to the end record, which is not judged, or to where the log is refused.
    fn read<R: Read>(&mut self, log: &mut Reader<R>) -> io::Result<Option<Stop>> {
        let tables = read_tables(log)?;
        // what is too short to have a rulebook is refused before the book is looked at
        let book = DAYS.fresh(tables.get(3).copied().unwrap_or(1));
        let (mut state, mut counts) = (State::Closed, vec![0; CELLS]);
        if let Err(refusal) = calls::open(&mut state, &tables, &book, &mut counts) {
            return Ok(Some(Stop::Call("open", refusal)));
        }
        let header = Header::read(&tables);
        self.text = heading("AXD", &header);
        loop {
            let record = match log.record(record_length(header.version))? {
                Ok(record) if record[0] == 3 => return Ok(None),
                Ok(record) => record,
                Err(stop) => return Ok(Some(stop)),
            };
            match calls::take(&mut state, &tables, record, &mut counts) {
                Ok(counted) => self.add(&counted),
                Err(refusal) => return Ok(Some(Stop::Call("take", refusal))),
            }
        }
    }

    fn add(&mut self, counted: &Counted) {
        self.records += 1;
        let is_wanted = if self.asked == 0 { is_spared(counted) } else { self.asked == self.records };
        if is_wanted {
            self.lines += 1;
            self.text += &line(self.records, counted);
        }
    }

    fn close(mut self, stop: Option<Stop>) -> Outcome {
        let mut error = "";
        match stop {
            Some(stop) => self.text += &stop.line(),
            None if self.asked == 0 => self.text += &format!("spared {}\n", self.lines),
            None if self.asked > self.records => error = NO_SUCH_RECORD,
            None => {}
        }
        Outcome { text: self.text, error, stop }
    }
}

/// Whether a clause exempts an order of the record for a kind that the record is of.
fn is_spared(counted: &Counted) -> bool {
    let [self_trade, frequent, large] = counted.clauses;
    let own = if counted.record.is_trade { self_trade } else { [frequent[0], large[0]] };
    own != [0, 0]
}

fn line(number: u32, counted: &Counted) -> String {
    let Record { is_trade, contract, first, second, .. } = counted.record;
    let part = |kind: usize, order| format!("{}: {}", KINDS[kind - 1], in_words(counted, kind, order));
    let parts = if is_trade {
        format!("{}; account {second}, {}", part(1, 0), part(1, 1))
    } else {
        format!("{}; {}", part(2, 0), part(3, 0))
    };
    format!("{number}. contract {contract}, account {first}, {parts}\n")
}

/// How the order stands to the kind. A cancel that no clause exempts counts as kind 2.
fn in_words(counted: &Counted, kind: usize, order: usize) -> &'static str {
    let clauses = counted.clauses[kind - 1];
    if clauses[order] != 0 || counted.is_counted[kind - 1] {
        CLAUSES[clauses[order] as usize]
    } else if kind == 3 {
        "not large"
    } else if clauses[1 - order] != 0 {
        "the other order is exempt"
    } else {
        "two groups"
    }
}

pub fn program(words: &[&str]) -> io::Result<()> {
    let outcome = why(words, &mut io::stdin().lock())?;
    io::stdout().write_all(outcome.text.as_bytes())?;
    io::stderr().write_all(outcome.error.as_bytes())
}
