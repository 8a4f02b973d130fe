//! The replay interpreter: a script of calls, a line after each.
use crate::book::{DAYS, POSITIONS};
use crate::calls::{self, Day, State};
use crate::counted::Clauses;
use crate::positions;
use crate::refusal::Refusal;
use crate::rules;
use crate::tables::Header;
use std::fmt::Write;

const LONGEST_SCRIPT: usize = 1_000_000;
const MOST_COUNTS: u32 = 20_000;
const MOST_FINDINGS: u32 = 70_000;
const LONGEST_BOOK: u32 = 20_000;
const LONGEST_TABLES: u32 = 8_192;
const LONGEST_RECORD: u32 = 64;
const LONGEST_POSITION_BOOK: u32 = 8_000;
const LONGEST_POSITION_LOG: u32 = 300_000;

/// What was called and how it was answered.
pub type Reached = Vec<(&'static str, Option<Refusal>)>;

pub struct Outcome {
    pub text: String,
    pub reached: Reached,
    /// Where in the script the step of each printed line begins.
    pub steps: Vec<usize>,
}

struct Machine {
    state: State,
    book: Vec<u8>,
    counts: Vec<u32>,
    findings: Vec<u8>,
    tables: Vec<u8>,
    position_book: Vec<u8>,
}

/// What is left of the script. None: the step is cut off.
struct Script<'a>(&'a [u8]);

impl<'a> Script<'a> {
    fn bytes(&mut self, n: usize) -> Option<&'a [u8]> {
        let (head, rest) = self.0.split_at_checked(n)?;
        self.0 = rest;
        Some(head)
    }

    fn byte(&mut self) -> Option<u8> {
        Some(self.bytes(1)?[0])
    }

    fn u32(&mut self) -> Option<u32> {
        Some(u32::from_le_bytes(self.bytes(4)?.try_into().unwrap()))
    }

    fn u64(&mut self) -> Option<u64> {
        Some(u64::from_le_bytes(self.bytes(8)?.try_into().unwrap()))
    }

    /// Group, kind and family.
    fn asked(&mut self) -> Option<[u64; 3]> {
        Some([self.u64()?, self.u64()?, self.u64()?])
    }

    fn at_most(&mut self, most: u32) -> Option<usize> {
        let n = self.u32()?;
        (n <= most).then_some(n as usize)
    }

    fn counted(&mut self, most: u32) -> Option<&'a [u8]> {
        let n = self.at_most(most)?;
        self.bytes(n)
    }
}

/// A step's line: nothing for a step that sets something up.
enum Step {
    Quiet,
    Exemption(u8),
    Call { letter: char, call: &'static str, answer: Result<String, Refusal> },
}

pub fn replay(script: &[u8]) -> Outcome {
    let mut outcome = Outcome { text: String::new(), reached: Vec::new(), steps: Vec::new() };
    let mut machine = Machine::new();
    let mut rest = Script(script);
    if script.len() > LONGEST_SCRIPT {
        outcome.text.push_str("bad script\n");
        return outcome;
    }
    while !rest.0.is_empty() {
        let at = script.len() - rest.0.len();
        match machine.step(&mut rest) {
            None => {
                outcome.text.push_str("bad script\n");
                break;
            }
            Some(Step::Quiet) => {}
            Some(Step::Exemption(clause)) => {
                outcome.steps.push(at);
                writeln!(outcome.text, "x {clause}").unwrap();
            }
            Some(Step::Call { letter, call, answer }) => {
                outcome.steps.push(at);
                outcome.reached.push((call, answer.as_ref().err().copied()));
                machine.print(&mut outcome.text, letter, answer);
            }
        }
    }
    outcome
}

impl Machine {
    fn new() -> Machine {
        let [book, findings, tables, position_book] = [const { Vec::new() }; 4];
        Machine { state: State::Closed, book, counts: Vec::new(), findings, tables, position_book }
    }

    fn step(&mut self, script: &mut Script) -> Option<Step> {
        let letter = script.byte()?;
        match letter {
            b'f' | b'o' | b't' | b'm' | b'e' | b'a' | b'q' => self.call(letter as char, script),
            b'g' | b'p' | b'r' => self.position_call(letter as char, script),
            b'x' => Some(Step::Exemption(rules::clause(script.bytes(6)?.try_into().unwrap()))),
            _ => self.set(letter, script).map(|()| Step::Quiet),
        }
    }

    /// The steps that write down what the next calls are handed.
    fn set(&mut self, letter: u8, script: &mut Script) -> Option<()> {
        match letter {
            b'N' => self.state = State::Closed,
            b'S' => {
                let head = [&[0; 3], script.bytes(13)?].concat();
                self.state = State::Open(Day { header: Header::read(&head), taken: script.u32()? });
            }
            b'C' => {
                let n = script.at_most(MOST_COUNTS)?;
                self.counts = vec![script.u32()?; n];
            }
            b'c' => {
                let (i, value) = (script.u32()?, script.u32()?);
                *self.counts.get_mut(i as usize)? = value;
            }
            b'F' => {
                let n = script.at_most(MOST_FINDINGS)?;
                self.findings = vec![script.byte()?; n];
            }
            b'B' => self.book = vec![0; script.at_most(LONGEST_BOOK)?],
            b'b' => put(&mut self.book, script)?,
            b'A' => self.position_book = vec![0; script.at_most(LONGEST_POSITION_BOOK)?],
            b'j' => put(&mut self.position_book, script)?,
            b'T' => self.tables = script.counted(LONGEST_TABLES)?.to_vec(),
            _ => return None,
        }
        Some(())
    }

    fn call(&mut self, letter: char, script: &mut Script) -> Option<Step> {
        let nothing = |()| String::new();
        let (call, answer) = match letter {
            'f' => ("fresh", calls::fresh(&DAYS, script.u64()?, &mut self.book).map(nothing)),
            'o' => {
                let answer = calls::open(&mut self.state, &self.tables, &self.book, &mut self.counts);
                ("open", answer.map(nothing))
            }
            't' => ("take", self.take_often(1, script.counted(LONGEST_RECORD)?).map(shown_clauses)),
            'm' => {
                let times = script.u32()?;
                let record = script.counted(LONGEST_RECORD)?;
                if times == 0 {
                    return None;
                }
                ("take", self.take_often(times, record).map(shown_clauses))
            }
            'e' => ("end", self.end(script.counted(LONGEST_RECORD)?).map(|n| format!(" {n}"))),
            'a' => ("abandon", calls::abandon(&mut self.state).map(nothing)),
            _ => {
                let answer = calls::ask(&DAYS, &self.book, script.asked()?);
                ("ask", answer.map(|(total, rung)| format!(" {total} {rung}")))
            }
        };
        Some(Step::Call { letter, call, answer })
    }

    /// The calls on the position book, which know no other state.
    fn position_call(&mut self, letter: char, script: &mut Script) -> Option<Step> {
        let (call, answer) = match letter {
            'g' => {
                let answer = calls::fresh(&POSITIONS, script.u64()?, &mut self.position_book);
                ("position fresh", answer.map(|()| String::new()))
            }
            'p' => {
                let log = script.counted(LONGEST_POSITION_LOG)?;
                let answer = positions::judge(log, &mut self.position_book, &mut self.findings);
                ("judge", answer.map(|n| format!(" {n}")))
            }
            _ => {
                let answer = calls::ask(&POSITIONS, &self.position_book, script.asked()?);
                ("position ask", answer.map(|(total, rung)| format!(" {total} {rung}")))
            }
        };
        Some(Step::Call { letter, call, answer })
    }

    /// At least once. The clauses are those of the last call.
    fn take_often(&mut self, times: u32, record: &[u8]) -> Result<Clauses, Refusal> {
        for _ in 1..times {
            self.take(record)?;
        }
        self.take(record)
    }

    fn take(&mut self, record: &[u8]) -> Result<Clauses, Refusal> {
        calls::take(&mut self.state, &self.tables, record, &mut self.counts).map(|counted| counted.clauses)
    }

    fn end(&mut self, record: &[u8]) -> Result<usize, Refusal> {
        calls::end(&mut self.state, &self.tables, record, &mut self.book, &self.counts, &mut self.findings)
    }

    fn print(&self, text: &mut String, letter: char, answer: Result<String, Refusal>) {
        let (number, more) = match answer {
            Ok(more) => (0, more),
            Err(refusal) => (refusal.number(), String::new()),
        };
        writeln!(text, "{letter} {number} {}{more}", self.shown_to(letter)).unwrap();
    }

    /// What stands in a call's line of all that there is.
    fn shown_to(&self, letter: char) -> String {
        let [book, findings, position_book] =
            [&self.book, &self.findings, &self.position_book].map(|bytes| checksum(bytes.iter().copied()));
        match letter {
            'g' | 'r' => format!("{position_book}"),
            'p' => format!("{position_book} {findings}"),
            _ => format!("{} {book} {} {findings}", shown(&self.state), counts_checksum(&self.counts)),
        }
    }
}

/// Bytes into a book, none of them past its end.
fn put(book: &mut [u8], script: &mut Script) -> Option<()> {
    let (at, n) = (script.u32()? as usize, script.u32()? as usize);
    book.get_mut(at..at + n)?.copy_from_slice(script.bytes(n)?);
    Some(())
}

fn shown(state: &State) -> String {
    let State::Open(Day { header, taken }) = state else {
        return "closed".to_string();
    };
    let Header { rulebook, version, date, contracts, accounts, filler } = header;
    format!("open {rulebook} {version} {date} {contracts} {accounts} {filler} {taken}")
}

fn shown_clauses(clauses: Clauses) -> String {
    clauses.as_flattened().iter().map(|clause| format!(" {clause}")).collect()
}

/// What a line has after its checksums: the clauses, the number of findings, or total and rung. Not of positions.
pub fn after_checksums(line: &str) -> String {
    let before = if line.contains(" open ") { 13 } else { 6 };
    line.split(' ').skip(before).collect::<Vec<_>>().join(" ")
}

pub fn counts_checksum(counts: &[u32]) -> u64 {
    checksum(counts.iter().flat_map(|count| count.to_le_bytes()))
}

fn checksum(bytes: impl Iterator<Item = u8>) -> u64 {
    bytes.fold(0, |sum, byte| (sum * 257 + byte as u64 + 1) % 4_294_967_291)
}
