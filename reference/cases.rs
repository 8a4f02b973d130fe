//! What a case is: a script for replay, a book file and logs for a desk's clerk, one after the other, or words and a
//! log for why.
use crate::build::Script;
use crate::desk::{self, Desk};

/// How the log reaches the clerk.
#[derive(Clone, Copy)]
pub enum Feed {
    File,
    Pipe,
    /// Through a pipe, in drops of so many bytes.
    Drops(usize),
    /// Through a pipe, in pieces of many sizes.
    Uneven,
}

pub enum BookFile {
    Missing,
    /// A folder of that name: it opens and cannot be read.
    Folder,
    Bytes(Vec<u8>),
}

pub enum Input {
    Replay(Vec<u8>),
    Clerk { desk: &'static Desk, book: BookFile, logs: Logs },
    Why { words: Vec<String>, log: Vec<u8>, feed: Feed },
}

/// What a case was made for, by its own making and not by the reference.
pub enum Intent {
    /// The number of each call, or of each log.
    Numbers(Vec<u8>),
    /// What stands after the checksums in each line of replay.
    Ends(Vec<String>),
    /// Each line that why prints.
    Lines(Vec<String>),
}

pub struct Case {
    pub name: String,
    pub input: Input,
    /// Nothing where it is not known.
    pub intent: Option<Intent>,
}

pub fn replay(name: impl Into<String>, script: Script) -> Case {
    Case { name: name.into(), input: Input::Replay(script.0), intent: None }
}

pub fn replay_ending(name: impl Into<String>, script: Script, ends: Vec<String>) -> Case {
    Case { intent: Some(Intent::Ends(ends)), ..replay(name, script) }
}

pub fn replay_expecting(name: impl Into<String>, script: Script, numbers: Vec<u8>) -> Case {
    expecting(replay(name, script), numbers)
}

/// Logs one after the other, and how each comes.
pub type Logs = Vec<(Vec<u8>, Feed)>;

pub fn clerk_at(desk: &'static Desk, name: impl Into<String>, book: BookFile, logs: Logs) -> Case {
    Case { name: name.into(), input: Input::Clerk { desk, book, logs }, intent: None }
}

pub fn clerk(name: impl Into<String>, book: BookFile, logs: Logs) -> Case {
    clerk_at(&desk::DAYS, name, book, logs)
}

pub fn position_clerk(name: impl Into<String>, book: BookFile, logs: Logs) -> Case {
    clerk_at(&desk::POSITIONS, name, book, logs)
}

pub fn expecting(case: Case, numbers: Vec<u8>) -> Case {
    Case { intent: Some(Intent::Numbers(numbers)), ..case }
}

pub fn clerk_expecting(name: impl Into<String>, book: BookFile, logs: Logs, numbers: Vec<u8>) -> Case {
    expecting(clerk(name, book, logs), numbers)
}

pub fn why(name: impl Into<String>, words: &[&str], log: Vec<u8>, feed: Feed) -> Case {
    let words = words.iter().map(|word| word.to_string()).collect();
    Case { name: name.into(), input: Input::Why { words, log, feed }, intent: None }
}

pub fn why_printing(name: impl Into<String>, words: &[&str], log: Vec<u8>, lines: &[&str]) -> Case {
    let lines = lines.iter().map(|line| line.to_string()).collect();
    Case { intent: Some(Intent::Lines(lines)), ..why(name, words, log, Feed::Pipe) }
}
