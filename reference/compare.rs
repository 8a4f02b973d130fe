//! Runs cases on the reference and on the programs, and compares.
use crate::cases::{BookFile, Case, Feed, Input, Intent};
use crate::desk::Desk;
use crate::log::Stop;
use crate::newbook::holds;
use crate::parallel::in_parallel;
use crate::replay;
use crate::run::{command, run, Programs};
use crate::tally::Tally;
use crate::why;
use std::fs;
use std::io;
use std::path::{Path, PathBuf};
use std::sync::Mutex;

pub struct Difference {
    pub case: usize,
    pub name: String,
    pub what: String,
}

pub struct Bench<'a> {
    pub programs: &'a Programs,
    /// Scratch folders and differing cases go here.
    pub folder: &'a Path,
    pub label: &'a str,
}

/// All cases, several at a time.
pub fn compare_all(bench: &Bench, cases: &[Case]) -> (Tally, Vec<Difference>) {
    let shared = Mutex::new((Tally::default(), Vec::new()));
    in_parallel(bench.folder, cases.len(), |i, scratch| {
        let mut tally = Tally::default();
        let result = compare(bench.programs, scratch, &cases[i], &mut tally);
        let mut shared = shared.lock().unwrap();
        shared.0.add(&tally);
        if let Err(what) = result {
            keep(bench, i, &cases[i], &what);
            shared.1.push(Difference { case: i, name: cases[i].name.clone(), what });
        }
    });
    let (tally, mut differences) = shared.into_inner().unwrap();
    differences.sort_by_key(|difference| difference.case);
    (tally, differences)
}

/// A differing case's input, so that it can be run by hand.
fn keep(bench: &Bench, i: usize, case: &Case, what: &str) {
    let folder = bench.folder.join(format!("differs-{}-{i}", bench.label));
    let written = fs::create_dir_all(&folder).and_then(|()| {
        fs::write(folder.join("what"), format!("{}\n{what}\n", case.name))?;
        match &case.input {
            Input::Replay(script) => fs::write(folder.join("script"), script),
            Input::Clerk { desk, book, logs } => {
                set_book(&folder.join(desk.file), book)?;
                let write = |(k, (log, _)): (usize, &(Vec<u8>, Feed))| fs::write(folder.join(format!("log-{k}")), log);
                logs.iter().enumerate().try_for_each(write)
            }
            Input::Why { words, log, .. } => {
                fs::write(folder.join("words"), words.join(" "))?;
                fs::write(folder.join("log"), log)
            }
        }
    });
    if let Err(error) = written {
        eprintln!("a differing case could not be kept: {error}");
    }
}

fn set_book(path: &Path, book: &BookFile) -> io::Result<()> {
    match book {
        BookFile::Missing => Ok(()),
        BookFile::Folder => fs::create_dir(path),
        BookFile::Bytes(bytes) => fs::write(path, bytes),
    }
}

fn compare(programs: &Programs, scratch: &Path, case: &Case, tally: &mut Tally) -> Result<(), String> {
    match &case.input {
        Input::Replay(script) => compare_replay(programs, scratch, case, script, tally),
        Input::Clerk { desk, book, logs } => {
            let _ = fs::remove_dir_all(scratch);
            let set = fs::create_dir_all(scratch).and_then(|()| set_book(&scratch.join(desk.file), book));
            set.map_err(|e| e.to_string())?;
            let start = match book {
                BookFile::Bytes(bytes) => Some(bytes.clone()),
                _ => None,
            };
            let at = At { programs, desk, scratch };
            at.compare_logs(start, logs, tally).and_then(|numbers| meets_intent(case, numbers, ""))
        }
        Input::Why { words, log, feed } => compare_why(programs, scratch, case, (words, log, *feed), tally),
    }
}

fn compare_replay(
    programs: &Programs,
    scratch: &Path,
    case: &Case,
    script: &[u8],
    tally: &mut Tally,
) -> Result<(), String> {
    let expected = replay::replay(script);
    expected.reached.iter().for_each(|&(call, refusal)| tally.reached(call, refusal));
    expected.text.lines().for_each(|line| tally.clauses(line));
    tally.close_case();
    let second_word = |line: &str| line.split(' ').nth(1).unwrap_or("").to_string();
    meets_intent(case, expected.text.lines().map(second_word).collect(), &expected.text)?;
    fs::create_dir_all(scratch).map_err(|e| e.to_string())?;
    let words = programs.words("replay");
    let output = run(command(&words, scratch), scratch, script, Feed::Pipe).map_err(|e| e.to_string())?;
    if output.stdout == expected.text.as_bytes() && output.status.success() {
        return Ok(());
    }
    Err(first_difference(&expected, &output.stdout) + &format!("; {}", output.status))
}

/// The reference itself against what the case was made for.
fn meets_intent(case: &Case, numbers: Vec<String>, text: &str) -> Result<(), String> {
    let (given, wanted) = match &case.intent {
        None => return Ok(()),
        Some(Intent::Numbers(wanted)) => (numbers, &wanted.iter().map(u8::to_string).collect()),
        Some(Intent::Ends(wanted)) => (text.lines().map(replay::after_checksums).collect(), wanted),
        Some(Intent::Lines(wanted)) => (text.lines().map(String::from).collect(), wanted),
    };
    if given == *wanted {
        return Ok(());
    }
    Err(format!("the reference gives {given:?} where the case was made for {wanted:?}"))
}

/// Both streams are the reference's, and nothing is left in the folder.
fn compare_why(
    programs: &Programs,
    scratch: &Path,
    case: &Case,
    (words, mut log, feed): (&[String], &[u8], Feed),
    tally: &mut Tally,
) -> Result<(), String> {
    let mut program = command(&programs.words("why"), scratch);
    program.args(words);
    let words: Vec<&str> = words.iter().map(String::as_str).collect();
    let whole = log;
    let expected = why::why(&words, &mut log).map_err(|e| e.to_string())?;
    if expected.error.is_empty() {
        count_stop(tally, "why", expected.stop, whole);
        tally.close_case();
    }
    meets_intent(case, vec![number_of(expected.stop)], &expected.text)?;
    let _ = fs::remove_dir_all(scratch);
    fs::create_dir_all(scratch).map_err(|e| e.to_string())?;
    let output = run(program, scratch, whole, feed).map_err(|e| e.to_string())?;
    let is_good = output.status.success() || !expected.error.is_empty();
    let is_same = output.stdout == expected.text.as_bytes() && output.stderr == expected.error.as_bytes();
    if is_good && is_same {
        return holds(scratch, &[]);
    }
    let [given, error] = [output.stdout, output.stderr].map(|bytes| String::from_utf8_lossy(&bytes).into_owned());
    let first = expected.text.lines().zip(given.lines()).find(|(wanted, line)| wanted != line);
    let given = shortened(&given);
    Err(format!("{}, reference and program {first:?}, printed {given:?}, error {error:?}", output.status))
}

/// 0 where nothing was refused.
fn number_of(stop: Option<Stop>) -> String {
    stop.map_or(0, Stop::number).to_string()
}

/// How a program ended with a log. A position log has one version.
fn count_stop(tally: &mut Tally, program: &str, stop: Option<Stop>, log: &[u8]) {
    let (call, number, note) = match stop {
        None if log.starts_with(b"AXP") => ("accepted", 0, ""),
        None => ("accepted", 0, if log[4] == 1 { " (version 1)" } else { " (version 2)" }),
        Some(Stop::Call(call, refusal)) => (call, refusal.number(), refusal.note()),
        Some(Stop::CutRecord) => ("log", 1, " (cut-off record)"),
        Some(Stop::NoEnd) => ("log", 1, " (no end record)"),
        Some(Stop::AfterEnd) => ("log", 1, " (bytes after the end)"),
    };
    tally.program(program, call, number, note);
}

fn first_difference(expected: &replay::Outcome, given: &[u8]) -> String {
    let given = String::from_utf8_lossy(given);
    let mut lines = expected.text.lines();
    let mut others = given.lines();
    for i in 0.. {
        let (a, b) = (lines.next(), others.next());
        if a != b {
            let step = expected.steps.get(i).map_or("the end".to_string(), |at| format!("byte {at}"));
            return format!("line {} (step at {step}): reference {a:?}, program {b:?}", i + 1);
        }
        if a.is_none() {
            break;
        }
    }
    "the same lines, other bytes or another exit status".to_string()
}

/// A desk's program in a folder with its book.
pub struct At<'a> {
    pub programs: &'a Programs,
    pub desk: &'static Desk,
    pub scratch: &'a Path,
}

impl At<'_> {
    /// The reference's number for each log.
    fn compare_logs(
        &self,
        mut book: Option<Vec<u8>>,
        logs: &[(Vec<u8>, Feed)],
        tally: &mut Tally,
    ) -> Result<Vec<String>, String> {
        let mut numbers = Vec::new();
        for (k, (log, feed)) in logs.iter().enumerate() {
            let expected = self.desk.on(book.as_deref(), log);
            numbers.push(number_of(expected.stop));
            count_stop(tally, self.desk.name, expected.stop, log);
            book = expected.book.or(book);
            let result = self
                .compare_log(&expected.text, log, *feed)
                .and_then(|()| same_file(&self.book(), book.as_deref()))
                .and_then(|()| nothing_else(self.scratch, self.desk));
            result.map_err(|what| format!("log {k}: {what}"))?;
        }
        tally.close_case();
        Ok(numbers)
    }

    pub fn book(&self) -> PathBuf {
        self.scratch.join(self.desk.file)
    }

    fn compare_log(&self, text: &str, log: &[u8], feed: Feed) -> Result<(), String> {
        let given = self.run(log, feed)?;
        if given == text {
            return Ok(());
        }
        Err(format!("reference {:?}, program {:?}", shortened(text), shortened(&given)))
    }

    /// What the program prints of a log over the book in the folder, where it does not fail. A book that is there and
    /// cannot be read, as a folder of that name, is no failure, and then standard error says why.
    pub fn run(&self, log: &[u8], feed: Feed) -> Result<String, String> {
        let words = self.programs.words(self.desk.name);
        let output = run(command(&words, self.scratch), self.scratch, log, feed).map_err(|e| e.to_string())?;
        let given = String::from_utf8_lossy(&output.stdout).into_owned();
        let is_unreadable = self.book().is_dir();
        if !output.status.success() || output.stderr.is_empty() == is_unreadable {
            let error = String::from_utf8_lossy(&output.stderr).into_owned();
            return Err(format!("{}, printed {:?}, standard error {error:?}", output.status, shortened(&given)));
        }
        Ok(given)
    }
}

/// Nothing is left beside the desk's book.
pub fn nothing_else(scratch: &Path, desk: &Desk) -> Result<(), String> {
    for entry in fs::read_dir(scratch).map_err(|e| e.to_string())? {
        let name = entry.map_err(|e| e.to_string())?.file_name();
        if name != desk.file {
            return Err(format!("{name:?} is left"));
        }
    }
    Ok(())
}

pub fn shortened(text: &str) -> String {
    text.chars().take(300).collect()
}

/// The file holds these bytes; or, where there are none, it is still no file that can be read.
pub fn same_file(path: &Path, bytes: Option<&[u8]>) -> Result<(), String> {
    match (fs::read(path).ok(), bytes) {
        (Some(found), Some(wanted)) if found == wanted => Ok(()),
        (None, None) => Ok(()),
        (Some(found), Some(wanted)) => {
            let at = found.iter().zip(wanted).position(|(a, b)| a != b);
            Err(format!("the book differs: {} bytes for {}, first at {at:?}", found.len(), wanted.len()))
        }
        (found, _) => Err(format!("the book file is there: {}", found.is_some())),
    }
}
