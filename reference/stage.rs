//! Where the programs are tried: an example in a folder of its own, and what must hold there afterwards.
use crate::compare::{nothing_else, same_file, shortened};
use crate::desk::Desk;
use crate::run::{command, Programs};
use std::fs;
use std::io;
use std::os::unix::fs::PermissionsExt;
use std::path::{Path, PathBuf};
use std::process::{Command, Output};

pub struct Stage<'a> {
    pub root: &'a Path,
    pub programs: &'a Programs,
    /// Scratch folders go here.
    pub folder: &'a Path,
    /// Whose clerk is tried.
    pub desk: &'static Desk,
}

impl Stage<'_> {
    /// The clerk as a clerk starts it.
    pub fn clerk(&self, folder: &Path) -> Command {
        command(&self.programs.through_run(self.desk.name), folder)
    }

    /// The program alone.
    pub fn raw_clerk(&self, folder: &Path) -> Command {
        command(&self.programs.words(self.desk.name), folder)
    }

    /// A day that the desk's book takes.
    pub fn example(&self) -> Example {
        Example::of(self.desk, &(self.desk.example_book)(), (self.desk.example_log)(20240305))
    }

    /// The same with many records: who could write half of them knows that the clerk reads, and so that it has read its
    /// book.
    pub fn long_example(&self) -> Example {
        Example::of(self.desk, &(self.desk.example_book)(), (self.desk.long_log)())
    }

    /// Says so where a pipe holds half of the long example: a position log cannot be longer.
    pub fn pipes_are_long(&self) -> Option<String> {
        let asked = Command::new("getconf").arg("PAGESIZE").output();
        let page = asked.ok().and_then(|output| String::from_utf8_lossy(&output.stdout).trim().parse::<usize>().ok());
        let holds = 16 * page.unwrap_or(1 << 16);
        let half = (self.desk.long_log)().len() / 2;
        (half <= holds).then(|| format!("a pipe can hold {holds} bytes, half of the longest log has {half}"))
    }
}

/// A book and a log, what the clerk prints of them, and the book afterwards.
pub struct Example {
    desk: &'static Desk,
    pub book: Vec<u8>,
    pub log: Vec<u8>,
    pub text: String,
    pub after: Vec<u8>,
}

impl Example {
    /// A day that the book takes.
    pub fn of(desk: &'static Desk, book: &[u8], log: Vec<u8>) -> Example {
        let outcome = desk.on(Some(book), &log);
        let after = outcome.book.expect("the day is not refused");
        Example { desk, book: book.to_vec(), log, text: outcome.text, after }
    }

    pub fn halves(&self) -> (&[u8], &[u8]) {
        self.log.split_at(self.log.len() / 2)
    }

    /// A folder with the book in it.
    pub fn folder(&self, parent: &Path, name: &str) -> Result<PathBuf, String> {
        let folder = empty_folder(parent, name)?;
        fs::write(folder.join(self.desk.file), &self.book).map_err(text)?;
        Ok(folder)
    }

    /// The book is as it was, and alone.
    pub fn is_kept(&self, folder: &Path) -> Result<(), String> {
        same_file(&folder.join(self.desk.file), Some(&self.book))?;
        nothing_else(folder, self.desk)
    }

    /// The day is in the book, which is alone.
    pub fn is_entered(&self, folder: &Path) -> Result<(), String> {
        same_file(&folder.join(self.desk.file), Some(&self.after))?;
        nothing_else(folder, self.desk)
    }

    /// The day was judged as if nothing had been.
    pub fn is_done(&self, output: &Output, folder: &Path) -> Result<(), String> {
        prints(output, &self.text)?;
        self.is_entered(folder)?;
        has_status(output, 0)?;
        let error = String::from_utf8_lossy(&output.stderr);
        if error.is_empty() {
            return Ok(());
        }
        Err(format!("standard error is {:?}", shortened(&error)))
    }
}

/// An empty folder, also where one stands that cannot be written to.
pub fn empty_folder(parent: &Path, name: &str) -> Result<PathBuf, String> {
    let folder = parent.join(name);
    if folder.exists() {
        fs::set_permissions(&folder, fs::Permissions::from_mode(0o755)).map_err(text)?;
        fs::remove_dir_all(&folder).map_err(text)?;
    }
    fs::create_dir_all(&folder).map_err(text)?;
    Ok(folder)
}

pub fn prints(output: &Output, text: &str) -> Result<(), String> {
    if output.stdout == text.as_bytes() {
        return Ok(());
    }
    let (given, error) = (String::from_utf8_lossy(&output.stdout), String::from_utf8_lossy(&output.stderr));
    Err(format!("it printed {:?}, standard error {:?}", shortened(&given), shortened(&error)))
}

/// Each of the words is on standard error, which is not empty.
pub fn says(output: &Output, words: &[&str]) -> Result<(), String> {
    let error = String::from_utf8_lossy(&output.stderr);
    if !error.is_empty() && words.iter().all(|words| error.contains(words)) {
        return Ok(());
    }
    Err(format!("standard error is {:?}", shortened(&error)))
}

pub fn says_one_line(output: &Output) -> Result<(), String> {
    let error = String::from_utf8_lossy(&output.stderr);
    if error.trim().is_empty() || !error.ends_with('\n') || error.lines().count() != 1 {
        return Err(format!("standard error is {:?}", shortened(&error)));
    }
    Ok(())
}

/// One line on standard error, and nothing printed as if it were done.
pub fn said(output: &Output) -> Result<(), String> {
    says_one_line(output)?;
    prints(output, "")
}

pub fn has_status(output: &Output, status: i32) -> Result<(), String> {
    if output.status.code() == Some(status) {
        return Ok(());
    }
    Err(format!("{}, standard error {:?}", output.status, shortened(&String::from_utf8_lossy(&output.stderr))))
}

pub fn text(error: io::Error) -> String {
    error.to_string()
}
