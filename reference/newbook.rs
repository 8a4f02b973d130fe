//! The program newbook: a fresh book where there is none, and nothing at all where it fails.
use crate::build::{self, Total};
use crate::cases::Feed;
use crate::compare::same_file;
use crate::desk;
use crate::ending::Endings;
use crate::failing::FULL_DISK;
use crate::permissions::held_by_permissions;
use crate::run::{command, run, shell_words};
use crate::stage::{empty_folder, prints, said, says, text, Stage};
use std::ffi::OsStr;
use std::fs;
use std::path::Path;
use std::process::Output;

/// What is not the one word 1 or 2, with the word positions or without; 257 and the two long ones are 1 when cut to 8,
/// 32 and 64 bits.
const WRONG: [&[&str]; 34] = [
    &[],
    &["1", "2"],
    &["1", ""],
    &[""],
    &["0"],
    &["3"],
    &["01"],
    &["1x"],
    &["12"],
    &["-1"],
    &["+1"],
    &[" 1"],
    &["1\n"],
    &["257"],
    &["4294967297"],
    &["18446744073709551617"],
    &["positions"],
    &["positions", "1"],
    &["positions", "positions"],
    &["0", "positions"],
    &["3", "positions"],
    &["01", "positions"],
    &["257", "positions"],
    &["", "positions"],
    &["1", "position"],
    &["1", "positionss"],
    &["2", "positions "],
    &["1", " positions"],
    &["2", "Positions"],
    &["1", "positions\n"],
    &["1", "positionz"],
    &["2", "positions", ""],
    &["1", "positions", "positions"],
    &["1", "2", "positions"],
];

const USAGE: &str =
    "usage: newbook 1 (DCE) or newbook 2 (CFFEX bonds), and with the word positions the book of positions\n";

pub fn newbook(stage: &Stage) -> Endings {
    let mut all: Vec<(String, Result<(), String>)> = Vec::new();
    for rulebook in [1, 2] {
        let words = stage.desk.newbook_words(rulebook).join(" ");
        all.push((format!("newbook {words}"), makes(stage, rulebook)));
        all.push((format!("newbook {words} over a book"), leaves_a_book(stage, rulebook)));
        all.push((format!("newbook {words} beside the other book"), beside_the_other(stage, rulebook)));
    }
    all.push(("newbook in a folder that cannot be written".to_string(), no_permission(stage)));
    all.push(("newbook on a full disk".to_string(), full_disk(stage)));
    all.push(("newbook over a folder of that name".to_string(), over_a_folder(stage)));
    all.into_iter().map(|(name, result)| (name, result.into())).collect()
}

/// Words that make neither book.
pub fn wrong_words(stage: &Stage) -> Vec<(String, Result<(), String>)> {
    WRONG.map(|words| (format!("newbook with words {words:?}"), refuses(stage, words))).into()
}

fn start(stage: &Stage, folder: &Path, more: &[impl AsRef<OsStr>]) -> Result<Output, String> {
    let mut command = command(&stage.programs.words("newbook"), folder);
    command.args(more);
    run(command, folder, &[], Feed::Pipe).map_err(text)
}

/// The same by `bin/run`, which gives the exit status.
fn status(stage: &Stage, folder: &Path, more: &[impl AsRef<OsStr>]) -> Result<bool, String> {
    let mut command = command(&stage.programs.through_run("newbook"), folder);
    command.args(more);
    Ok(run(command, folder, &[], Feed::Pipe).map_err(text)?.status.success())
}

/// The names in the folder are these, which rise.
pub fn holds(folder: &Path, names: &[&str]) -> Result<(), String> {
    let entries: Result<Vec<_>, _> = fs::read_dir(folder).map_err(text)?.collect();
    let mut found: Vec<_> = entries.map_err(text)?.iter().map(|entry| entry.file_name()).collect();
    found.sort();
    if found == names {
        return Ok(());
    }
    Err(format!("the folder has {found:?}"))
}

fn makes(stage: &Stage, rulebook: u8) -> Result<(), String> {
    let fresh = stage.desk.form.fresh(rulebook);
    let folder = empty_folder(stage.folder, "newbook")?;
    is_made(stage, &start(stage, &folder, &stage.desk.newbook_words(rulebook))?)?;
    same_file(&folder.join(stage.desk.file), Some(&fresh))?;
    holds(&folder, &[stage.desk.file])?;
    let folder = empty_folder(stage.folder, "newbook")?;
    if !status(stage, &folder, &stage.desk.newbook_words(rulebook))? {
        return Err("the exit status is not 0".to_string());
    }
    same_file(&folder.join(stage.desk.file), Some(&fresh))
}

fn is_made(stage: &Stage, output: &Output) -> Result<(), String> {
    prints(output, &format!("made {}\n", stage.desk.file))?;
    if output.stderr.is_empty() {
        return Ok(());
    }
    Err(format!("standard error is {:?}", String::from_utf8_lossy(&output.stderr)))
}

/// A folder can hold both books: the one that is there stays.
fn beside_the_other(stage: &Stage, rulebook: u8) -> Result<(), String> {
    let folder = empty_folder(stage.folder, "newbook")?;
    let other = if stage.desk.asked.is_some() { &desk::DAYS } else { &desk::POSITIONS };
    let bytes = (other.example_book)();
    fs::write(folder.join(other.file), &bytes).map_err(text)?;
    is_made(stage, &start(stage, &folder, &stage.desk.newbook_words(rulebook))?)?;
    same_file(&folder.join(stage.desk.file), Some(&stage.desk.form.fresh(rulebook)))?;
    same_file(&folder.join(other.file), Some(&bytes))?;
    holds(&folder, &[desk::DAYS.file, desk::POSITIONS.file])
}

/// What is there stays, whatever it is: a book of a year, a short file, an empty one.
fn leaves_a_book(stage: &Stage, rulebook: u8) -> Result<(), String> {
    let total = Total { group: 3, kind: 1, family: 0, total: 2 };
    let short = vec![7; 100];
    for bytes in [build::book(1, 20240305, &[total]), build::book(2, 0, &[]), short, Vec::new()] {
        let folder = empty_folder(stage.folder, "newbook")?;
        fs::write(folder.join(stage.desk.file), &bytes).map_err(text)?;
        said(&start(stage, &folder, &stage.desk.newbook_words(rulebook))?)?;
        same_file(&folder.join(stage.desk.file), Some(&bytes))?;
        holds(&folder, &[stage.desk.file])?;
    }
    Ok(())
}

fn refuses(stage: &Stage, words: &[&str]) -> Result<(), String> {
    let folder = empty_folder(stage.folder, "newbook")?;
    let output = start(stage, &folder, words)?;
    said(&output)?;
    says(&output, &[USAGE])?;
    if status(stage, &folder, words)? {
        return Err("the exit status is 0".to_string());
    }
    holds(&folder, &[])
}

fn no_permission(stage: &Stage) -> Result<(), String> {
    let held = held_by_permissions(stage, "newbook")?;
    let folder = empty_folder(&held.parent, "newbook")?;
    let words = stage.desk.newbook_words(1);
    let output = held.run_unwritable(&folder, &words.iter().map(String::as_str).collect::<Vec<_>>(), &[])?;
    let result = said(&output).and(holds(&folder, &[]));
    held.clear(stage)?;
    result
}

/// Half a book is worse than none. Without `bin/run` the signal of the limit would end the program.
fn full_disk(stage: &Stage) -> Result<(), String> {
    let folder = empty_folder(stage.folder, "newbook")?;
    let line = format!("trap '' XFSZ; {FULL_DISK}");
    let mut words = shell_words(&line, stage.programs.words("newbook"));
    words.extend(stage.desk.newbook_words(1));
    said(&run(command(&words, &folder), &folder, &[], Feed::Pipe).map_err(text)?)?;
    holds(&folder, &[])
}

fn over_a_folder(stage: &Stage) -> Result<(), String> {
    let folder = empty_folder(stage.folder, "newbook")?;
    fs::create_dir(folder.join(stage.desk.file)).map_err(text)?;
    said(&start(stage, &folder, &stage.desk.newbook_words(1))?)?;
    holds(&folder, &[stage.desk.file])?;
    holds(&folder.join(stage.desk.file), &[])
}
