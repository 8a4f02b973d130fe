//! The program why with words that are no good, and with streams that cannot be used. The exit status is made by
//! `bin/run`.
use crate::cases::Feed;
use crate::ending::Endings;
use crate::newbook::holds;
use crate::run::{command, run, run_as_set, run_to_end, shell_words};
use crate::stage::{empty_folder, has_status, prints, says, text, Stage};
use std::fs::{self, File, OpenOptions};
use std::io::Seek;
use std::path::PathBuf;
use std::process::{Command, Output, Stdio};

/// What is not one number from 1 to 999,999,999 in up to nine digits; the long ones are 1 when cut to 32 and 64 bits.
const WRONG: [&[&str]; 26] = [
    &[""],
    &["0"],
    &["00"],
    &["000000000"],
    &["0000000001"],
    &["1000000000"],
    &["4294967297"],
    &["18446744073709551617"],
    &["-1"],
    &["+1"],
    &[" 1"],
    &["1 "],
    &["1\n"],
    &["1."],
    &["1x"],
    &["x"],
    &["/"],
    &[":"],
    &["1/"],
    &["1:2"],
    &["0x1"],
    &["--help"],
    &["1", "2"],
    &["1", ""],
    &["", "1"],
    &["1", "1", "1"],
];

const USAGE: &str = "usage: why [NUMBER] <day.axd\n";

pub fn why_streams(stage: &Stage) -> Endings {
    let mut all: Vec<(String, Result<(), String>)> =
        WRONG.map(|words| (format!("why with words {words:?}"), tells_usage(stage, words))).into();
    all.push(("why with a number past the log's".to_string(), no_such_record(stage)));
    all.push(("why, a folder for standard input".to_string(), folder_for_log(stage)));
    for (what, words) in [("", &[][..]), (", a record", &["1"])] {
        all.push((format!("why, standard output is full{what}"), full_output(stage, words)));
        all.push((format!("why, standard output is closed{what}"), closed_output(stage, words)));
    }
    all.into_iter().map(|(name, result)| (name, result.into())).collect()
}

fn program(stage: &Stage, words: &[&str]) -> Result<(Command, PathBuf), String> {
    let folder = empty_folder(stage.folder, "why")?;
    let mut command = command(&stage.programs.through_run("why"), &folder);
    command.args(words);
    Ok((command, folder))
}

/// Standard input is a file whose place is shared with the program: there nothing has been read.
fn tells_usage(stage: &Stage, words: &[&str]) -> Result<(), String> {
    let (mut command, folder) = program(stage, words)?;
    let path = folder.join("day.axd");
    fs::write(&path, stage.example().log).map_err(text)?;
    let mut log = File::open(&path).map_err(text)?;
    command.stdin(log.try_clone().map_err(text)?).stdout(Stdio::piped()).stderr(Stdio::piped());
    let output = run_to_end(&mut command).map_err(text)?;
    prints(&output, "")?;
    if output.stderr != USAGE.as_bytes() {
        return Err(format!("standard error is {:?}", String::from_utf8_lossy(&output.stderr)));
    }
    has_status(&output, 1)?;
    holds(&folder, &["day.axd"])?;
    match log.stream_position().map_err(text)? {
        0 => Ok(()),
        n => Err(format!("{n} bytes of standard input were read")),
    }
}

fn no_such_record(stage: &Stage) -> Result<(), String> {
    let (command, folder) = program(stage, &["6"])?;
    let output = run(command, &folder, &stage.example().log, Feed::Pipe).map_err(text)?;
    prints(&output, "AXD 20240305 DCE\n")?;
    says(&output, &["why: the log has no such record\n"])?;
    has_status(&output, 1)
}

/// The log counts as cut off before its first byte.
fn folder_for_log(stage: &Stage) -> Result<(), String> {
    let (mut command, folder) = program(stage, &[])?;
    command.stdin(File::open(&folder).map_err(text)?).stdout(Stdio::piped()).stderr(Stdio::piped());
    let output = run_to_end(&mut command).map_err(text)?;
    prints(&output, "refused 1\n")?;
    says(&output, &["why: standard input cannot be read: "])?;
    has_status(&output, 1)
}

fn is_unwritten(output: &Output) -> Result<(), String> {
    prints(output, "")?;
    says(output, &["why: standard output cannot be written: "])?;
    has_status(output, 1)
}

fn full_output(stage: &Stage, words: &[&str]) -> Result<(), String> {
    let full = OpenOptions::new().write(true).open("/dev/full").map_err(text)?;
    let (mut command, folder) = program(stage, words)?;
    command.stdout(full).stderr(Stdio::piped());
    is_unwritten(&run_as_set(&mut command, &folder, &stage.example().log, Feed::Pipe).map_err(text)?)
}

fn closed_output(stage: &Stage, words: &[&str]) -> Result<(), String> {
    let folder = empty_folder(stage.folder, "why")?;
    let mut command = command(&shell_words("exec \"$@\" >&-", stage.programs.through_run("why")), &folder);
    command.args(words);
    is_unwritten(&run(command, &folder, &stage.example().log, Feed::Pipe).map_err(text)?)
}
