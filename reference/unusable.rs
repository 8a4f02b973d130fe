//! A book that is no plain file or may not be read, and replay's streams: each time standard error says why.
use crate::build::Script;
use crate::cases::Feed;
use crate::ending::Endings;
use crate::newbook::holds;
use crate::permissions::held_by_permissions;
use crate::run::{command, run, run_as_set, run_to_end};
use crate::stage::{empty_folder, has_status, prints, said, says, text, Stage};
use std::fs::{self, File, OpenOptions};
use std::os::unix::fs::PermissionsExt;
use std::path::{Path, PathBuf};
use std::process::{Command, Output, Stdio};
use std::time::{Duration, Instant};

type Test = fn(&Stage) -> Result<(), String>;

pub fn unusable(stage: &Stage) -> Endings {
    let tests: [(&str, Test); 4] = [
        ("a FIFO for a book", |stage| no_plain_file(stage, make_fifo)),
        ("a folder for a book", |stage| no_plain_file(stage, |path| fs::create_dir(path).map_err(text))),
        ("a book without permission", no_permission),
        ("a folder for standard input", folder_for_log),
    ];
    tests.map(|(name, test)| (name.to_string(), test(stage).into())).into()
}

pub fn replay_streams(stage: &Stage) -> Endings {
    let tests: [(&str, Test); 3] = [
        ("replay, a folder for standard input", folder_for_input),
        ("replay, standard output is full", |stage| full_output(stage, &good_script())),
        ("replay, standard output is full, a bad script", |stage| full_output(stage, b"?")),
    ];
    tests.map(|(name, test)| (name.to_string(), test(stage).into())).into()
}

/// Nobody writes to a FIFO here: who waits for it, waits for ever.
const SOON: Duration = Duration::from_secs(10);

fn make_fifo(path: &Path) -> Result<(), String> {
    let made = Command::new("mkfifo").arg(path).status().map_err(text)?;
    if made.success() {
        return Ok(());
    }
    Err("mkfifo failed".to_string())
}

fn is_refused(stage: &Stage, output: &Output) -> Result<(), String> {
    prints(output, "refused 17\n")?;
    says(output, &[&stage.desk.says_of_book("cannot be read: ")])
}

fn no_plain_file(stage: &Stage, make: fn(&Path) -> Result<(), String>) -> Result<(), String> {
    let folder = empty_folder(stage.folder, "unusable")?;
    make(&folder.join(stage.desk.file))?;
    let began = Instant::now();
    let output = run(stage.raw_clerk(&folder), &folder, &stage.example().log, Feed::Pipe).map_err(text)?;
    if began.elapsed() > SOON {
        return Err(format!("it took {:?}", began.elapsed()));
    }
    is_refused(stage, &output)?;
    holds(&folder, &[stage.desk.file])
}

fn no_permission(stage: &Stage) -> Result<(), String> {
    let example = stage.example();
    let held = held_by_permissions(stage, stage.desk.name)?;
    let folder = example.folder(&held.parent, "unusable")?;
    let book = folder.join(stage.desk.file);
    fs::set_permissions(&book, fs::Permissions::from_mode(0o000)).map_err(text)?;
    let output = held.run(&folder, &[], &example.log);
    fs::set_permissions(&book, fs::Permissions::from_mode(0o644)).map_err(text)?;
    let result = output.and_then(|output| is_refused(stage, &output)).and(example.is_kept(&folder));
    held.clear(stage)?;
    result
}

/// A log that cannot be read counts as what came, which is nothing here; standard error says why.
fn folder_for_log(stage: &Stage) -> Result<(), String> {
    let example = stage.example();
    let folder = example.folder(stage.folder, "unusable")?;
    let mut command = stage.clerk(&folder);
    command.stdin(File::open(&folder).map_err(text)?).stdout(Stdio::piped()).stderr(Stdio::piped());
    let output = run_to_end(&mut command).map_err(text)?;
    prints(&output, &stage.desk.on(Some(&example.book), &[]).text)?;
    says(&output, &[&stage.desk.says("standard input cannot be read: ")])?;
    has_status(&output, 1)?;
    example.is_kept(&folder)
}

fn replay(stage: &Stage) -> Result<(Command, PathBuf), String> {
    let folder = empty_folder(stage.folder, "unusable")?;
    Ok((command(&stage.programs.through_run("replay"), &folder), folder))
}

fn folder_for_input(stage: &Stage) -> Result<(), String> {
    let (mut command, folder) = replay(stage)?;
    command.stdin(File::open(&folder).map_err(text)?).stdout(Stdio::piped()).stderr(Stdio::piped());
    let output = run_to_end(&mut command).map_err(text)?;
    said(&output)?;
    has_status(&output, 1)
}

fn good_script() -> Vec<u8> {
    let mut script = Script::default();
    script.abandon();
    script.0
}

fn full_output(stage: &Stage, script: &[u8]) -> Result<(), String> {
    let (mut command, folder) = replay(stage)?;
    let full = OpenOptions::new().write(true).open("/dev/full").map_err(text)?;
    command.stdout(full).stderr(Stdio::piped());
    let output = run_as_set(&mut command, &folder, script, Feed::Pipe).map_err(text)?;
    said(&output)?;
    has_status(&output, 1)
}
