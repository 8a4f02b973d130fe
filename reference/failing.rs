//! The write-back made to fail. Each time the old book must be whole and alone, standard error not empty, the status 1.
//! The clerk is started by `bin/run`, as a clerk would: the exit status is made there.
use crate::cases::Feed;
use crate::ending::{is_root, unless, Ending, Endings};
use crate::permissions::{held_by_permissions, NOBODY};
use crate::run::{command, run, run_as_set, shell_words, Waiting};
use crate::stage::{empty_folder, has_status, prints, says, text, Example, Stage};
use std::fs::{self, OpenOptions};
use std::os::unix::fs::{chown, MetadataExt, PermissionsExt};
use std::path::{Path, PathBuf};
use std::process::{Command, Output, Stdio};

type Test = fn(&Stage, &Example) -> Result<(), String>;

pub fn failing(stage: &Stage) -> Endings {
    let tests: [(&str, Test); 9] = [
        ("a folder that cannot be written", no_permission),
        ("a full disk", full_disk),
        ("standard output is full", |stage, example| full_output(stage, example, true)),
        ("standard output is full, a refusal", |stage, example| full_output(stage, example, false)),
        ("standard output is closed", closed_output),
        ("standard output is a pipe that nobody reads", unread_output),
        ("a file left by a stop", left_over),
        ("a second try after a failure", second_try),
        ("a book's mode and owner", kept_mode),
    ];
    let example = stage.example();
    let mut all: Endings = tests.map(|(name, test)| (name.to_string(), test(stage, &example).into())).into();
    all.push(("a full small file system".to_string(), full_file_system(stage, &example)));
    all
}

/// What must hold after every failure.
fn failed_whole(stage: &Stage, output: &Output, folder: &Path, example: &Example) -> Result<(), String> {
    example.is_kept(folder)?;
    says(output, &[&stage.desk.says("")])?;
    has_status(output, 1)
}

/// The clerk as another user is started without `bin/run`, and its exit status says nothing.
fn no_permission(stage: &Stage, example: &Example) -> Result<(), String> {
    let held = held_by_permissions(stage, stage.desk.name)?;
    let folder = example.folder(&held.parent, "no-permission")?;
    let output = held.run_unwritable(&folder, &[], &example.log)?;
    let result = example.is_kept(&folder).and(says(&output, &[&left(stage)])).and(prints(&output, ""));
    held.clear(stage)?;
    result.and(if held.as_nobody { Ok(()) } else { has_status(&output, 1) })
}

fn left(stage: &Stage) -> String {
    stage.desk.says_of_book("is left as it was, ")
}

/// A limit on file sizes stands for a disk that fills.
fn full_disk(stage: &Stage, example: &Example) -> Result<(), String> {
    let folder = example.folder(stage.folder, "full-disk")?;
    run_without_room(stage, through_shell(stage, &folder, FULL_DISK), &folder, example)
}

/// Where there is no room for the new book, nothing is printed.
fn run_without_room(stage: &Stage, command: Command, folder: &Path, example: &Example) -> Result<(), String> {
    let output = run(command, folder, &example.log, Feed::Pipe).map_err(text)?;
    failed_whole(stage, &output, folder, example)?;
    says(&output, &[&left(stage)])?;
    prints(&output, "")
}

fn through_shell(stage: &Stage, folder: &Path, line: &str) -> Command {
    command(&shell_words(line, stage.programs.through_run(stage.desk.name)), folder)
}

/// A limit of 4 blocks on files: less than either book.
pub const FULL_DISK: &str = "ulimit -f 4; exec \"$@\"";

/// A small file system, which goes whatever comes.
struct Small(PathBuf);

impl Small {
    /// So small that a book fills it.
    fn mount(folder: PathBuf, book: usize) -> Option<Small> {
        let size = format!("size={}k", 4 * book.div_ceil(4_096));
        let words = ["-t", "tmpfs", "-o", &size, "tmpfs"];
        let mounted = Command::new("mount").args(words).arg(&folder).stderr(Stdio::null()).status();
        mounted.is_ok_and(|status| status.success()).then(|| Small(folder))
    }
}

impl Drop for Small {
    fn drop(&mut self) {
        let gone = Command::new("umount").arg(&self.0).status();
        if !gone.is_ok_and(|status| status.success()) {
            eprintln!("{} is still mounted", self.0.display());
        }
    }
}

fn full_file_system(stage: &Stage, example: &Example) -> Ending {
    let lacking = (!is_root()).then(|| "only root can mount one".to_string());
    unless(lacking, || {
        let folder = empty_folder(stage.folder, "small")?;
        let Some(small) = Small::mount(folder, example.book.len()) else {
            return Ok(Ending::LeftOut("none can be mounted".to_string()));
        };
        fs::write(small.0.join(stage.desk.file), &example.book).map_err(text)?;
        run_without_room(stage, stage.clerk(&small.0), &small.0, example).map(|()| Ending::PASSED)
    })
}

/// Nothing can be printed: then nothing may be written, and a refusal that nobody reads is no success.
fn full_output(stage: &Stage, example: &Example, is_good: bool) -> Result<(), String> {
    let folder = example.folder(stage.folder, "full-output")?;
    let full = OpenOptions::new().write(true).open("/dev/full").map_err(text)?;
    let mut command = stage.clerk(&folder);
    command.stdout(full).stderr(Stdio::piped());
    let log = if is_good { &example.log[..] } else { &example.log[..30] };
    let output = run_as_set(&mut command, &folder, log, Feed::Pipe).map_err(text)?;
    failed_whole(stage, &output, &folder, example)
}

fn closed_output(stage: &Stage, example: &Example) -> Result<(), String> {
    let folder = example.folder(stage.folder, "closed-output")?;
    let command = through_shell(stage, &folder, "exec \"$@\" >&-");
    let output = run(command, &folder, &example.log, Feed::Pipe).map_err(text)?;
    failed_whole(stage, &output, &folder, example)
}

fn unread_output(stage: &Stage, example: &Example) -> Result<(), String> {
    let folder = example.folder(stage.folder, "unread-output")?;
    let (first, rest) = example.halves();
    let mut clerk = Waiting::begin(stage.clerk(&folder), first).map_err(text)?;
    clerk.stop_reading();
    failed_whole(stage, &clerk.go_on(rest).map_err(text)?, &folder, example)
}

/// A stop between writing and renaming leaves a file beside the book, which the next run takes away.
fn left_over(stage: &Stage, example: &Example) -> Result<(), String> {
    let folder = example.folder(stage.folder, "left-over")?;
    fs::write(folder.join(format!("{}.new.abcdef", stage.desk.file)), vec![7; 30_000]).map_err(text)?;
    run_well(stage, &folder, example)
}

/// After a failure the same log goes through as if nothing had been.
fn second_try(stage: &Stage, example: &Example) -> Result<(), String> {
    full_disk(stage, example)?;
    run_well(stage, &stage.folder.join("full-disk"), example)
}

/// The new book is for the same readers as the old one. Only root can give it to another owner.
fn kept_mode(stage: &Stage, example: &Example) -> Result<(), String> {
    let folder = example.folder(stage.folder, "kept-mode")?;
    let book = folder.join(stage.desk.file);
    let facts = || fs::metadata(&book).map(|file| (file.mode(), file.uid(), file.gid())).map_err(text);
    fs::set_permissions(&book, fs::Permissions::from_mode(0o640)).map_err(text)?;
    if is_root() {
        chown(&book, Some(NOBODY), Some(NOBODY)).map_err(text)?;
    }
    let before = facts()?;
    run_well(stage, &folder, example)?;
    let after = facts()?;
    if before == after {
        return Ok(());
    }
    Err(format!("mode, owner and group were {before:?} and are {after:?}"))
}

fn run_well(stage: &Stage, folder: &Path, example: &Example) -> Result<(), String> {
    let output = run(stage.clerk(folder), folder, &example.log, Feed::Pipe).map_err(text)?;
    example.is_done(&output, folder)
}
