//! `bin/run` itself: when it builds, and how it can be called. Building is tried on a checkout with one tiny program.
use crate::cases::Feed;
use crate::ending::{is_root, unless, Ending, Endings};
use crate::parallel::both_at_once;
use crate::permissions::{cannot_reach, NOBODY};
use crate::run::{command, run, shell_words};
use crate::stage::{empty_folder, has_status, prints, said, says, says_one_line, text, Stage};
use std::fs;
use std::os::unix::fs::symlink;
use std::os::unix::process::CommandExt;
use std::path::{Path, PathBuf};
use std::process::{Command, Output};
use std::thread;
use std::time::{Duration, SystemTime};

type Test = fn(&Stage, &Path) -> Result<(), String>;

pub fn starting(stage: &Stage) -> Endings {
    let checkout = match make_checkout(stage) {
        Ok(checkout) => checkout,
        Err(what) => return vec![("a small checkout".to_string(), Ending::Failed(what))],
    };
    let tests: [(&str, Test); 7] = [
        ("two builds at once", |_, checkout| two_builds(checkout)),
        ("a build only where a source is newer", |_, checkout| builds_when_needed(checkout)),
        ("CDPATH and a relative path", |_, checkout| relative(checkout)),
        ("a symbolic link from elsewhere", linked),
        ("an empty name", |stage, _| wrong_name(stage, "")),
        ("an unknown name", |stage, _| wrong_name(stage, "nobody")),
        ("a library's name", |stage, _| wrong_name(stage, "desk")),
    ];
    let mut all: Endings = tests.map(|(name, test)| (name.to_string(), test(stage, &checkout).into())).into();
    let lacking = if is_root() { cannot_reach(&checkout) } else { None };
    all.push(("a checkout that cannot be written".to_string(), unless(lacking, || read_only(&checkout))));
    if let Err(error) = fs::remove_dir_all(&checkout) {
        all.push(("the small checkout taken away".to_string(), Ending::Failed(text(error))));
    }
    all
}

/// Of `bin/run`, what hangs on the clerk that it starts.
pub fn starting_a_clerk(stage: &Stage) -> Endings {
    let tests: [(&str, fn(&Stage) -> Result<(), String>); 2] =
        [("standard input closed", closed_input), ("TMPDIR that is no folder", no_room_aside)];
    tests.map(|(name, test)| (name.to_string(), test(stage).into())).into()
}

/// A file system can tell times by the second: then a source of the second in which a build began is not newer.
const TICK: Duration = Duration::from_millis(1_100);

/// Outside our own checkout, in which no other may stand.
fn make_checkout(stage: &Stage) -> Result<PathBuf, String> {
    let checkout = empty_folder(&std::env::temp_dir(), &format!("reference-{}-checkout", std::process::id()))?;
    let source = checkout.join("crates/tiny/src");
    fs::create_dir_all(&source).map_err(text)?;
    fs::create_dir(checkout.join("bin")).map_err(text)?;
    for name in ["run", "build.bash"] {
        fs::copy(stage.programs.run.with_file_name(name), checkout.join("bin").join(name)).map_err(text)?;
    }
    let files = [("crates.txt", "tiny:\n"), ("crates/tiny/stdout", "tiny\n"), ("crates/tiny/src/main.rt", TINY)];
    for (name, content) in files {
        fs::write(checkout.join(name), content).map_err(text)?;
    }
    thread::sleep(TICK);
    Ok(checkout)
}

const TINY: &str = "#![tactic(auto)]

use std::io;

fn main(rt: HostRuntime) -> io::Result<()> {
    println!(rt; \"tiny\")
}
";

fn tiny(words: &str, folder: &Path) -> Command {
    command(&[words.to_string(), "tiny".to_string()], folder)
}

fn run_tiny(checkout: &Path) -> Result<Output, String> {
    run(tiny("bin/run", checkout), checkout, &[], Feed::Pipe).map_err(text)
}

fn is_good(output: &Output) -> Result<(), String> {
    prints(output, "tiny\n")?;
    has_status(output, 0)
}

/// Both are served, and only one of them builds.
fn two_builds(checkout: &Path) -> Result<(), String> {
    let mut builders = 0;
    for output in both_at_once(|_| run_tiny(checkout)) {
        let output = output?;
        is_good(&output)?;
        builders += says(&output, &["proving and building tiny"]).is_ok() as usize;
    }
    if builders == 1 {
        return Ok(());
    }
    Err(format!("{builders} of 2 built"))
}

/// A program has the time at which its build began.
fn last_build(checkout: &Path) -> Result<SystemTime, String> {
    fs::metadata(checkout.join("target/bin/tiny")).and_then(|file| file.modified()).map_err(text)
}

/// Whether a run called the prover.
fn builds(checkout: &Path) -> Result<bool, String> {
    let before = last_build(checkout)?;
    is_good(&run_tiny(checkout)?)?;
    Ok(last_build(checkout)? != before)
}

fn builds_when_needed(checkout: &Path) -> Result<(), String> {
    let mut seen = vec![builds(checkout)?];
    let source = fs::File::options().append(true).open(checkout.join("crates/tiny/src/main.rt")).map_err(text)?;
    source.set_modified(SystemTime::now()).map_err(text)?;
    thread::sleep(TICK);
    seen.extend([builds(checkout)?, builds(checkout)?]);
    if seen == [false, true, false] {
        return Ok(());
    }
    Err(format!("built as it was, after a touch, after that: {seen:?}"))
}

fn relative(checkout: &Path) -> Result<(), String> {
    let mut command = tiny("bin/run", checkout);
    command.env("CDPATH", "/tmp:/");
    is_good(&run(command, checkout, &[], Feed::Pipe).map_err(text)?)
}

fn linked(stage: &Stage, checkout: &Path) -> Result<(), String> {
    let folder = empty_folder(stage.folder, "elsewhere")?;
    symlink(checkout.join("bin/run"), folder.join("start")).map_err(text)?;
    is_good(&run(tiny("./start", &folder), &folder, &[], Feed::Pipe).map_err(text)?)
}

fn closed_input(stage: &Stage) -> Result<(), String> {
    let example = stage.example();
    let folder = example.folder(stage.folder, "closed-input")?;
    let words = shell_words("exec \"$@\" <&-", stage.programs.through_run(stage.desk.name));
    let output = run(command(&words, &folder), &folder, &[], Feed::Pipe).map_err(text)?;
    says_one_line(&output)?;
    has_status(&output, 1)?;
    example.is_kept(&folder)
}

fn wrong_name(stage: &Stage, name: &str) -> Result<(), String> {
    let folder = empty_folder(stage.folder, "elsewhere")?;
    let output = run(command(&stage.programs.through_run(name), &folder), &folder, &[], Feed::Pipe).map_err(text)?;
    said(&output)?;
    has_status(&output, 2)
}

/// A clerk needs no room for temporary files.
fn no_room_aside(stage: &Stage) -> Result<(), String> {
    let example = stage.example();
    let folder = example.folder(stage.folder, "no-room-aside")?;
    let mut command = stage.clerk(&folder);
    command.env("TMPDIR", folder.join("none"));
    let output = run(command, &folder, &example.log, Feed::Pipe).map_err(text)?;
    example.is_done(&output, &folder)
}

fn set_writable(checkout: &Path, mode: &str) -> Result<(), String> {
    Command::new("chmod").args(["-R", mode]).arg(checkout).status().map(drop).map_err(text)
}

/// With the program built. A superuser is not held by permissions: then another user runs it.
fn read_only(checkout: &Path) -> Result<(), String> {
    let mut command = tiny("bin/run", checkout);
    if is_root() {
        command.uid(NOBODY).gid(NOBODY);
    }
    set_writable(checkout, "a-w")?;
    let output = run(command, checkout, &[], Feed::Pipe).map_err(text);
    set_writable(checkout, "u+w")?;
    is_good(&output?)
}
