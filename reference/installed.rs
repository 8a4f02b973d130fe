//! `bin/install` into a folder with a space in its name, and a day from there where the prover is not on the path.
use crate::cases::Feed;
use crate::desk::{self, Desk};
use crate::ending::{unless, Endings};
use crate::run::{command, run};
use crate::sheet;
use crate::stage::{empty_folder, has_status, prints, text, Example, Stage};
use crate::why::why;
use std::fs;
use std::path::{Path, PathBuf};
use std::process::{Command, Output};

const NAME: &str = "a desk";

pub fn installed(stage: &Stage) -> Endings {
    let folder = stage.folder.join(NAME);
    let first = empty_folder(stage.folder, NAME).and_then(|folder| install(stage, &folder));
    let in_path = SYSTEM_PATH.split(':').any(|part| Path::new(part).join("rt").exists());
    let lacking = in_path.then(|| format!("rt is on the path {SYSTEM_PATH}"));
    let mut all: Endings = vec![("into a folder with a space in its name".to_string(), first.into())];
    all.push(("a book and a day without rt".to_string(), unless(lacking.clone(), || day(stage, &folder))));
    all.push(("a second time over the first".to_string(), install(stage, &folder).into()));
    all.push(("a book and a day after that".to_string(), unless(lacking, || day(stage, &folder))));
    all
}

const SYSTEM_PATH: &str = "/usr/bin:/bin";

fn install(stage: &Stage, folder: &Path) -> Result<(), String> {
    let words = [stage.root.join("bin/install"), folder.to_path_buf()].map(|path| path.display().to_string());
    let output = run(command(&words, stage.folder), stage.folder, &[], Feed::Pipe).map_err(text)?;
    has_status(&output, 0)?;
    let [page, original] = [folder.join("README.md"), stage.root.join("docs/DESK.md")].map(fs::read);
    if page.map_err(text)? != original.map_err(text)? {
        return Err("README.md is not docs/DESK.md".to_string());
    }
    let made = fs::read_to_string(folder.join("MADE")).map_err(text)?;
    if made.contains(&commit(stage)) && made.lines().count() == 1 {
        return Ok(());
    }
    Err(format!("MADE is {made:?}"))
}

/// The checkout's commit, or the words for none.
fn commit(stage: &Stage) -> String {
    let asked = Command::new("git").arg("-C").arg(stage.root).args(["rev-parse", "HEAD"]).output();
    match asked {
        Ok(output) if output.status.success() => String::from_utf8_lossy(&output.stdout).trim().to_string(),
        _ => "no commit that is known".to_string(),
    }
}

fn start(place: &Path, folder: &Path, words: &[&str], input: &[u8]) -> Result<Output, String> {
    let mut command = command(&[place.join("bin/run").display().to_string()], folder);
    command.args(words).env("PATH", SYSTEM_PATH);
    run(command, folder, input, Feed::Pipe).map_err(text)
}

/// A fresh book of either desk with a day on it, the sample one for the clerk, why its first record counts, and the
/// sheet of exemptions.
fn day(stage: &Stage, place: &Path) -> Result<(), String> {
    let log = fs::read(stage.root.join("examples/20240305.axd")).map_err(text)?;
    let told = why(&["1"], &mut &log[..]).map_err(text)?.text;
    day_of(stage, place, &desk::DAYS, log.clone())?;
    let folder = day_of(stage, place, &desk::POSITIONS, (desk::POSITIONS.example_log)(20240305))?;
    prints(&start(place, &folder, &["why", "1"], &log)?, &told)?;
    prints(&start(place, &folder, &["sheet"], &[])?, &sheet::page([0; 5]))
}

fn day_of(stage: &Stage, place: &Path, desk: &'static Desk, log: Vec<u8>) -> Result<PathBuf, String> {
    let folder = empty_folder(stage.folder, "installed")?;
    let mut words = vec!["newbook", "1"];
    words.extend(desk.asked);
    let made = start(place, &folder, &words, &[])?;
    prints(&made, &format!("made {}\n", desk.file))?;
    has_status(&made, 0)?;
    let example = Example::of(desk, &desk.form.fresh(1), log);
    example.is_kept(&folder)?;
    example.is_done(&start(place, &folder, &[desk.name], &example.log)?, &folder)?;
    Ok(folder)
}
