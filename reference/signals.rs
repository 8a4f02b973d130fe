//! Signals to `bin/run` alone while the clerk waits for the rest of its log: they reach it, and the status says so.
use crate::ending::{lacks, unless, Endings};
use crate::run::{command, run_to_end, send, Waiting};
use crate::stage::{has_status, prints, text, Stage};
use std::path::Path;

pub fn signals(stage: &Stage) -> Endings {
    let lacking = lacks(&[DEFAULTS[0], DEFAULTS[1], "true"]).or_else(|| stage.pipes_are_long());
    let signals = [("TERM", 143), ("INT", 130), ("HUP", 129)];
    let try_one =
        |(signal, status)| (format!("{signal} to bin/run"), unless(lacking.clone(), || ends_by(stage, signal, status)));
    signals.map(try_one).into()
}

/// Nothing is ignored from the start, as INT is where this check itself was started aside.
const DEFAULTS: [&str; 2] = ["env", "--default-signal"];

fn ends_by(stage: &Stage, signal: &str, status: i32) -> Result<(), String> {
    let example = stage.long_example();
    let folder = example.folder(stage.folder, "signal")?;
    let mut words = DEFAULTS.map(String::from).to_vec();
    words.extend(stage.programs.through_run(stage.desk.name));
    let clerk = Waiting::begin(command(&words, &folder), example.halves().0).map_err(text)?;
    send(signal, &clerk.id().to_string()).map_err(text)?;
    let output = clerk.end().map_err(text)?;
    has_status(&output, status)?;
    prints(&output, "")?;
    example.is_kept(&folder)?;
    is_free(&folder)
}

/// Nobody holds the folder any more: the clerk is gone.
fn is_free(folder: &Path) -> Result<(), String> {
    let words = ["flock", "-n", ".", "true"].map(String::from);
    let output = run_to_end(&mut command(&words, folder)).map_err(text)?;
    if output.status.success() {
        return Ok(());
    }
    Err("the folder is still locked".to_string())
}
