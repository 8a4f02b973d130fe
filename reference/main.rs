//! A second reading of document 01 in plain Rust, to hold the proved programs against. It shares nothing with them.
//!
//! The reading: `dates`, `rules`, `tables`, `book`, `refusal`, `counted` (a record's kinds and clauses), `calls` (the
//! six calls), `positions` (request K4), `log` (read in pieces), `clerk` (either program), `why` (K5), `replay`. `desk`
//! says what is the one clerk's and what the other's.
//! The cases: `build` (data and its bytes), `days`, `scene`, `book_scene` and `faults`; `edges`, `broker_edges` (K2),
//! `sheet_edges` (K3), `clause_edges` (K5), `script_edges`, `clerk_edges`, `why_lines`, `why_edges`, `generate` and
//! `why_generate` (random ones), `large` (a million records); `years`, in which `join` joins two groups (demand 3).
//! Each has its like for positions, as `position_edges`.
//! The check: `run` (with a time limit), `parallel`, `compare`, `tally` (what was reached), `join_years`, `check`.
//! Around a day: `ending` (passed, failed or left out), `stage` (an example in a folder), `failing` (the write-back
//! made to fail), `permissions`, `newbook`, `sheet`, `unusable` (books and streams), `why_streams`, `races` (two
//! clerks at once), `both_desks` (one of each), `starting` (`bin/run`), `signals`, `installed` (`bin/install`),
//! `system_faults` (by strace). And `timing`.
mod book;
mod book_scene;
mod both_desks;
mod broker_edges;
mod build;
mod calls;
mod cases;
mod check;
mod clause_edges;
mod clerk;
mod clerk_edges;
mod compare;
mod counted;
mod dates;
mod days;
mod desk;
mod edges;
mod ending;
mod failing;
mod faults;
mod generate;
mod installed;
mod join;
mod join_years;
mod large;
mod log;
mod newbook;
mod parallel;
mod permissions;
mod position_build;
mod position_clerk_edges;
mod position_days;
mod position_edges;
mod position_examples;
mod position_faults;
mod position_generate;
mod position_joins;
mod position_lines;
mod position_scene;
mod position_years;
mod positions;
mod races;
mod random;
mod refusal;
mod replay;
mod rules;
mod run;
mod scene;
mod script_edges;
mod sheet;
mod sheet_edges;
mod signals;
mod stage;
mod starting;
mod system_faults;
mod tables;
mod tally;
mod timing;
mod unusable;
mod why;
mod why_edges;
mod why_generate;
mod why_lines;
mod why_streams;
mod years;

use std::io::{self, Read, Write};
use std::path::Path;
use std::process::ExitCode;

const USAGE: &str = "usage: reference clerk
       reference position_clerk
       reference replay
       reference why [NUMBER]
       reference check SEED FRESH-SEED ROOT [WORDS BEFORE A PROGRAM]
       reference time VERSION FOLDER PROGRAM [ITS WORDS]";

fn main() -> ExitCode {
    let words: Vec<String> = std::env::args().collect();
    let rest: Vec<&str> = words.iter().skip(1).map(String::as_str).collect();
    let result = match rest[..] {
        ["clerk"] => clerk::program(&desk::DAYS),
        ["position_clerk"] => clerk::program(&desk::POSITIONS),
        ["replay"] => replay_program(),
        ["why", ref words @ ..] => why::program(words),
        ["check", seed, fresh, root, ref before @ ..] => return check::check([seed, fresh], Path::new(root), before),
        ["time", version @ ("1" | "2"), folder, ref theirs @ ..] if !theirs.is_empty() => {
            let theirs: Vec<String> = theirs.iter().map(|word| word.to_string()).collect();
            let version = if version == "2" { 2 } else { 1 };
            timing::time(Path::new(folder), version, &[words[0].clone(), "clerk".to_string()], &theirs)
        }
        _ => Err(io::Error::other(USAGE)),
    };
    match result {
        Ok(()) => ExitCode::SUCCESS,
        Err(error) => {
            eprintln!("{error}");
            ExitCode::FAILURE
        }
    }
}

/// One byte more than the longest script is enough to see that it is too long.
fn replay_program() -> io::Result<()> {
    let mut script = Vec::new();
    io::stdin().lock().take(1_000_001).read_to_end(&mut script)?;
    io::stdout().write_all(replay::replay(&script).text.as_bytes())
}
