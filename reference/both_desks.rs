//! Both clerks in one folder at the same moment, each on its own book: neither's day is lost, and neither touches the
//! other's book.
use crate::cases::Feed;
use crate::compare::same_file;
use crate::desk::{self, Desk};
use crate::ending::Endings;
use crate::newbook::holds;
use crate::parallel::both_at_once;
use crate::run::{command, run};
use crate::stage::{empty_folder, has_status, prints, text, Stage};
use std::fs;

const ROUNDS: usize = 20;

pub fn both_desks(stage: &Stage) -> Endings {
    let through_run = |desk: &Desk| stage.programs.through_run(desk.name);
    let without = |desk: &Desk| stage.programs.words(desk.name);
    vec![
        ("both clerks through bin/run".to_string(), all_rounds(stage, through_run).into()),
        ("both clerks without bin/run".to_string(), all_rounds(stage, without).into()),
    ]
}

fn all_rounds(stage: &Stage, words: impl Fn(&Desk) -> Vec<String> + Sync) -> Result<(), String> {
    (0..ROUNDS).try_for_each(|i| round(stage, &words).map_err(|what| format!("round {i}: {what}")))
}

fn round(stage: &Stage, words: impl Fn(&Desk) -> Vec<String> + Sync) -> Result<(), String> {
    let folder = &empty_folder(stage.folder, "both-desks")?;
    let examples = [&desk::DAYS, &desk::POSITIONS].map(|desk| (desk, Stage { desk, ..*stage }.example()));
    for (desk, example) in &examples {
        fs::write(folder.join(desk.file), &example.book).map_err(text)?;
    }
    let outputs = both_at_once(|i| {
        let (desk, example) = &examples[i];
        run(command(&words(desk), folder), folder, &example.log, Feed::Pipe)
    });
    for ((desk, example), output) in examples.iter().zip(outputs) {
        let output = output.map_err(text)?;
        prints(&output, &example.text)?;
        has_status(&output, 0)?;
        same_file(&folder.join(desk.file), Some(&example.after))?;
    }
    holds(folder, &[desk::DAYS.file, desk::POSITIONS.file])
}
