//! Two clerks at once on one book: whatever the order, no day that was reported done may be missing.
use crate::build;
use crate::cases::Feed;
use crate::compare::{nothing_else, same_file};
use crate::ending::{unless, Ending, Endings};
use crate::parallel::both_at_once;
use crate::run::{command, run, Waiting};
use crate::stage::{has_status, prints, says, text, Example, Stage};
use std::fs;
use std::path::Path;
use std::process::Output;
use std::time::{Duration, Instant};

pub fn races(stage: &Stage) -> Endings {
    let lacking = stage.pipes_are_long();
    let all = [
        ("two days through bin/run", two_through_run(stage).into()),
        ("two days without bin/run", two_raw(stage).into()),
        ("a second clerk while the first waits for its log", unless(lacking.clone(), || second_clerk(stage))),
        ("a book changed while its clerk waits", unless(lacking, || changed_meanwhile(stage))),
    ];
    all.map(|(name, ending): (&str, Ending)| (name.to_string(), ending)).into()
}

/// The clerk of positions has the same care with its file: fewer rounds do.
fn rounds(stage: &Stage) -> usize {
    if stage.desk.mark == "AXP" {
        40
    } else {
        200
    }
}

/// Two days after the book's last: the second can come first, the first then no more.
fn two_days(stage: &Stage) -> [Vec<u8>; 2] {
    [20240305, 20240306].map(stage.desk.example_log)
}

/// How a clerk said that it went.
#[derive(PartialEq, Debug)]
enum Told {
    Done,
    /// The book had a later day.
    Late,
    TurnedAway,
}

fn told(output: &Output) -> Result<Told, String> {
    match (&output.stdout[..], output.stderr.is_empty()) {
        (b"refused 9\n", true) => has_status(output, 0).map(|()| Told::Late),
        ([b'A', ..], true) => has_status(output, 0).map(|()| Told::Done),
        (_, false) => Ok(Told::TurnedAway),
        _ => Err(format!("{} after {:?}", output.status, String::from_utf8_lossy(&output.stdout))),
    }
}

/// What the clerks of a round gave, how they said that it went, and the book afterwards.
struct Round {
    outputs: [Output; 2],
    told: [Told; 2],
    book: Vec<u8>,
}

impl Round {
    fn turned_away(&self) -> impl Iterator<Item = &Output> {
        let both = self.outputs.iter().zip(&self.told);
        both.filter(|(_, told)| **told == Told::TurnedAway).map(|(output, _)| output)
    }
}

/// Both at the same moment, each on its own day.
fn round(stage: &Stage, words: &[String], folder: &Path, days: &[Vec<u8>; 2]) -> Result<Round, String> {
    let [first, second] = both_at_once(|i| run(command(words, folder), folder, &days[i], Feed::Pipe));
    let outputs = [first.map_err(text)?, second.map_err(text)?];
    let told = [told(&outputs[0])?, told(&outputs[1])?];
    nothing_else(folder, stage.desk)?;
    let book = fs::read(folder.join(stage.desk.file)).map_err(text)?;
    Ok(Round { outputs, told, book })
}

/// The texts are the reference's, of the days that were reported done one after the other, and so is the book.
fn is_in_order(stage: &Stage, round: &Round, days: &[Vec<u8>; 2]) -> Result<(), String> {
    let mut book = (stage.desk.example_book)();
    for ((log, output), told) in days.iter().zip(&round.outputs).zip(&round.told) {
        if *told == Told::Done {
            let expected = Example::of(stage.desk, &book, log.clone());
            prints(output, &expected.text)?;
            book = expected.after;
        }
    }
    if round.told[1] == Told::Late || (round.told[0] == Told::Late && round.told[1] != Told::Done) {
        return Err("a day was refused that no later one had come before".to_string());
    }
    if round.book == book {
        return Ok(());
    }
    Err("the book is not that of the days that were done".to_string())
}

fn all_rounds(
    stage: &Stage,
    words: &[String],
    mut judge: impl FnMut(&Round) -> Result<(), String>,
) -> Result<(), String> {
    let days = two_days(stage);
    let example = stage.example();
    for i in 0..rounds(stage) {
        let folder = example.folder(stage.folder, "race")?;
        let round = round(stage, words, &folder, &days).map_err(|what| format!("round {i}: {what}"))?;
        judge(&round).map_err(|what| format!("round {i}: {:?}: {what}", round.told))?;
    }
    Ok(())
}

fn two_through_run(stage: &Stage) -> Result<Ending, String> {
    let days = two_days(stage);
    let (mut both, mut late) = (0, 0);
    all_rounds(stage, &stage.programs.through_run(stage.desk.name), |round| {
        round.turned_away().try_for_each(|output| has_status(output, 1))?;
        both += (round.told == [Told::Done, Told::Done]) as usize;
        late += (round.told[0] == Told::Late) as usize;
        is_in_order(stage, round, &days)
    })?;
    let all = rounds(stage);
    let away = all - both - late;
    Ok(Ending::Passed(format!("both kept in {both} of {all}, {late} came late, in {away} one was turned away")))
}

/// Between a clerk's second look at the book and its rename another can rename its own, and have its last look: then
/// both say that they are done, each on the old book, and one day is missing.
fn has_lost_a_day(round: &Round, alone: &[Example; 2]) -> bool {
    round.told == [Told::Done, Told::Done]
        && alone.iter().zip(&round.outputs).all(|(day, output)| output.stdout == day.text.as_bytes())
        && alone.iter().any(|day| day.after == round.book)
}

/// Without the lock a day can be lost in that way, which is counted, and in no other.
fn two_raw(stage: &Stage) -> Result<Ending, String> {
    let days = two_days(stage);
    let alone = [0, 1].map(|i| Example::of(stage.desk, &(stage.desk.example_book)(), days[i].clone()));
    let mut lost = 0;
    all_rounds(stage, &stage.programs.words(stage.desk.name), |round| {
        round.turned_away().try_for_each(|output| says(output, &[&stage.desk.says_of_book(NOT_OURS)]))?;
        if has_lost_a_day(round, &alone) {
            lost += 1;
            return Ok(());
        }
        is_in_order(stage, round, &days)
    })?;
    Ok(Ending::Passed(format!("in {lost} of {} rounds a day was lost", rounds(stage))))
}

/// Said by a clerk that finds another's book, before its rename or after it.
const NOT_OURS: &str = "is not ";
const CHANGED: &str = "is not what this day was judged on: ";

fn second_clerk(stage: &Stage) -> Result<(), String> {
    let example = stage.long_example();
    let folder = example.folder(stage.folder, "second-clerk")?;
    let (first, rest) = example.halves();
    let clerk = Waiting::begin(stage.clerk(&folder), first).map_err(text)?;
    let began = Instant::now();
    let second = run(stage.clerk(&folder), &folder, &two_days(stage)[1], Feed::Pipe).map_err(text)?;
    let took = began.elapsed();
    let output = clerk.go_on(rest).map_err(text)?;
    prints(&second, "")?;
    says(&second, &["another clerk is at work"])?;
    has_status(&second, 1)?;
    if took < Duration::from_secs(4) || took > Duration::from_secs(15) {
        return Err(format!("the second clerk was turned away after {took:?}"));
    }
    example.is_done(&output, &folder)
}

fn changed_meanwhile(stage: &Stage) -> Result<(), String> {
    let example = stage.long_example();
    let folder = example.folder(stage.folder, "changed")?;
    let (first, rest) = example.halves();
    let clerk = Waiting::begin(stage.raw_clerk(&folder), first).map_err(text)?;
    let book = folder.join(stage.desk.file);
    let head = build::head_of(&stage.desk.form.mark, 1, 20240304);
    let other = build::with_totals(head, example.book.len(), &[]);
    fs::write(&book, &other).map_err(text)?;
    let output = clerk.go_on(rest).map_err(text)?;
    says(&output, &[&stage.desk.says_of_book(CHANGED)])?;
    same_file(&book, Some(&other))?;
    nothing_else(&folder, stage.desk)
}
