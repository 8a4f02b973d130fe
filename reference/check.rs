//! The whole check: cases and joined years of a fixed and of a fresh seed, the large logs, and what is around a day, at
//! either desk.
use crate::both_desks::both_desks;
use crate::broker_edges::broker_edges;
use crate::build::Day;
use crate::cases::{Case, Input};
use crate::clause_edges::clause_edges;
use crate::clerk_edges::{clerk_edges, example_day, WORKED_EXAMPLE_TEXT};
use crate::compare::{compare_all, Bench, Difference};
use crate::desk;
use crate::edges::edges;
use crate::ending::Ending;
use crate::failing::failing;
use crate::generate::random_case;
use crate::installed::installed;
use crate::join_years::{check_years, Seen};
use crate::large::large_cases;
use crate::newbook::{newbook, wrong_words};
use crate::position_clerk_edges::position_clerk_edges;
use crate::position_edges::position_edges;
use crate::position_examples::{self, LADDER};
use crate::position_generate::random_position_case;
use crate::position_joins::{check_position_years, PositionSeen};
use crate::position_lines::position_lines;
use crate::position_years::{some_position_year, PositionYear};
use crate::races::races;
use crate::random::Random;
use crate::run::Programs;
use crate::script_edges::script_edges;
use crate::sheet::sheet;
use crate::sheet_edges::sheet_edges;
use crate::signals::signals;
use crate::stage::Stage;
use crate::starting::{starting, starting_a_clerk};
use crate::system_faults::system_faults;
use crate::unusable::{replay_streams, unusable};
use crate::why_edges::why_edges;
use crate::why_generate::random_why_case;
use crate::why_lines::why_lines;
use crate::why_streams::why_streams;
use crate::years::{some_year, Year};
use std::fmt::Display;
use std::path::Path;
use std::process::ExitCode;

const RANDOM_CASES: usize = 3_000;
const RANDOM_POSITION_CASES: usize = 640;
const RANDOM_WHY_CASES: usize = 480;
const YEARS: usize = 64;
const POSITION_YEARS: usize = 24;
const SHOWN: usize = 5;

#[derive(Default)]
struct Score {
    passed: usize,
    failed: usize,
}

impl Score {
    fn add(&mut self, passed: usize, failed: usize) {
        self.passed += passed;
        self.failed += failed;
    }
}

/// Edges, then random cases, each from its own numbers of the seed.
fn cases_of(seed: u64) -> Vec<Case> {
    let mut all = edges(&mut Random::of_case(seed, 1));
    all.extend(broker_edges(&mut Random::of_case(seed, 4)));
    all.extend(sheet_edges());
    all.extend(clause_edges());
    all.extend(script_edges());
    all.extend(clerk_edges(&mut Random::of_case(seed, 2)));
    all.extend((0..RANDOM_CASES).map(|i| random_case(&mut Random::of_case(seed, 1_000 + i as u64), i)));
    all.extend(position_edges(&mut Random::of_case(seed, 5)));
    all.extend(position_lines());
    all.extend(position_clerk_edges(&mut Random::of_case(seed, 6)));
    let random_positions = |i| random_position_case(&mut Random::of_case(seed, 50_000 + i as u64), i);
    all.extend((0..RANDOM_POSITION_CASES).map(random_positions));
    all.extend(why_lines());
    all.extend(why_edges(&mut Random::of_case(seed, 7)));
    all.extend((0..RANDOM_WHY_CASES).map(|i| random_why_case(&mut Random::of_case(seed, 60_000 + i as u64), i)));
    all
}

fn show(differences: &[Difference], folder: &Path, label: &str) {
    for difference in differences.iter().take(SHOWN) {
        println!("DIFFERS: {}: {}", difference.name, difference.what);
        println!("         kept in {}/differs-{label}-{}", folder.display(), difference.case);
    }
    if differences.len() > SHOWN {
        println!("and {} more", differences.len() - SHOWN);
    }
}

fn run_seed(label: &str, seed: u64, programs: &Programs, folder: &Path, score: &mut Score) {
    let mut cases = cases_of(seed);
    if label == "fixed" {
        cases.extend(large_cases(&mut Random::of_case(seed, 3)));
    }
    let replays = cases.iter().filter(|case| matches!(case.input, Input::Replay(_))).count();
    let whys = cases.iter().filter(|case| matches!(case.input, Input::Why { .. })).count();
    let clerks = cases.len() - replays - whys;
    let (tally, differences) = compare_all(&Bench { programs, folder, label }, &cases);
    println!("\n{label} seed {seed}: {replays} cases of replay, {clerks} of the two clerks, {whys} of why");
    let (reached, missed) = tally.print(label == "fixed");
    println!("{} cases differ", differences.len());
    show(&differences, folder, label);
    score.add(cases.len() - differences.len(), differences.len());
    score.add(reached, missed);
}

/// Demand 3: each year is a case, and so is each thing that must come up in some year.
fn run_joins(seed: u64, bench: &Bench, score: &mut Score) {
    let years: Vec<Year> = (0..YEARS).map(|i| some_year(&mut Random::of_case(seed, 100_000 + i as u64), i)).collect();
    let (seen, differences) = check_years(bench, &years);
    println!("\n{} seed {seed}: two groups joined in {} years", bench.label, years.len());
    print_seen(&seen);
    println!("{} years differ", differences.len());
    show(&differences, bench.folder, bench.label);
    score.add(years.len() - differences.len(), differences.len());
    let needed = [
        ("a restriction of either group", seen.with_restriction),
        ("a joined total past 3", seen.past_third),
        ("an offence gained by the join", seen.days_gained),
        ("a trade between the two groups that counts", seen.between),
        ("a trade between the two groups that is exempt", seen.exempt_between),
        ("a market maker's cancel in futures of rulebook 1", seen.made_in_futures),
        ("a market maker's cancel in options of rulebook 1", seen.made_in_options),
        ("a restriction lost by counting sanction 3 alone", seen.lost.len()),
        ("a day of version 1", seen.days - seen.days_of_version_2),
        ("a day of version 2", seen.days_of_version_2),
    ];
    check_seen(&needed, score);
}

fn check_seen(needed: &[(&str, usize)], score: &mut Score) {
    for &(what, times) in needed {
        if times == 0 {
            println!("NEVER SEEN: {what}");
        }
        score.add((times > 0) as usize, (times == 0) as usize);
    }
}

/// The same for positions.
fn run_position_joins(seed: u64, bench: &Bench, score: &mut Score) {
    let year = |i| some_position_year(&mut Random::of_case(seed, 200_000 + i as u64), i);
    let years: Vec<PositionYear> = (0..POSITION_YEARS).map(year).collect();
    let (seen, differences) = check_position_years(bench, &years);
    println!("\n{} seed {seed}: two groups joined in {} years of positions", bench.label, years.len());
    print_position_seen(&seen);
    println!("{} years differ", differences.len());
    show(&differences, bench.folder, bench.label);
    score.add(years.len() - differences.len(), differences.len());
    let needed = [
        ("a restriction of either group", seen.with_restriction),
        ("a joined total past 3", seen.past_third),
        ("an offence gained by the join", seen.days_gained),
        ("an offence gained by a group of one account", seen.gained_by_one),
    ];
    check_seen(&needed, score);
}

fn print_position_seen(seen: &PositionSeen) {
    println!("{} years passed, of {} days", seen.years, seen.days);
    println!("{} findings of the two groups, {} of the joined group", seen.findings, seen.joined_findings);
    println!(
        "{} years with restrictions of either, {} with a joined total past 3",
        seen.with_restriction, seen.past_third
    );
    println!("{} days gained an offence by the join, {} by a group of one", seen.days_gained, seen.gained_by_one);
}

fn print_seen(seen: &Seen) {
    println!("{} years passed, of {} days, {} in version 2", seen.years, seen.days, seen.days_of_version_2);
    println!("{} of the years by calls too, and with every day in the other version", seen.replayed);
    println!("{} findings of the two groups, {} of the joined group", seen.findings, seen.joined_findings);
    println!(
        "{} years with restrictions of either, {} with a joined total past 3",
        seen.with_restriction, seen.past_third
    );
    println!("{} trades between the two count when joined, {} are exempt", seen.between, seen.exempt_between);
    println!("{} market making cancels in DCE futures, {} in options", seen.made_in_futures, seen.made_in_options);
    println!("{} days gained an offence by the join", seen.days_gained);
    println!("{} years would lose a restriction if sanction 3 alone were one", seen.lost.len());
    if let Some((i, example)) = seen.lost.first() {
        println!("  as year {i}, {example}");
    }
}

/// The reference against document 01's own example, in either version, and against a ladder of positions by document
/// 02, day after day.
fn check_worked_examples(score: &mut Score) {
    let mut is_right = |what: String, text: &str, wanted: &str| {
        if text != wanted {
            println!("{what} gives {text:?}");
        }
        score.add((text == wanted) as usize, (text != wanted) as usize);
    };
    for version in [1, 2] {
        let log = Day { version, ..example_day() }.log();
        let text = desk::DAYS.on(Some(&(desk::DAYS.example_book)()), &log).text;
        is_right(format!("the worked example in version {version}"), &text, WORKED_EXAMPLE_TEXT);
    }
    let mut book = desk::POSITIONS.form.fresh(1);
    for (date, wanted) in LADDER {
        let outcome = desk::POSITIONS.on(Some(&book), &position_examples::example_log(date));
        is_right(format!("the example of positions on {date}"), &outcome.text, wanted);
        book = outcome.book.unwrap_or(book);
    }
}

/// A case that is left out counts neither way.
fn check_each(title: &str, results: Vec<(impl Display, impl Into<Ending>)>, score: &mut Score) {
    println!("\n{title}");
    for (name, ending) in results {
        let (word, passed, failed, what) = match ending.into() {
            Ending::Passed(what) => ("ok", 1, 0, what),
            Ending::Failed(what) => ("FAILED", 0, 1, what),
            Ending::LeftOut(why) => ("left out", 0, 0, why),
        };
        let colon = if what.is_empty() { "" } else { ": " };
        println!("{word:8}  {name}{colon}{what}");
        score.add(passed, failed);
    }
}

/// What is around a day at a desk: the files, the streams, other clerks, how the clerk is started, the system.
fn check_around(stage: &Stage, score: &mut Score) {
    let mut check = |title: &str, results| check_each(&format!("{title}, {}", stage.desk.name), results, score);
    check("the write-back made to fail", failing(stage));
    check("a fresh book by newbook", newbook(stage));
    check("books and streams that cannot be used", unusable(stage));
    check("two clerks at once", races(stage));
    check("bin/run", starting_a_clerk(stage));
    check("signals to bin/run", signals(stage));
    check("faults of the system", system_faults(stage));
}

/// What is of no desk, or of both.
fn check_the_rest(stage: &Stage, score: &mut Score) {
    check_each("newbook with other words", wrong_words(stage), score);
    check_each("both desks in one folder", both_desks(stage), score);
    check_each("the exemptions as a sheet", sheet(stage), score);
    check_each("streams that cannot be used", replay_streams(stage), score);
    check_each("why with other words and streams", why_streams(stage), score);
    check_each("bin/run", starting(stage), score);
    check_each("installed", installed(stage), score);
}

pub fn check(seeds: [&str; 2], root: &Path, before: &[&str]) -> ExitCode {
    let [Ok(fixed), Ok(fresh)] = seeds.map(str::parse::<u64>) else {
        eprintln!("a seed is a number");
        return ExitCode::FAILURE;
    };
    let programs = Programs::of(root, before);
    let folder = &root.join("target/reference");
    let mut score = Score::default();
    check_worked_examples(&mut score);
    run_seed("fixed", fixed, &programs, folder, &mut score);
    run_seed("fresh", fresh, &programs, folder, &mut score);
    for (label, seed) in [("join-fixed", fixed), ("join-fresh", fresh)] {
        run_joins(seed, &Bench { programs: &programs, folder, label }, &mut score);
    }
    for (label, seed) in [("position-join-fixed", fixed), ("position-join-fresh", fresh)] {
        run_position_joins(seed, &Bench { programs: &programs, folder, label }, &mut score);
    }
    let stage_of = |desk| Stage { root, programs: &programs, folder, desk };
    check_around(&stage_of(&desk::DAYS), &mut score);
    check_around(&stage_of(&desk::POSITIONS), &mut score);
    check_the_rest(&stage_of(&desk::DAYS), &mut score);
    println!("\nthe fresh seed again: reference/check {fresh}");
    println!("{} passed, {} failed", score.passed, score.failed);
    if score.failed == 0 {
        ExitCode::SUCCESS
    } else {
        ExitCode::FAILURE
    }
}
