//! Random cases of positions: runs of days by calls and through the clerk of positions, scenes with several faults,
//! damaged input, and days of the other desk between.
use crate::build::Script;
use crate::cases::{position_clerk, replay, BookFile, Case};
use crate::days::{any_date, some_day};
use crate::generate::{damage, feed_for, next_date, start_of_book};
use crate::position_build::PositionLog;
use crate::position_days::{some_position_book, some_position_totals, some_positions};
use crate::position_faults::position_faults;
use crate::position_scene::{position_scene, POSITION_CALLS};
use crate::random::Random;

/// Case number i of a seed.
pub fn random_position_case(random: &mut Random, i: usize) -> Case {
    match i % 8 {
        0 | 1 => replay(format!("random positions {i}: days by calls"), days_by_calls(random)),
        2 => replay(format!("random positions {i}: days with disturbances"), disturbed_days(random)),
        3 => replay(format!("random positions {i}: scenes"), random_scenes(random)),
        4 => replay(format!("random positions {i}: a damaged script"), damaged_script(random)),
        5 => clerk_days(random, i),
        6 => damaged_log(random, i),
        _ => damaged_book(random, i),
    }
}

fn ask_around(random: &mut Random, script: &mut Script, log: &PositionLog) {
    for _ in 0..random.within(0, 2) {
        let group = log.accounts[random.below(log.accounts.len())].group as u64;
        script.position_ask([group, random.pick(&[5, 5, 5, 5, 1, 4, 6]), random.pick(&[0, 0, 1, 2, 15, 16])]);
    }
}

/// A run of days over one book, with questions between.
fn days_by_calls(random: &mut Random) -> Script {
    let mut script = Script::default();
    let (rulebook, mut last_date) = start_of_book(random);
    let totals = some_position_totals(random, rulebook, last_date);
    script.position_start(rulebook, last_date, &totals);
    script.findings(random.pick(&[64, 800, 16_384]), random.next() as u8);
    for _ in 0..random.within(1, 3) {
        last_date = next_date(random, last_date);
        let log = some_positions(random, rulebook, last_date);
        script.judge(&log.bytes());
        ask_around(random, &mut script, &log);
    }
    script
}

/// The same with something out of place between the calls.
fn disturbed_days(random: &mut Random) -> Script {
    let mut script = Script::default();
    let (rulebook, mut last_date) = start_of_book(random);
    let totals = some_position_totals(random, rulebook, last_date);
    script.position_start(rulebook, last_date, &totals);
    script.findings(800, 0);
    for _ in 0..random.within(1, 3) {
        let date = if random.one_in(6) { any_date(random) } else { next_date(random, last_date) };
        let log = some_positions(random, rulebook, date);
        disturb(random, &mut script, &log);
        script.judge(&log.bytes());
        ask_around(random, &mut script, &log);
        last_date = last_date.max(date);
    }
    script
}

fn disturb(random: &mut Random, script: &mut Script, log: &PositionLog) {
    match random.below(12) {
        0 => script.judge(&damage(random, log.bytes())),
        1 => script.position_fresh(random.below(4) as u64),
        2 => script.position_bytes(random.below(4_112) as u32, &[random.pick(&[0, 1, 255])]),
        3 => script.findings(random.pick(&[0, 7, 8, 15, 16, 80]), 1),
        4 => script.judge(&PositionLog { rulebook: 3 - log.rulebook, ..log.clone() }.bytes()),
        5 => script.position_book(random.pick(&[0, 4_111, 4_112, 4_113, 8_000])),
        6 => script.open(),
        7 => script.fresh(random.below(4) as u64),
        8 | 9 => {
            // a day of the other desk, over a book and counts of its own
            script.book(12_304);
            script.fresh(log.rulebook as u64);
            script.counts(12_288, 0);
            script.day(&some_day(random, log.rulebook, log.date, 600));
        }
        _ => {}
    }
}

/// Scenes with no fault to three, of any call.
fn random_scenes(random: &mut Random) -> Script {
    let mut script = Script::default();
    for _ in 0..random.within(1, 8) {
        let call = random.pick(&POSITION_CALLS);
        let faults = position_faults(call);
        let mut chosen: Vec<usize> = (0..random.below(4)).map(|_| random.below(faults.len())).collect();
        // later faults first: an earlier one may cut off what they stand in
        chosen.sort_by(|a, b| b.cmp(a));
        let rulebook = random.within(1, 2) as u8;
        let mut scene = position_scene(random, rulebook);
        chosen.iter().for_each(|&i| (faults[i].make)(&mut scene));
        scene.call(call, &mut script);
    }
    script
}

fn damaged_script(random: &mut Random) -> Script {
    let mut script = match random.below(3) {
        0 => days_by_calls(random),
        1 => disturbed_days(random),
        _ => random_scenes(random),
    };
    for _ in 0..random.within(1, 2) {
        script.0 = damage(random, script.0);
    }
    script
}

/// A run of days through the clerk over one book file.
fn clerk_days(random: &mut Random, i: usize) -> Case {
    let (rulebook, mut last_date) = start_of_book(random);
    let book = some_position_book(random, rulebook, last_date);
    let mut logs = Vec::new();
    for _ in 0..random.within(1, 4) {
        last_date = next_date(random, last_date);
        let log = some_positions(random, rulebook, last_date).bytes();
        let feed = feed_for(random, &log);
        logs.push((log, feed));
    }
    position_clerk(format!("random positions {i}: days through the clerk"), BookFile::Bytes(book), logs)
}

fn damaged_log(random: &mut Random, i: usize) -> Case {
    let (rulebook, last_date) = start_of_book(random);
    let book = some_position_book(random, rulebook, last_date);
    let date = next_date(random, last_date);
    let log = some_positions(random, rulebook, date);
    let log = damage(random, log.bytes());
    let feed = feed_for(random, &log);
    position_clerk(format!("random positions {i}: a damaged log"), BookFile::Bytes(book), vec![(log, feed)])
}

fn damaged_book(random: &mut Random, i: usize) -> Case {
    let (rulebook, last_date) = start_of_book(random);
    let mut book = some_position_book(random, rulebook, last_date);
    for _ in 0..random.below(3) {
        book = damage(random, book);
    }
    let other = random.pick(&[rulebook, rulebook, rulebook, 3 - rulebook]);
    let date = if random.one_in(4) { any_date(random) } else { next_date(random, last_date) };
    let log = some_positions(random, other, date).bytes();
    let feed = feed_for(random, &log);
    position_clerk(format!("random positions {i}: a damaged book"), BookFile::Bytes(book), vec![(log, feed)])
}
