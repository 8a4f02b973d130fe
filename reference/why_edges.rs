//! The edges of the program why (K5): numbers of records, refusals, ends, cut logs. Where lines stand here, they are
//! the request's own, and not the reference's.
use crate::build::{self, Day};
use crate::cases::{expecting, why, why_printing, Case};
use crate::clerk_edges::{log_bytes, some_feed};
use crate::faults::faults;
use crate::random::Random;
use crate::refusal::Refusal;
use crate::scene::scene;
use crate::why_lines::{day_of, Made};

pub fn why_edges(random: &mut Random) -> Vec<Case> {
    let mut all = Vec::new();
    for version in [1, 2] {
        all.extend(numbers(version));
        all.extend(refused_records(version));
        all.extend(ends(version));
        all.extend(cut_logs(random, version));
        all.extend(long_logs(version));
    }
    all.extend(refused_openings(random));
    all
}

const HEADING: &str = "AXD 20240305 DCE";
/// The second was spared.
const RECORDS: [Made; 2] = [Made::Cancel(101, 11, 1_000, (1, 1)), Made::Trade(101, [12, 13], [(2, 1), (1, 1)])];
const LINES: [&str; 2] = [
    "1. contract 101, account 11, frequent cancels: counts; large cancels: counts",
    "2. contract 101, account 12, self-trade: exempt by instruction; account 13, self-trade: the other order is exempt",
];

fn day(version: u16) -> Day {
    day_of(1, version, &RECORDS)
}

/// Numbers with zeros before them, and numbers that the log has not: then standard error says so.
fn numbers(version: u16) -> Vec<Case> {
    let of = |word: &str, log: &[u8], lines: &[&str]| {
        why_printing(format!("why, number {word}, version {version}"), &[word], log.to_vec(), lines)
    };
    let log = day(version).log();
    let mut all: Vec<Case> = ["1", "01", "000000001"].map(|word| of(word, &log, &[HEADING, LINES[0]])).into();
    all.extend(["2", "02", "000000002"].map(|word| of(word, &log, &[HEADING, LINES[1]])));
    // 2 and 1 when cut to 8, 16 and 24 bits
    let cut = ["258", "65538", "16777218", "257", "65537", "16777217"];
    let none = ["3", "10", "20", "999999999", "003"].into_iter().chain(cut);
    all.extend(none.map(|word| of(word, &log, &[HEADING])));
    let empty = day_of(1, version, &[]).log();
    all.push(of("1", &empty, &[HEADING]));
    all.push(why_printing(format!("why, no record, version {version}"), &[], empty, &[HEADING, "spared 0"]));
    all
}

/// A good and a spared record, and a bad one, after which nothing is looked at: the lines before it stand.
fn refused_records(version: u16) -> Vec<Case> {
    let good = day_of(1, version, &[Made::Cancel(101, 11, 1, (2, 1))]).records[0].0.bytes(version);
    let mut rows = vec![
        ("a record of type 0", 0, 0, "refused 11"),
        ("a record of type 4", 0, 4, "refused 11"),
        ("no lots", 12, 0, "refused 11"),
        ("an instruction 7", 16, 7, "refused 11"),
        ("a cancel's second order", 18, 1, "refused 11"),
        ("contract 103", 2, 103, "refused 12"),
        ("account 14", 4, 14, "refused 13"),
    ];
    if version == 2 {
        rows.extend([("no broker", 20, 0, "refused 11"), ("a cancel's second broker", 22, 1, "refused 11")]);
    }
    let whole = day(version).log();
    let before = &whole[..whole.len() - good.len()];
    let mut all = Vec::new();
    for (what, at, byte, refused) in rows {
        let mut bad = good.clone();
        bad[at] = byte;
        let log = [before, &bad, &good, &build::end_record(version, 4)].concat();
        let of = |words: &[&str], lines: &[&str]| {
            why_printing(format!("why {words:?}, {what} after two, version {version}"), words, log.clone(), lines)
        };
        all.push(of(&[], &[HEADING, LINES[1], refused]));
        all.push(of(&["1"], &[HEADING, LINES[0], refused]));
        all.extend(["3", "4", "5"].map(|word| of(&[word], &[HEADING, refused])));
    }
    all
}

/// The first record of type 3 ends the log, whatever it holds and whatever comes after it.
fn ends(version: u16) -> Vec<Case> {
    let (whole, length) = (day(version).log(), build::record_length(version));
    let (before, end) = whole.split_at(whole.len() - length);
    let filled = [&[3][..], &vec![255; length - 1]].concat();
    let rows = [
        ("another number", build::end_record(version, 7)),
        ("bytes that are not zero", filled),
        ("a byte after it", [end, &[0]].concat()),
        ("a bad record after it", [end, &vec![9; length]].concat()),
        ("a second end", end.repeat(2)),
        ("the log again", [end, &whole].concat()),
    ];
    let of = |(what, tail): (&str, Vec<u8>)| {
        let (name, log) = (format!("why, an end with {what}, version {version}"), [before, &tail].concat());
        let all = why_printing(&name, &[], log.clone(), &[HEADING, LINES[1], "spared 1"]);
        [all, why_printing(format!("{name}, a third record"), &["3"], log, &[HEADING])]
    };
    rows.into_iter().flat_map(of).collect()
}

/// A short log cut at every byte: all that come before its end are 1, after the lines of the whole records.
fn cut_logs(random: &mut Random, version: u16) -> Vec<Case> {
    let (whole, length) = (day(version).log(), build::record_length(version));
    let records = whole.len() - 3 * length;
    let case = |at: usize| {
        let mut lines = vec![HEADING, LINES[1], if at < whole.len() { "refused 1" } else { "spared 1" }];
        if at < records + 2 * length {
            lines.remove(1);
        }
        if at < records {
            lines.remove(0);
        }
        let words: &[&str] = if random.one_in(4) { &["2"] } else { &[] };
        let lines = if words.is_empty() || at < whole.len() { &lines[..] } else { &lines[..2] };
        why_printing(format!("why {words:?}, version {version} cut to {at}"), words, whole[..at].to_vec(), lines)
    };
    (0..=whole.len()).map(case).collect()
}

/// Ends, cuts and bad records around the end of a piece, where programs read 65,520 bytes.
fn long_logs(version: u16) -> Vec<Case> {
    let length = build::record_length(version);
    let mut all = Vec::new();
    for more in [65_520 / length - 1, 65_520 / length, 65_520 / length + 1] {
        let mut day = day(version);
        day.records[0].1 = more as u32;
        let log = day.log();
        let line = LINES[1].replacen('2', &(more + 1).to_string(), 1);
        let name = format!("why, {} records of version {version}", more + 1);
        all.push(why_printing(&name, &[], log.clone(), &[HEADING, &line, "spared 1"]));
        all.push(why_printing(&name, &[&(more + 1).to_string()], log.clone(), &[HEADING, &line]));
        let cut = log[..log.len() - length - 1].to_vec();
        all.push(why_printing(format!("{name}, cut"), &[], cut, &[HEADING, "refused 1"]));
    }
    all
}

/// The faults that opening can find without a book of another's. A log whose tables have another length is read on, so
/// that its number hangs on what comes then.
fn refused_openings(random: &mut Random) -> Vec<Case> {
    let never = [Refusal::DayState, Refusal::Book, Refusal::OtherRulebook, Refusal::NotLater, Refusal::Counts];
    let mut all = Vec::new();
    for fault in faults("open").iter().filter(|fault| !never.contains(&fault.refusal)) {
        let mut scene = scene(random, "open");
        (fault.make)(&mut scene);
        let words: &[&str] = if random.one_in(4) { &["1"] } else { &[] };
        let case = why(format!("why, {:?}", fault.refusal), words, log_bytes(&scene, 5), some_feed(random));
        let is_sure = ![Refusal::Short, Refusal::Length].contains(&fault.refusal);
        all.push(if is_sure { expecting(case, vec![fault.refusal.number()]) } else { case });
    }
    all
}
