//! Runs generated years twice through the programs, as they are and with two groups joined, and judges what they gave.
use crate::build::{Day, Record, Script};
use crate::calls::{Finding, CELLS};
use crate::cases::Feed;
use crate::compare::{shortened, At, Bench, Difference};
use crate::desk::{self, Desk};
use crate::join::{cells, joined, joined_cells, trades_between, Given, Join, Line};
use crate::parallel::in_parallel;
use crate::replay;
use crate::run::{command, run};
use crate::years::Year;
use std::fs;
use std::sync::Mutex;

/// One year in so many also goes through replay, call by call, and again with each day in the other version; rulebooks
/// change from year to year.
const REPLAYED: usize = 3;
const FINDINGS: u32 = 49_152;

/// What came up in the years.
#[derive(Default)]
pub struct Seen {
    pub years: usize,
    pub days: usize,
    pub days_of_version_2: usize,
    pub replayed: usize,
    /// Findings of the two groups as they were, and of the joined group.
    pub findings: usize,
    pub joined_findings: usize,
    pub with_restriction: usize,
    pub past_third: usize,
    pub days_gained: usize,
    /// Trades between the two groups that are self-trades when they are joined, and those that are exempt.
    pub between: usize,
    pub exempt_between: usize,
    /// Cancels of market making in rulebook 1: in futures, where they count for kind 2, and in options.
    pub made_in_futures: usize,
    pub made_in_options: usize,
    pub lost: Vec<(usize, String)>,
}

impl Seen {
    fn add(&mut self, i: usize, year: &Year, join: &Join) {
        let Year { a, b, ref days, .. } = *year;
        let of = |given: &Given, groups: &[u8]| {
            given.days.iter().flatten().filter(|line| groups.contains(&line.finding.group)).count()
        };
        self.years += 1;
        self.days += days.len();
        self.days_of_version_2 += days.iter().filter(|day| day.version == 2).count();
        self.replayed += is_replayed(i) as usize;
        self.findings += of(join.before, &[a, b]);
        self.joined_findings += of(join.after, &[b]);
        self.with_restriction += join.has_restriction() as usize;
        self.past_third += join.is_past_third() as usize;
        self.days_gained += (0..days.len()).filter(|&day| join.gained(day)).count();
        for day in days {
            let [counted, exempt] = trades_between(year, day).map(|by_place| by_place.iter().sum::<u32>() as usize);
            self.between += counted;
            self.exempt_between += exempt;
            let [futures, options] = made_in(day);
            self.made_in_futures += futures;
            self.made_in_options += options;
        }
        self.lost.extend(join.lost_by_sanction_3().map(|example| (i, example)));
    }
}

/// Cancels of market making in futures and in options of rulebook 1.
fn made_in(day: &Day) -> [usize; 2] {
    let type_of = |id| day.contracts.iter().find(|contract| contract.id == id).map(|contract| contract.contract_type);
    let mut made = [0; 2];
    for (record, times) in day.records.iter().filter(|_| day.rulebook == 1) {
        if let Record::Cancel { contract, order: (1, 4, _), .. } = record {
            made[(type_of(*contract) == Some(2)) as usize] += *times as usize;
        }
    }
    made
}

/// All years, several at a time.
pub fn check_years(bench: &Bench, years: &[Year]) -> (Seen, Vec<Difference>) {
    let shared = Mutex::new((Seen::default(), Vec::new()));
    in_parallel(bench.folder, years.len(), |i, scratch| {
        let year = &years[i];
        let at = At { programs: bench.programs, desk: &desk::DAYS, scratch };
        let result = check_year(&at, i, year, |join| shared.lock().unwrap().0.add(i, year, join));
        if let Err(what) = result {
            let logs: Vec<Vec<u8>> = year.days.iter().map(Day::log).collect();
            keep(bench, i, &logs, &joined_logs(at.desk, &logs, (year.a, year.b)), &what);
            let name = format!("year {i}, group {} joined to {}", year.a, year.b);
            shared.lock().unwrap().1.push(Difference { case: i, name, what });
        }
    });
    let (mut seen, mut differences) = shared.into_inner().unwrap();
    seen.lost.sort();
    differences.sort_by_key(|difference| difference.case);
    (seen, differences)
}

fn is_replayed(i: usize) -> bool {
    i % REPLAYED == 0
}

pub fn joined_logs(desk: &Desk, logs: &[Vec<u8>], pair: (u8, u8)) -> Vec<Vec<u8>> {
    logs.iter().map(|log| joined(desk, log, pair)).collect()
}

/// A failed year's logs, as they are and joined.
pub fn keep(bench: &Bench, i: usize, logs: &[Vec<u8>], joined: &[Vec<u8>], what: &str) {
    let folder = bench.folder.join(format!("differs-{}-{i}", bench.label));
    let written = fs::create_dir_all(&folder).and_then(|()| {
        fs::write(folder.join("what"), format!("{what}\n"))?;
        logs.iter().zip(joined).enumerate().try_for_each(|(k, (log, joined))| {
            fs::write(folder.join(format!("log-{k}")), log)?;
            fs::write(folder.join(format!("joined-{k}")), joined)
        })
    });
    if let Err(error) = written {
        eprintln!("a failed year could not be kept: {error}");
    }
}

/// The year through the clerk twice; then the counts, the join's promises, the reference's answers.
fn check_year(at: &At, i: usize, year: &Year, see: impl Fn(&Join)) -> Result<(), String> {
    let logs: Vec<Vec<u8>> = year.days.iter().map(Day::log).collect();
    let dates = year.days.iter().map(|day| day.date).collect();
    let pair = (year.a, year.b);
    let before = through_both(at, year.rulebook, &logs, (pair, dates), see)?;
    let counts = check_cells(year)?;
    if is_replayed(i) {
        let ends = through_replay(at, &year_script(year, Day::tables), &counts.0)?;
        let script = year_script(year, |day| joined(at.desk, &day.tables(), pair));
        through_replay(at, &script, &counts.1).map_err(|what| format!("joined: {what}"))?;
        in_other_versions(at, year, &before, &ends).map_err(|what| format!("other versions: {what}"))?;
    }
    Ok(())
}

/// The logs through the desk's clerk as they are and joined, with the join's promises and the reference's answers.
pub fn through_both(
    at: &At,
    rulebook: u8,
    logs: &[Vec<u8>],
    (pair, dates): ((u8, u8), Vec<u32>),
    see: impl Fn(&Join),
) -> Result<ThroughClerk, String> {
    let when_joined = |what| format!("joined: {what}");
    let joined_logs = joined_logs(at.desk, logs, pair);
    let before = through_clerk(at, rulebook, logs)?;
    let after = through_clerk(at, rulebook, &joined_logs).map_err(when_joined)?;
    let join = Join { pair, dates, before: &before.given, after: &after.given };
    join.check()?;
    as_the_reference(&before, rulebook, logs)?;
    as_the_reference(&after, rulebook, &joined_logs).map_err(when_joined)?;
    see(&join);
    Ok(before)
}

/// Brokers change nothing: each day in the other version gives the same text and book by the clerk, and by calls the
/// same number of findings and the same bytes of book, counts and findings.
fn in_other_versions(at: &At, year: &Year, before: &ThroughClerk, ends: &[String]) -> Result<(), String> {
    let other = |day: &Day| Day { version: 3 - day.version, ..day.clone() };
    let year = Year { days: year.days.iter().map(other).collect(), ..*year };
    let logs: Vec<Vec<u8>> = year.days.iter().map(Day::log).collect();
    let after = through_clerk(at, year.rulebook, &logs)?;
    if after.texts != before.texts || after.books != before.books {
        return Err("the clerk gives other findings or books".to_string());
    }
    if through_replay(at, &year_script(&year, Day::tables), &[])? != ends {
        return Err("replay gives other lines at the ends of days".to_string());
    }
    Ok(())
}

/// What the clerk gave for a year, with its texts and the book after each day.
pub struct ThroughClerk {
    given: Given,
    texts: Vec<String>,
    books: Vec<Vec<u8>>,
}

/// A fresh book by newbook, then a log after the other by the clerk. Each must be accepted.
fn through_clerk(at: &At, rulebook: u8, logs: &[Vec<u8>]) -> Result<ThroughClerk, String> {
    let _ = fs::remove_dir_all(at.scratch);
    fs::create_dir_all(at.scratch).map_err(|e| e.to_string())?;
    let mut words = at.programs.words("newbook");
    words.extend(at.desk.newbook_words(rulebook));
    run(command(&words, at.scratch), at.scratch, &[], Feed::Pipe).map_err(|e| e.to_string())?;
    let (mut days, mut texts, mut books) = (Vec::new(), Vec::new(), Vec::new());
    for (k, log) in logs.iter().enumerate() {
        let feed = [Feed::Pipe, Feed::File, Feed::Uneven][k % 3];
        let text = at.run(log, feed).map_err(|what| format!("day {k}: {what}"))?;
        let lines = read_lines(at.desk, &text).ok_or_else(|| format!("day {k} gives {:?}", shortened(&text)))?;
        days.push(lines);
        texts.push(text);
        books.push(fs::read(at.book()).map_err(|e| e.to_string())?);
    }
    let is_whole = |book: &Vec<u8>| book.len() == at.desk.form.length;
    let book = books.last().cloned().filter(is_whole).ok_or("the book has another length")?;
    Ok(ThroughClerk { given: Given { desk: at.desk, days, book }, texts, books })
}

/// The findings of an accepted day's text; nothing where it is refused or has another form.
fn read_lines(desk: &Desk, text: &str) -> Option<Vec<Line>> {
    let lines: Vec<&str> = text.lines().collect();
    let [head, findings @ .., last] = &lines[..] else { return None };
    let is_whole = head.starts_with(desk.mark) && *last == format!("findings {}", findings.len());
    let found: Option<Vec<Line>> = findings.iter().map(|line| read_line(line)).collect();
    found.filter(|_| is_whole)
}

/// Group, kind, family, total, sanction, contract.
fn read_line(text: &str) -> Option<Line> {
    let numbers: Vec<u16> = text.split(' ').map(str::parse).collect::<Result<_, _>>().ok()?;
    let [group, kind, family, total, sanction, contract] = numbers[..] else { return None };
    let [group, kind, family, sanction] = [group, kind, family, sanction].map(|n| u8::try_from(n).unwrap_or(0));
    Some(Line { text: text.to_string(), finding: Finding { group, kind, family, sanction, total, contract } })
}

/// Each day's counts, as they are and joined. The joined ones are those that the join makes of the others.
fn check_cells(year: &Year) -> Result<(Vec<Vec<u32>>, Vec<Vec<u32>>), String> {
    let mut all = (Vec::new(), Vec::new());
    for day in &year.days {
        let refused = |refusal| format!("{}: the reference refuses: {refusal:?}", day.date);
        let before = cells(day, &day.tables()).map_err(refused)?;
        let after = cells(day, &joined(&desk::DAYS, &day.tables(), (year.a, year.b))).map_err(refused)?;
        let wanted = joined_cells(year, day, before.clone());
        if let Some(i) = (0..CELLS).find(|&i| after[i] != wanted[i]) {
            return Err(format!("{}: count {i} is {} when joined and should be {}", day.date, after[i], wanted[i]));
        }
        all.0.push(before);
        all.1.push(wanted);
    }
    Ok(all)
}

fn as_the_reference(year: &ThroughClerk, rulebook: u8, logs: &[Vec<u8>]) -> Result<(), String> {
    let desk = year.given.desk;
    let mut book = desk.form.fresh(rulebook);
    for (k, log) in logs.iter().enumerate() {
        let expected = desk.on(Some(&book), log);
        let given = &year.texts[k];
        if *given != expected.text {
            return Err(format!("day {k}: reference {:?}, program {:?}", shortened(&expected.text), shortened(given)));
        }
        book = expected.book.ok_or_else(|| format!("day {k}: the reference refuses"))?;
        if year.books[k] != book {
            return Err(format!("day {k}: the book differs"));
        }
    }
    Ok(())
}

/// The year by calls from a fresh book, over tables as given.
fn year_script(year: &Year, tables: impl Fn(&Day) -> Vec<u8>) -> Script {
    let mut script = Script::default();
    script.book(desk::DAYS.form.length as u32);
    script.fresh(year.rulebook as u64);
    script.counts(CELLS as u32, 0);
    script.findings(FINDINGS, 0);
    for day in &year.days {
        script.tables(&tables(day));
        script.open();
        for (record, times) in &day.records {
            let bytes = record.bytes(day.version);
            if *times == 1 {
                script.take(&bytes);
            } else {
                script.take_often(*times, &bytes);
            }
        }
        script.end(&day.end());
    }
    script
}

/// Replay answers as the reference does; and at each day's end the counts are those given. Its lines at the ends.
pub fn through_replay(at: &At, script: &Script, counts: &[Vec<u32>]) -> Result<Vec<String>, String> {
    let words = at.programs.words("replay");
    let output = run(command(&words, at.scratch), at.scratch, &script.0, Feed::Pipe).map_err(|e| e.to_string())?;
    let text = String::from_utf8_lossy(&output.stdout);
    let ends: Vec<String> = text.lines().filter(|line| line.starts_with("e ")).map(String::from).collect();
    for (k, cells) in counts.iter().enumerate() {
        let line = ends.get(k).map_or("no line", String::as_str);
        let sum = replay::counts_checksum(cells).to_string();
        // e, 0, closed, then the checksums of book, counts and findings
        if !line.starts_with("e 0 closed ") || line.split(' ').nth(4) != Some(&sum) {
            return Err(format!("replay, end of day {k}: {line:?}, and the counts' checksum should be {sum}"));
        }
    }
    if text != replay::replay(&script.0).text || !output.status.success() {
        return Err(format!("replay differs from the reference; {}", output.status));
    }
    Ok(ends)
}
