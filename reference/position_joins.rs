//! Demand 3 for positions: generated years through the clerk of positions as they are and with two groups joined.
use crate::build::Script;
use crate::compare::{At, Bench, Difference};
use crate::desk;
use crate::join::{joined, Given, Join};
use crate::join_years::{joined_logs, keep, through_both, through_replay};
use crate::parallel::in_parallel;
use crate::position_build::PositionLog;
use crate::position_years::PositionYear;
use crate::positions::{self, Sums};
use crate::refusal::Refusal;
use std::sync::Mutex;

/// One year in so many also goes through replay, call by call; rulebooks change from year to year.
const REPLAYED: usize = 3;

/// What came up in the years.
#[derive(Default)]
pub struct PositionSeen {
    pub years: usize,
    pub days: usize,
    /// Findings of the two groups as they were, and of the joined group.
    pub findings: usize,
    pub joined_findings: usize,
    pub with_restriction: usize,
    pub past_third: usize,
    pub days_gained: usize,
    /// Of these, days on which one of the two had one account alone.
    pub gained_by_one: usize,
}

impl PositionSeen {
    fn add(&mut self, year: &PositionYear, join: &Join) {
        let of = |given: &Given, groups: &[u8]| {
            given.days.iter().flatten().filter(|line| groups.contains(&line.finding.group)).count()
        };
        self.years += 1;
        self.days += year.days.len();
        self.findings += of(join.before, &[year.a, year.b]);
        self.joined_findings += of(join.after, &[year.b]);
        self.with_restriction += join.has_restriction() as usize;
        self.past_third += join.is_past_third() as usize;
        for (_, day) in year.days.iter().enumerate().filter(|&(i, _)| join.gained(i)) {
            let size = |group| day.accounts.iter().filter(|account| account.group == group).count();
            self.days_gained += 1;
            self.gained_by_one += (size(year.a) == 1 || size(year.b) == 1) as usize;
        }
    }
}

/// All years, several at a time.
pub fn check_position_years(bench: &Bench, years: &[PositionYear]) -> (PositionSeen, Vec<Difference>) {
    let shared = Mutex::new((PositionSeen::default(), Vec::new()));
    in_parallel(bench.folder, years.len(), |i, scratch| {
        let year = &years[i];
        let at = At { programs: bench.programs, desk: &desk::POSITIONS, scratch };
        let result = check_year(&at, i, year, |join| shared.lock().unwrap().0.add(year, join));
        if let Err(what) = result {
            let logs: Vec<Vec<u8>> = year.days.iter().map(PositionLog::bytes).collect();
            keep(bench, i, &logs, &joined_logs(at.desk, &logs, (year.a, year.b)), &what);
            let name = format!("year {i} of positions, group {} joined to {}", year.a, year.b);
            shared.lock().unwrap().1.push(Difference { case: i, name, what });
        }
    });
    let (seen, mut differences) = shared.into_inner().unwrap();
    differences.sort_by_key(|difference| difference.case);
    (seen, differences)
}

fn check_year(at: &At, i: usize, year: &PositionYear, see: impl Fn(&Join)) -> Result<(), String> {
    let logs: Vec<Vec<u8>> = year.days.iter().map(PositionLog::bytes).collect();
    let dates = year.days.iter().map(|day| day.date).collect();
    let pair = (year.a, year.b);
    logs.iter().try_for_each(|log| sums_add(log, pair))?;
    through_both(at, year.rulebook, &logs, (pair, dates), see)?;
    if i % REPLAYED == 0 {
        through_replay(at, &year_script(year, &logs), &[])?;
        let script = year_script(year, &joined_logs(at.desk, &logs, pair));
        through_replay(at, &script, &[]).map_err(|what| format!("joined: {what}"))?;
    }
    Ok(())
}

/// The joined group's sums are those of the two, on each contract and side; the others' are as they were.
fn sums_add(log: &[u8], (a, b): (u8, u8)) -> Result<(), String> {
    let sums_of = |log: &[u8]| -> Result<Sums, String> {
        let refused = |refusal: Refusal| format!("the reference refuses a log: {refusal:?}");
        positions::read(log).map(|log| log.sums).map_err(refused)
    };
    let mut wanted = sums_of(log)?;
    let moved = std::mem::take(&mut wanted[a as usize]);
    for (sums, more) in wanted[b as usize].iter_mut().zip(moved) {
        (0..2).for_each(|side| sums[side] += more[side]);
    }
    if sums_of(&joined(&desk::POSITIONS, log, (a, b)))? == wanted {
        return Ok(());
    }
    Err(format!("the joined sums of {a} and {b} are not the two added"))
}

/// The year by calls from a fresh book.
fn year_script(year: &PositionYear, logs: &[Vec<u8>]) -> Script {
    let mut script = Script::default();
    script.position_book(desk::POSITIONS.form.length as u32);
    script.position_fresh(year.rulebook as u64);
    script.findings(16_384, 0);
    for log in logs {
        script.judge(log);
        [year.a, year.b].iter().for_each(|&group| script.position_ask([group as u64, 5, 0]));
    }
    script
}
