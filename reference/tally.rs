//! Which refusals of which call were reached, in how many cases and how often, and which clauses.
use crate::desk;
use crate::edges::CALLS;
use crate::position_scene::POSITION_CALLS;
use crate::refusal::{order, Refusal};
use crate::replay::after_checksums;
use crate::rules::KINDS;
use std::collections::{BTreeMap, BTreeSet};

#[derive(Default)]
pub struct Tally {
    /// By call and label: cases and times.
    calls: BTreeMap<(String, String), (usize, usize)>,
    this_case: BTreeSet<(String, String)>,
}

/// A call, a number and a note.
type Stopped = (&'static str, u8, &'static str);

/// What a run of a program over a day log can stop at, from opening it to a record: 10, 16 and 19 cannot come up, as
/// its buffers are its own.
fn day_stops(own: &[Refusal]) -> Vec<Stopped> {
    let mut all = vec![("accepted", 0, " (version 1)"), ("accepted", 0, " (version 2)")];
    all.extend(order("open").iter().filter(|r| !own.contains(r)).map(|r| ("open", r.number(), r.note())));
    all.extend(with_brokers("take", &[11, 12, 13, 14]));
    all.extend([" (cut-off record)", " (no end record)"].map(|note| ("log", 1, note)));
    all
}

fn with_brokers(call: &'static str, numbers: &[u8]) -> Vec<Stopped> {
    let brokers = (call, Refusal::Brokers.number(), Refusal::Brokers.note());
    numbers.iter().map(|&number| (call, number, "")).chain([brokers]).collect()
}

/// 20 cannot come up either.
fn clerk_stops() -> Vec<Stopped> {
    let mut all = day_stops(&[Refusal::DayState, Refusal::Counts]);
    all.extend(with_brokers("end", &[11, 15]));
    all.push(("log", 1, " (bytes after the end)"));
    all
}

/// The book is the program's own too, and the end is not judged.
fn why_stops() -> Vec<Stopped> {
    let own = [Refusal::DayState, Refusal::Counts, Refusal::Book, Refusal::OtherRulebook, Refusal::NotLater];
    day_stops(&own)
}

/// Of a position log: 20 cannot come up.
fn position_clerk_stops() -> Vec<Stopped> {
    let refusals = order("judge").iter().filter(|&&refusal| refusal != Refusal::Findings);
    let stops = refusals.map(|refusal| ("judge", refusal.number(), refusal.note()));
    std::iter::once(("accepted", 0, "")).chain(stops).collect()
}

impl Tally {
    fn count(&mut self, call: String, label: String) {
        let key = (call, label);
        self.calls.entry(key.clone()).or_default().1 += 1;
        self.this_case.insert(key);
    }

    pub fn reached(&mut self, call: &str, refusal: Option<Refusal>) {
        let label = refusal.map_or("0".to_string(), |refusal| format!("{}{}", refusal.number(), refusal.note()));
        self.count(call.to_string(), label);
    }

    pub fn program(&mut self, name: &str, call: &str, number: u8, note: &str) {
        self.count(format!("{name}, {call}"), format!("{number}{note}"));
    }

    /// The clauses in the line of a take that was accepted; its state has rulebook and version.
    pub fn clauses(&mut self, line: &str) {
        let words: Vec<&str> = line.split(' ').collect();
        let ["t" | "m", "0", "open", rulebook, version, ..] = words[..] else { return };
        for (i, clause) in after_checksums(line).split(' ').enumerate() {
            self.count(clause_call(rulebook, version), clause_label(i / 2 + 1, i % 2, clause));
        }
    }

    pub fn close_case(&mut self) {
        for key in std::mem::take(&mut self.this_case) {
            self.calls.entry(key).or_default().0 += 1;
        }
    }

    pub fn add(&mut self, other: &Tally) {
        for (key, (cases, times)) in &other.calls {
            let sum = self.calls.entry(key.clone()).or_default();
            sum.0 += cases;
            sum.1 += times;
        }
    }

    /// Every number of every call, in its order, then the clerks'; the rows that must not be zero.
    fn rows(with_large: bool) -> Vec<(String, String)> {
        let mut rows = Vec::new();
        for call in CALLS.into_iter().chain(POSITION_CALLS) {
            rows.push((call.to_string(), "0".to_string()));
            rows.extend(order(call).iter().map(|r| (call.to_string(), format!("{}{}", r.number(), r.note()))));
        }
        let [clerk, position_clerk] = [&desk::DAYS, &desk::POSITIONS].map(|desk| desk.name);
        let stops = [(clerk, clerk_stops()), (position_clerk, position_clerk_stops()), ("why", why_stops())];
        for (name, stops) in stops {
            // only a log of more than a million records is refused with 14
            let stops = stops.into_iter().filter(|stop| with_large || stop.1 != 14);
            rows.extend(stops.map(|(call, n, note)| (format!("{name}, {call}"), format!("{n}{note}"))));
        }
        rows
    }

    /// Each clause of each kind and order, in both rulebooks and versions: a line for all, and one for each that was
    /// not reached.
    fn print_clauses(&self) -> (usize, usize) {
        let rows = clause_rows();
        let missed: Vec<_> = rows.iter().filter(|&row| !self.calls.contains_key(row)).collect();
        for (call, label) in &missed {
            println!("{call}, {label}: NEVER REACHED");
        }
        let reached = rows.len() - missed.len();
        println!("{reached} of {} clauses by rulebook, version, kind and order were reached", rows.len());
        (reached, missed.len())
    }

    /// Prints the table and what there is of clauses; gives the rows that were reached and those that were not.
    pub fn print(&self, with_large: bool) -> (usize, usize) {
        println!("{:<24} {:<26} {:>7} {:>9}", "call", "number", "cases", "times");
        let (mut reached, mut missed) = (0, 0);
        for key in Tally::rows(with_large) {
            let (cases, times) = self.calls.get(&key).copied().unwrap_or_default();
            let note = if times == 0 { "  NEVER REACHED" } else { "" };
            println!("{:<24} {:<26} {cases:>7} {times:>9}{note}", key.0, key.1);
            if times == 0 {
                missed += 1;
            } else {
                reached += 1;
            }
        }
        let of_clauses = self.print_clauses();
        (reached + of_clauses.0, missed + of_clauses.1)
    }
}

fn clause_call(rulebook: &str, version: &str) -> String {
    format!("take, rulebook {rulebook}, version {version}")
}

fn clause_label(kind: usize, order: usize, clause: &str) -> String {
    format!("kind {kind}, {} order, clause {clause}", ["first", "second"][order])
}

fn clause_rows() -> Vec<(String, String)> {
    let mut rows = Vec::new();
    for (rulebook, version) in [("1", "1"), ("1", "2"), ("2", "1"), ("2", "2")] {
        for kind in 1..=KINDS {
            let labels = ["0", "1", "2", "3"].iter().flat_map(|clause| [0, 1].map(|i| clause_label(kind, i, clause)));
            rows.extend(labels.map(|label| (clause_call(rulebook, version), label)));
        }
    }
    rows
}
