//! The clerk here and the clerk given, one after the other on the same log, several times.
use crate::large::million_log;
use crate::random::Random;
use crate::run::{command, run_to_end};
use std::fs::{self, File};
use std::io;
use std::path::Path;
use std::process::Stdio;
use std::time::Instant;

const RUNS: usize = 5;

/// One run in seconds, over a new copy of the book.
fn seconds(words: &[String], folder: &Path, book: &[u8]) -> io::Result<(f64, Vec<u8>)> {
    fs::write(folder.join("book.axb"), book)?;
    let mut command = command(words, folder);
    command.stdin(File::open(folder.join("log"))?).stdout(Stdio::piped());
    let start = Instant::now();
    let output = run_to_end(&mut command)?;
    let seconds = start.elapsed().as_secs_f64();
    if !output.status.success() {
        return Err(io::Error::other(format!("{} gives {}", words[0], output.status)));
    }
    Ok((seconds, [output.stdout, fs::read(folder.join("book.axb"))?].concat()))
}

fn median(mut times: Vec<f64>) -> f64 {
    times.sort_by(f64::total_cmp);
    times[times.len() / 2]
}

/// `ours` and `theirs` are the words that start either program. The log stays in the folder, to be run by hand.
pub fn time(folder: &Path, version: u16, ours: &[String], theirs: &[String]) -> io::Result<()> {
    fs::create_dir_all(folder)?;
    let (book, log) = million_log(&mut Random::of_case(1, 0), version);
    fs::write(folder.join("log"), &log)?;
    let (mut plain, mut given) = (Vec::new(), Vec::new());
    for run in 1..=RUNS {
        let (a, answer) = seconds(ours, folder, &book)?;
        let (b, other_answer) = seconds(theirs, folder, &book)?;
        if answer != other_answer {
            return Err(io::Error::other("the two clerks answer differently"));
        }
        println!("run {run}: plain Rust {a:.3} s, given {b:.3} s");
        plain.push(a);
        given.push(b);
    }
    let (plain, given) = (median(plain), median(given));
    println!("1,000,000 records, version {version}, 32 contracts, 512 accounts; medians of {RUNS} runs each, in turn");
    println!("plain Rust {plain:.3} s, given {given:.3} s, given / plain = {:.2}", given / plain);
    Ok(())
}
