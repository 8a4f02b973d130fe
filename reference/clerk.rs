//! The clerk's program (document 01) and that of positions (document 02, K4): as functions from bytes, and as a program
//! over the file and standard input.
use crate::calls::{self, Finding, State, CELLS, FINDING};
use crate::desk::Desk;
use crate::log::{read_tables, Reader, Stop};
use crate::positions;
use crate::rules::{FAMILIES, GROUPS};
use crate::tables::{record_length, Header};
use std::fmt::Write as _;
use std::fs::{self, File};
use std::io::{self, Read, Write};

pub struct Outcome {
    pub text: String,
    /// The book to write back; none where the log was refused.
    pub book: Option<Vec<u8>>,
    pub stop: Option<Stop>,
}

/// The day's findings, or where it stopped. The book is a copy: it becomes the file's only at the end.
fn judge<R: Read>(book: &mut [u8], source: R) -> io::Result<Result<(Header, Vec<Finding>), Stop>> {
    let mut log = Reader::new(source);
    let mut counts = vec![0; CELLS];
    let mut findings = vec![0; CELLS / 2 * FINDING];
    let mut state = State::Closed;
    let tables = read_tables(&mut log)?;
    if let Err(refusal) = calls::open(&mut state, &tables, book, &mut counts) {
        return Ok(Err(Stop::Call("open", refusal)));
    }
    let header = Header::read(&tables);
    let length = record_length(header.version);
    loop {
        let record = match log.record(length)? {
            Ok(record) => record,
            Err(stop) => return Ok(Err(stop)),
        };
        if record[0] == 3 {
            break match calls::end(&mut state, &tables, record, book, &counts, &mut findings) {
                Err(refusal) => Ok(Err(Stop::Call("end", refusal))),
                Ok(_) if !log.next(1)?.is_empty() => Ok(Err(Stop::AfterEnd)),
                Ok(n) => Ok(Ok((header, findings.chunks(FINDING).take(n).map(Finding::read).collect()))),
            };
        }
        if let Err(refusal) = calls::take(&mut state, &tables, record, &mut counts) {
            return Ok(Err(Stop::Call("take", refusal)));
        }
    }
}

/// The line above what is printed of a day.
pub fn heading(mark: &str, header: &Header) -> String {
    let exchange = if header.rulebook == 1 { "DCE" } else { "CFX" };
    format!("{mark} {} {exchange}\n", header.date)
}

fn printed(mark: &str, header: &Header, findings: &[Finding]) -> String {
    let mut text = heading(mark, header);
    for Finding { group, kind, family, sanction, total, contract } in findings {
        writeln!(text, "{group} {kind} {family} {total} {sanction} {contract}").unwrap();
    }
    writeln!(text, "findings {}", findings.len()).unwrap();
    text
}

/// What a log was found to be, over a book that is written to.
type Judged = Result<(Header, Vec<Finding>), Stop>;

fn outcome(mark: &str, book: Vec<u8>, judged: Judged) -> Outcome {
    match judged {
        Ok((header, findings)) => Outcome { text: printed(mark, &header, &findings), book: Some(book), stop: None },
        Err(stop) => Outcome { text: stop.line(), book: None, stop: Some(stop) },
    }
}

/// The clerk over a log that is read as it comes. A book that can't be opened is one of no bytes.
pub fn clerk(book: Option<&[u8]>, log: &mut dyn Read) -> io::Result<Outcome> {
    let mut copy = book.unwrap_or(&[]).to_vec();
    let judged = judge(&mut copy, log)?;
    Ok(outcome("AXD", copy, judged))
}

/// The same for a position log, which is held whole: a byte more than the longest is enough to see that it is too long.
pub fn position_clerk(book: Option<&[u8]>, log: &mut dyn Read) -> io::Result<Outcome> {
    let mut bytes = Vec::new();
    log.take(positions::LONGEST as u64 + 1).read_to_end(&mut bytes)?;
    let mut copy = book.unwrap_or(&[]).to_vec();
    let mut findings = vec![0; GROUPS * FAMILIES * FINDING];
    let judged = match positions::judge(&bytes, &mut copy, &mut findings) {
        Ok(n) => Ok((Header::read(&bytes), findings.chunks(FINDING).take(n).map(Finding::read).collect())),
        Err(refusal) => Err(Stop::Call("judge", refusal)),
    };
    Ok(outcome("AXP", copy, judged))
}

/// The program: prints, then writes the book back beside the old one and renames it over.
pub fn program(desk: &Desk) -> io::Result<()> {
    let outcome = (desk.judge)(read_book(desk).as_deref(), &mut io::stdin().lock())?;
    io::stdout().write_all(outcome.text.as_bytes())?;
    io::stdout().flush()?;
    match outcome.book {
        Some(book) => write_back(desk, &book),
        None => Ok(()),
    }
}

/// One byte more than a book's is enough to see that a file is too long.
fn read_book(desk: &Desk) -> Option<Vec<u8>> {
    let mut bytes = Vec::with_capacity(desk.form.length + 1);
    File::open(desk.file).ok()?.take(desk.form.length as u64 + 1).read_to_end(&mut bytes).ok()?;
    Some(bytes)
}

fn write_back(desk: &Desk, book: &[u8]) -> io::Result<()> {
    let new = format!("{}.new", desk.file);
    let written = File::create(&new).and_then(|mut file| {
        file.write_all(book)?;
        file.sync_all()
    });
    written.and_then(|()| fs::rename(&new, desk.file)).inspect_err(|_| drop(fs::remove_file(&new)))
}
