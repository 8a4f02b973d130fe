//! A log as a program reads it: in pieces, a record after the other; and where it can stop.
use crate::refusal::Refusal;
use crate::tables::{Header, HEADER};
use std::io::{self, Read};

/// Where a log stopped. A program alone can refuse a log with 1: cut off, or with bytes after its end.
#[derive(Clone, Copy, PartialEq, Eq, PartialOrd, Ord, Debug)]
pub enum Stop {
    Call(&'static str, Refusal),
    CutRecord,
    NoEnd,
    AfterEnd,
}

impl Stop {
    pub fn number(self) -> u8 {
        match self {
            Stop::Call(_, refusal) => refusal.number(),
            Stop::CutRecord | Stop::NoEnd | Stop::AfterEnd => 1,
        }
    }

    /// What is printed of it.
    pub fn line(self) -> String {
        format!("refused {}\n", self.number())
    }
}

/// The log in pieces: bytes are asked of the source only when those at hand do not do.
pub struct Reader<R> {
    source: R,
    buffer: Vec<u8>,
    start: usize,
    end: usize,
}

const PIECE: usize = 1 << 16;

impl<R: Read> Reader<R> {
    pub fn new(source: R) -> Reader<R> {
        Reader { source, buffer: vec![0; PIECE], start: 0, end: 0 }
    }

    /// The next n bytes, or what there is of them at the end of the log; n is at most a piece.
    pub fn next(&mut self, n: usize) -> io::Result<&[u8]> {
        if self.end - self.start < n {
            self.fill(n)?;
        }
        let from = self.start;
        self.start = self.end.min(from + n);
        Ok(&self.buffer[from..self.start])
    }

    /// A whole record of n bytes, or why there is none.
    pub fn record(&mut self, n: usize) -> io::Result<Result<&[u8], Stop>> {
        let record = self.next(n)?;
        Ok(match record.len() {
            0 => Err(Stop::NoEnd),
            length if length < n => Err(Stop::CutRecord),
            _ => Ok(record),
        })
    }

    fn fill(&mut self, n: usize) -> io::Result<()> {
        self.buffer.copy_within(self.start..self.end, 0);
        self.end -= self.start;
        self.start = 0;
        while self.end < n {
            match self.source.read(&mut self.buffer[self.end..]) {
                Ok(0) => return Ok(()),
                Ok(more) => self.end += more,
                Err(error) if error.kind() == io::ErrorKind::Interrupted => {}
                Err(error) => return Err(error),
            }
        }
        Ok(())
    }
}

/// The header with its tables, or what there is of them. A header that opening refuses needs no tables.
pub fn read_tables<R: Read>(log: &mut Reader<R>) -> io::Result<Vec<u8>> {
    let mut tables = log.next(HEADER)?.to_vec();
    if tables.len() == HEADER {
        let header = Header::read(&tables);
        if header.contracts <= 32 && header.accounts <= 512 {
            tables.extend_from_slice(log.next(header.length() - HEADER)?);
        }
    }
    Ok(tables)
}
