//! The edges of the clerk of positions: each fault that a log or a book file can have, every place to cut a log, logs
//! that are too long, and each clerk with the other's files.
use crate::cases::{clerk_at, expecting, position_clerk, BookFile, Case, Feed};
use crate::clerk_edges::{example_book, example_day, some_feed};
use crate::desk::{self, Desk};
use crate::position_build::position_book;
use crate::position_examples::{self, example, full, long_log};
use crate::position_faults::position_faults;
use crate::position_scene::position_scene;
use crate::random::Random;
use crate::refusal::Refusal;

pub fn position_clerk_edges(random: &mut Random) -> Vec<Case> {
    let mut all = vec![example_days()];
    all.extend(faults(random));
    all.extend(cut_logs(random));
    all.extend(long_logs());
    all.extend(book_files());
    all.extend(others_files());
    all
}

/// The example, the same again, days after it, and one of the next year.
fn example_days() -> Case {
    let dates = [20240305, 20240305, 20240306, 20240304, 20241231, 20250101, 20250102];
    let logs = dates.map(|date| (example(date).bytes(), Feed::Pipe));
    let book = BookFile::Bytes(position_examples::example_book());
    expecting(position_clerk("an example of positions", book, logs.into()), vec![0, 9, 0, 9, 0, 0, 0])
}

/// Some one by one, and some two at a time: by calls each has been tried. The clerk's buffer for findings is its own.
fn faults(random: &mut Random) -> Vec<Case> {
    let mut faults = position_faults("judge");
    faults.retain(|fault| fault.refusal != Refusal::Findings);
    let few = [Refusal::OtherRulebook, Refusal::NotLater];
    let alone = (0..faults.len()).filter(|&i| random.one_in(3) || few.contains(&faults[i].refusal));
    let alone: Vec<(usize, usize)> = alone.map(|i| (i, i)).collect();
    let pairs: Vec<(usize, usize)> =
        (0..60).map(|_| (random.below(faults.len()), random.below(faults.len()))).collect();
    let mut all = Vec::new();
    for (a, b) in alone.into_iter().chain(pairs) {
        let rulebook = random.within(1, 2) as u8;
        let mut scene = position_scene(random, rulebook);
        // the later one first: an earlier one may cut off what it stands in
        (faults[a.max(b)].make)(&mut scene);
        if a != b {
            (faults[a.min(b)].make)(&mut scene);
        }
        let refusal = faults[a.min(b)].refusal;
        let (book, log) = (BookFile::Bytes(scene.book.bytes()), (scene.log, some_feed(random)));
        let case = position_clerk(format!("positions, {refusal:?}"), book, vec![log]);
        all.push(if a == b { expecting(case, vec![refusal.number()]) } else { case });
    }
    all
}

/// The example cut at every byte, and with bytes after it.
fn cut_logs(random: &mut Random) -> Vec<Case> {
    let whole = example(20240305).bytes();
    let mut all = Vec::new();
    for length in 0..whole.len() + 3 {
        let mut log = whole.clone();
        log.resize(length, 0);
        let book = BookFile::Bytes(position_examples::example_book());
        let number = if length == whole.len() { 0 } else { 22 };
        let case = position_clerk(format!("positions cut to {length}"), book, vec![(log, some_feed(random))]);
        all.push(expecting(case, vec![number]));
    }
    all
}

/// The longest log, with every finding of rulebook 2, and longer ones.
fn long_logs() -> Vec<Case> {
    let whole = long_log();
    let mut all = Vec::new();
    for (more, number) in [(0, 0), (1, 22), (16, 22), (40_000, 22), (1_000_000, 22)] {
        for byte in [0, b'A'] {
            let log = [&whole[..], &vec![byte; more]].concat();
            let book = BookFile::Bytes(position_book(1, 20240304, &[]));
            let case = position_clerk(format!("the longest log and {more} bytes"), book, vec![(log, Feed::Uneven)]);
            all.push(expecting(case, vec![number]));
        }
    }
    let logs = [(20240305, Feed::File), (20240306, Feed::Drops(4_097)), (20250101, Feed::Pipe)];
    let logs = logs.map(|(date, feed)| (full(2, date, 1, 3).bytes(), feed));
    let book = BookFile::Bytes(position_book(2, 0, &[]));
    all.push(expecting(position_clerk("2,048 findings of positions", book, logs.into()), vec![0, 0, 0]));
    all
}

/// What stands at the book file's place, with a good log and with bad ones, which come first.
fn book_files() -> Vec<Case> {
    let good = example(20240305).bytes();
    let mut bad = good.clone();
    bad[1] = b'?';
    let mut all = Vec::new();
    for (what, log, number) in [("a good log", good, 17), ("a bad mark", bad, 22), ("no log", Vec::new(), 22)] {
        let mut books: Vec<(String, BookFile)> = Vec::new();
        for size in [0, 1, 16, 4_111, 4_113, 12_304, 100_000] {
            let mut book = position_book(1, 0, &[]);
            book.resize(size, 0);
            books.push((format!("a book of {size} bytes"), BookFile::Bytes(book)));
        }
        books.push(("no book".to_string(), BookFile::Missing));
        books.push(("a folder for a book".to_string(), BookFile::Folder));
        books.push(("the other desk's book".to_string(), BookFile::Bytes(example_book())));
        for (name, book) in books {
            let case = position_clerk(format!("positions, {name}, {what}"), book, vec![(log.clone(), Feed::Pipe)]);
            all.push(expecting(case, vec![number]));
        }
    }
    all
}

/// Each clerk with the other's log, and with the other's book.
fn others_files() -> Vec<Case> {
    let (day, positions) = (example_day().log(), example(20240305).bytes());
    let (book, position_book) = (example_book(), position_examples::example_book());
    let rows = [
        (&desk::DAYS, &book, &positions, 2),
        (&desk::DAYS, &position_book, &day, 17),
        (&desk::POSITIONS, &position_book, &day, 22),
        (&desk::POSITIONS, &book, &positions, 17),
        (&desk::POSITIONS, &book, &day, 22),
    ];
    let case = |(desk, book, log, number): (&'static Desk, &Vec<u8>, &Vec<u8>, u8)| {
        let logs = vec![(log.clone(), Feed::Pipe)];
        expecting(clerk_at(desk, "the other desk's files", BookFile::Bytes(book.clone()), logs), vec![number])
    };
    rows.map(case).into()
}
