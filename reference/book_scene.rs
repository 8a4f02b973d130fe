//! A book as a scene hands it to a call, and what makes it unsound. Both books have the same faults.
use crate::book::Form;
use crate::faults::BAD_DATES;

#[derive(Clone)]
pub struct BookScene {
    pub length: u32,
    pub head: Vec<u8>,
    /// Where they stand, and what they are.
    pub totals: Vec<(u32, u16)>,
}

pub type BookChange = Box<dyn Fn(&mut BookScene)>;

impl BookScene {
    pub fn set_date(&mut self, date: u32) {
        self.head[6..10].copy_from_slice(&date.to_le_bytes());
    }

    /// What is written over zero bytes of the book's length, as far as there is room for it.
    pub fn pieces(&self) -> Vec<(u32, Vec<u8>)> {
        let head = &self.head[..self.head.len().min(self.length as usize)];
        let totals = self.totals.iter().filter(|(at, _)| at + 2 <= self.length);
        let mut all = vec![(0, head.to_vec())];
        all.extend(totals.map(|&(at, total)| (at, total.to_le_bytes().to_vec())));
        all
    }

    pub fn bytes(&self) -> Vec<u8> {
        let mut bytes = vec![0; self.length as usize];
        for (at, piece) in self.pieces() {
            bytes[at as usize..at as usize + piece.len()].copy_from_slice(&piece);
        }
        bytes
    }
}

fn change(make: impl Fn(&mut BookScene) + 'static) -> BookChange {
    Box::new(make)
}

/// The last is the longest that a script can have.
pub fn wrong_lengths(form: &Form) -> Vec<BookChange> {
    let length = form.length as u32;
    let longest = if form.mark == *b"AXQ" { 8_000 } else { 20_000 };
    [0, 1, 16, length - 1, length + 1, longest].map(|length| change(move |book| book.length = length)).into()
}

/// All that makes a book unsound.
pub fn book_faults(form: &Form) -> Vec<BookChange> {
    let mut all = wrong_lengths(form);
    let other = if form.mark == *b"AXQ" { b'B' } else { b'Q' };
    let bytes = [(0, b'a'), (1, 0), (2, b'D'), (2, b'P'), (2, other), (3, 0), (3, 3), (4, 0), (4, 2), (5, 1)];
    for (at, byte) in bytes.into_iter().chain((10..16).map(|at| (at, 1))) {
        all.push(change(move |book| book.head[at] = byte));
    }
    for date in BAD_DATES {
        all.push(change(move |book| book.set_date(date)));
    }
    // families 0 and 1 of the first group, some in the middle, family 1 of the last
    for at in [16, 18, form.length as u32 / 2 - 44, form.length as u32 - 30] {
        all.push(change(move |book| book.totals.push((at, 367))));
        all.push(change(move |book| book.totals.push((at, 65_535))));
    }
    all.push(change(|book| {
        book.set_date(0);
        book.totals.push((16, 1));
    }));
    all.extend((2..16).map(|family| change(move |book| family_of_no_use(book, family))));
    all
}

/// Rulebook 1 has families 0 and 1 only; in rulebook 2 a total above the day number does as well.
fn family_of_no_use(book: &mut BookScene, family: u32) {
    let total = if book.head[3] == 1 { 1 } else { 6 };
    book.set_date(20240105);
    book.totals.push((16 + 2 * (16 * 17 + family), total));
}
