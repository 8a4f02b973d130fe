//! The yearly books (document 01, "Layouts"): that of the days, and that of positions, which has one kind (document 02,
//! K4) and is otherwise the same.
use crate::dates;
use crate::rules::{FAMILIES, GROUPS, KINDS};
use crate::tables::{read16, read32};

/// What a book is laid out by.
pub struct Form {
    pub mark: [u8; 3],
    pub length: usize,
    first_kind: usize,
    kinds: usize,
}

pub static DAYS: Form = Form { mark: *b"AXB", length: 12_304, first_kind: 1, kinds: KINDS };
pub static POSITIONS: Form = Form { mark: *b"AXQ", length: 4_112, first_kind: 5, kinds: 1 };

const TOTALS: usize = 16;

pub fn rulebook(book: &[u8]) -> u8 {
    book[3]
}

pub fn last_date(book: &[u8]) -> u32 {
    read32(book, 6)
}

pub fn set_last_date(book: &mut [u8], date: u32) {
    book[6..10].copy_from_slice(&date.to_le_bytes());
}

pub fn clear_totals(book: &mut [u8]) {
    book[TOTALS..].fill(0);
}

impl Form {
    pub fn kinds(&self) -> std::ops::Range<usize> {
        self.first_kind..self.first_kind + self.kinds
    }

    fn place(&self, group: usize, kind: usize, family: usize) -> usize {
        TOTALS + 2 * (((group - 1) * self.kinds + (kind - self.first_kind)) * FAMILIES + family)
    }

    pub fn total(&self, book: &[u8], group: usize, kind: usize, family: usize) -> u16 {
        read16(book, self.place(group, kind, family))
    }

    pub fn set_total(&self, book: &mut [u8], group: usize, kind: usize, family: usize, total: u16) {
        let at = self.place(group, kind, family);
        book[at..at + 2].copy_from_slice(&total.to_le_bytes());
    }

    pub fn is_sound(&self, book: &[u8]) -> bool {
        book.len() == self.length
            && book[..3] == self.mark
            && (rulebook(book) == 1 || rulebook(book) == 2)
            && read16(book, 4) == 1
            && (last_date(book) == 0 || dates::is_day(last_date(book)))
            && book[10..TOTALS].iter().all(|&byte| byte == 0)
            && totals_are_sound(book)
    }

    /// A fresh book over a buffer of a book's length.
    pub fn make_fresh(&self, book: &mut [u8], rulebook: u8) {
        book.fill(0);
        book[..3].copy_from_slice(&self.mark);
        book[3] = rulebook;
        book[4] = 1;
    }

    pub fn fresh(&self, rulebook: u8) -> Vec<u8> {
        let mut book = vec![0; self.length];
        self.make_fresh(&mut book, rulebook);
        book
    }

    /// Every ladder's group and kind, in the findings' order.
    pub fn groups_and_kinds(&self) -> impl Iterator<Item = (usize, usize)> + '_ {
        (1..=GROUPS).flat_map(|group| self.kinds().map(move |kind| (group, kind)))
    }
}

fn totals_are_sound(book: &[u8]) -> bool {
    let highest = dates::day_number(last_date(book));
    let only_two_families = rulebook(book) == 1;
    book[TOTALS..].chunks_exact(2).enumerate().all(|(i, bytes)| {
        let total = read16(bytes, 0);
        let family = i % FAMILIES;
        total as u32 <= highest && !(only_two_families && family >= 2 && total != 0)
    })
}
