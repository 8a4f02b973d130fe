//! Real days of the Gregorian calendar, years 2000 to 2099, written yyyymmdd.

fn is_leap(year: u32) -> bool {
    year % 4 == 0 && (year % 100 != 0 || year % 400 == 0)
}

fn days_in(year: u32, month: u32) -> u32 {
    match month {
        2 => 28 + is_leap(year) as u32,
        4 | 6 | 9 | 11 => 30,
        _ => 31,
    }
}

pub fn year(date: u32) -> u32 {
    date / 10_000
}

pub fn is_day(date: u32) -> bool {
    let (month, day) = (date / 100 % 100, date % 100);
    (2000..=2099).contains(&year(date)) && (1..=12).contains(&month) && (1..=days_in(year(date), month)).contains(&day)
}

/// The day's number in its year, from 1; 0 for date 0, so that a book with no date has all totals zero.
pub fn day_number(date: u32) -> u32 {
    if date == 0 {
        return 0;
    }
    let before: u32 = (1..date / 100 % 100).map(|month| days_in(year(date), month)).sum();
    before + date % 100
}
