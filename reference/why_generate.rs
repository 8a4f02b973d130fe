//! Random cases of the program why: days with orders of any codes, whole and damaged, asked for all and for a record.
use crate::build::{Day, Record};
use crate::cases::{why, Case};
use crate::days::{any_date, any_order, some_day, some_record};
use crate::generate::{damage, damage_record, feed_for};
use crate::random::Random;

/// Case number i of a seed.
pub fn random_why_case(random: &mut Random, i: usize) -> Case {
    let day = day_of_any_orders(random);
    let log = match i % 4 {
        0 => damage(random, day.log()),
        1 => {
            let mut log = day.log();
            damage_record(random, &day, &mut log);
            log
        }
        _ => day.log(),
    };
    let words = if random.one_in(2) { Vec::new() } else { vec![some_number(random, day.taken())] };
    let words: Vec<&str> = words.iter().map(String::as_str).collect();
    let feed = feed_for(random, &log);
    why(format!("random {i}: why {words:?}"), &words, log, feed)
}

/// Mostly one of the log's, or one past them; at times with zeros before it.
fn some_number(random: &mut Random, records: u32) -> String {
    let number = random.within(1, records as usize + 1);
    if random.one_in(4) {
        format!("{number:09}")
    } else {
        number.to_string()
    }
}

fn day_of_any_orders(random: &mut Random) -> Day {
    let (rulebook, date) = (random.within(1, 2) as u8, any_date(random));
    let mut day = some_day(random, rulebook, date, 1);
    let records = (0..random.within(0, 60)).map(|_| {
        let mut record = some_record(random, &day);
        match &mut record {
            Record::Trade { orders, .. } => *orders = [(); 2].map(|()| any_order(random, rulebook)),
            Record::Cancel { order, .. } => *order = any_order(random, rulebook),
        }
        (record, 1)
    });
    day.records = records.collect();
    day
}
