// The plain Rust side of `bench/run positions`: one position log, judged 2,000 times with the checks that document 02
// asks of it in request K4. The other side, the program positions_full, makes the same log and prints the same line.
//
// The log has 266,768 bytes, the most there can be.
// - Header: "AXP", rulebook 2, version 1, date 20240305, 32 contracts, 512 accounts, 16,384 records.
// - Contract k, from 0: id k + 1, type 1, product k mod 16, today's limit 2,700,000, the previous day's 2,600,000.
// - Account j, from 0: number 7 × (j + 1), group j / 4 + 1 (so four accounts each of 128 groups), kind 1.
// - Records: for k from 0 to 31, for j from 0 to 511: contract k + 1, account 7 × (j + 1), then long and short lots,
//   which are drawn in this order. A draw: seed = (seed × 1664525 + 1013904223) mod 2^32, beginning with seed = 1
//   before the first one; the lots are (seed / 4096) mod 1,000,001, the division rounded down.
//
// The book before each judging is a fresh one of rulebook 2: 4,112 bytes, all zero but for "AXQ", 2, 1. It is made
// anew, as judging writes it. The findings buffer has 16,384 bytes, enough for 2,048 findings; it is zero at the start.
//
// Printed: the number of findings of the last judging, a space, and the checksum of their bytes, 8 to a finding, as in
// docs/REPLAY.md: h = 0, for each byte x: h = (h × 257 + x + 1) mod 4,294,967,291. Then a newline. Where a judging is
// refused, the line is `refused`, a space and the number, and nothing more is judged. The line is `708 135149989`.
const TIMES: usize = 2_000;
const CONTRACTS: usize = 32;
const ACCOUNTS: usize = 512;
const RECORDS: usize = 16_384;
const GROUPS: usize = 128;
const FAMILIES: usize = 16;
const BOOK: usize = 4_112;

fn u16_at(s: &[u8], at: usize) -> u16 {
    u16::from_le_bytes([s[at], s[at + 1]])
}

fn u32_at(s: &[u8], at: usize) -> u32 {
    u32::from_le_bytes([s[at], s[at + 1], s[at + 2], s[at + 3]])
}

fn month_days(y: u32, m: u32) -> u32 {
    match m {
        2 if y % 4 == 0 && (y % 100 != 0 || y % 400 == 0) => 29,
        2 => 28,
        4 | 6 | 9 | 11 => 30,
        _ => 31,
    }
}

fn real_day(date: u32) -> bool {
    let (y, m, d) = (date / 10000, date / 100 % 100, date % 100);
    (2000..=2099).contains(&y) && (1..=12).contains(&m) && (1..=month_days(y, m)).contains(&d)
}

// The day's number in its year; 0 for no date.
fn day_number(date: u32) -> u32 {
    if date == 0 {
        return 0;
    }
    (1..date / 100 % 100).map(|m| month_days(date / 10000, m)).sum::<u32>() + date % 100
}

// The parts of a log whose header and length are good.
struct Log<'a> {
    rulebook: u8,
    date: u32,
    contracts: &'a [u8],
    accounts: &'a [u8],
    records: &'a [u8],
}

fn parts(log: &[u8]) -> Option<Log<'_>> {
    if log.len() < 16 || &log[0..3] != b"AXP" || u16_at(log, 4) != 1 || (log[3] != 1 && log[3] != 2) {
        return None;
    }
    let date = u32_at(log, 6);
    let (c, a, r) = (u16_at(log, 10) as usize, u16_at(log, 12) as usize, u16_at(log, 14) as usize);
    if !real_day(date) || !(1..=32).contains(&c) || !(1..=512).contains(&a) || r > RECORDS {
        return None;
    }
    if log.len() != 16 + 16 * c + 8 * a + 16 * r {
        return None;
    }
    let (contracts, rest) = log[16..].split_at(16 * c);
    let (accounts, records) = rest.split_at(8 * a);
    Some(Log { rulebook: log[3], date, contracts, accounts, records })
}

fn contracts_good(part: &[u8]) -> bool {
    let (mut good, mut before) = (true, 0);
    let limit_good = |limit: u32| limit.wrapping_sub(1) < 1_000_000_000;
    for e in part.chunks_exact(16) {
        let id = u16_at(e, 0);
        good &= (before < id)
            & (e[2] == 1)
            & (e[3] <= 15)
            & limit_good(u32_at(e, 4))
            & limit_good(u32_at(e, 8))
            & (u32_at(e, 12) == 0);
        before = id;
    }
    good
}

fn accounts_good(part: &[u8]) -> bool {
    let (mut bad, mut before) = (false, 0);
    for e in part.chunks_exact(8) {
        let number = u32_at(e, 0);
        let rest = u32_at(e, 4);
        bad |= (number <= before) | ((rest & 255).wrapping_sub(1) > 127) | ((rest >> 8).wrapping_sub(1) > 1);
        before = number;
    }
    !bad
}

fn find(part: &[u8], number: u32) -> Option<&[u8]> {
    let (mut from, mut size) = (0, part.len() / 8);
    while size > 1 {
        let half = size / 2;
        if u32_at(part, 8 * (from + half)) <= number {
            from += half;
        }
        size -= half;
    }
    let e = &part[8 * from..8 * from + 8];
    (u32_at(e, 0) == number).then_some(e)
}

// Long and short lots of each group, from 0, on each contract. At most 512 × 1,000,000.
type Sums = [[[u32; 2]; CONTRACTS]; GROUPS];

// One pass: the contract is looked for only where it changes.
fn add_up(log: &Log, sums: &mut Sums) -> bool {
    let (mut id, mut account, mut place) = (0, 0, 0);
    for r in log.records.chunks_exact(16) {
        let (next_id, next_account) = (u16_at(r, 0), u32_at(r, 4));
        let (long, short) = (u32_at(r, 8), u32_at(r, 12));
        if u16_at(r, 2) != 0 || long > 1_000_000 || short > 1_000_000 {
            return false;
        }
        if next_id != id {
            let found = log.contracts.chunks_exact(16).position(|e| u16_at(e, 0) == next_id);
            let Some(found) = found.filter(|_| next_id > id) else {
                return false;
            };
            (id, place) = (next_id, found);
        } else if next_account <= account {
            return false;
        }
        account = next_account;
        let Some(entry) = find(log.accounts, account) else {
            return false;
        };
        let sum = &mut sums[entry[4] as usize - 1][place];
        sum[0] += long;
        sum[1] += short;
    }
    true
}

fn book_sound(book: &[u8]) -> bool {
    if book.len() != BOOK || &book[0..3] != b"AXQ" || u16_at(book, 4) != 1 || (book[3] != 1 && book[3] != 2) {
        return false;
    }
    let last = u32_at(book, 6);
    if (last != 0 && !real_day(last)) || book[10..16].iter().any(|&x| x != 0) {
        return false;
    }
    let highest = day_number(last) as u16;
    let most = |family: usize| if book[3] == 1 && family >= 2 { 0 } else { highest };
    let totals = book[16..].chunks_exact(2).map(|t| u16_at(t, 0));
    totals.enumerate().all(|(i, total)| total <= most(i % FAMILIES))
}

// The lowest contract over its limit by group and family, 0 for none, and how many there are.
fn offences(log: &Log, sums: &Sums) -> ([[u16; FAMILIES]; GROUPS], usize) {
    let mut sizes = [0u16; GROUPS];
    for e in log.accounts.chunks_exact(8) {
        sizes[e[4] as usize - 1] += 1;
    }
    let (mut lowest, mut count) = ([[0; FAMILIES]; GROUPS], 0);
    for group in (0..GROUPS).filter(|&group| sizes[group] >= 2) {
        for (e, sum) in log.contracts.chunks_exact(16).zip(&sums[group]) {
            let (today, previous) = (u32_at(e, 4), u32_at(e, 8));
            let line = if log.rulebook == 1 { today.max(previous) } else { today };
            let family = if log.rulebook == 1 { 0 } else { e[3] as usize };
            if (sum[0] > line || sum[1] > line) && lowest[group][family] == 0 {
                lowest[group][family] = u16_at(e, 0);
                count += 1;
            }
        }
    }
    (lowest, count)
}

// The number of findings, or that of a refusal.
fn judge(log: &[u8], book: &mut [u8], findings: &mut [u8]) -> Result<usize, u32> {
    let log = parts(log).ok_or(22u32)?;
    let mut sums: Sums = [[[0; 2]; CONTRACTS]; GROUPS];
    if !contracts_good(log.contracts) || !accounts_good(log.accounts) || !add_up(&log, &mut sums) {
        return Err(22);
    }
    if !book_sound(book) {
        return Err(17);
    }
    if book[3] != log.rulebook {
        return Err(18);
    }
    let last = u32_at(book, 6);
    if log.date <= last {
        return Err(9);
    }
    let (lowest, count) = offences(&log, &sums);
    if findings.len() < 8 * count {
        return Err(20);
    }
    if log.date / 10000 > last / 10000 {
        book[16..].fill(0);
    }
    book[6..10].copy_from_slice(&log.date.to_le_bytes());
    write(&lowest, book, findings);
    Ok(count)
}

fn write(lowest: &[[u16; FAMILIES]; GROUPS], book: &mut [u8], findings: &mut [u8]) {
    let mut room = findings.chunks_exact_mut(8);
    for (group, row) in lowest.iter().enumerate() {
        for (family, &contract) in row.iter().enumerate().filter(|(_, &contract)| contract != 0) {
            let at = 16 + 2 * (group * FAMILIES + family);
            let total = u16_at(book, at) + 1;
            let sanction = [2, 7, 8][(total as usize - 1) % 3];
            book[at..at + 2].copy_from_slice(&total.to_le_bytes());
            let finding = room.next().expect("there is room for each");
            finding[0..4].copy_from_slice(&[group as u8 + 1, 5, family as u8, sanction]);
            finding[4..6].copy_from_slice(&total.to_le_bytes());
            finding[6..8].copy_from_slice(&contract.to_le_bytes());
        }
    }
}

fn draw(seed: &mut u32) -> u32 {
    *seed = seed.wrapping_mul(1664525).wrapping_add(1013904223);
    *seed / 4096 % 1_000_001
}

fn make_log() -> Vec<u8> {
    let mut log = b"AXP\x02\x01\x00".to_vec();
    log.extend(20240305u32.to_le_bytes());
    log.extend([CONTRACTS, ACCOUNTS, RECORDS].iter().flat_map(|&n| (n as u16).to_le_bytes()));
    for k in 0..CONTRACTS {
        log.extend((k as u16 + 1).to_le_bytes());
        log.extend([1, (k % 16) as u8]);
        log.extend([2_700_000u32, 2_600_000, 0].iter().flat_map(|n| n.to_le_bytes()));
    }
    for j in 0..ACCOUNTS {
        log.extend((7 * (j as u32 + 1)).to_le_bytes());
        log.extend([(j / 4 + 1) as u8, 1, 0, 0]);
    }
    let mut seed = 1;
    for k in 0..CONTRACTS {
        for j in 0..ACCOUNTS {
            let (long, short) = (draw(&mut seed), draw(&mut seed));
            log.extend((k as u16 + 1).to_le_bytes());
            log.extend([0, 0]);
            log.extend([7 * (j as u32 + 1), long, short].iter().flat_map(|n| n.to_le_bytes()));
        }
    }
    log
}

fn fresh() -> [u8; BOOK] {
    let mut book = [0; BOOK];
    book[0..5].copy_from_slice(b"AXQ\x02\x01");
    book
}

fn checksum(bytes: &[u8]) -> u64 {
    bytes.iter().fold(0, |h, &x| (h * 257 + x as u64 + 1) % 4_294_967_291)
}

fn main() {
    let log = make_log();
    let mut findings = vec![0; 8 * GROUPS * FAMILIES];
    let mut found = 0;
    for _ in 0..TIMES {
        let mut book = fresh();
        match judge(std::hint::black_box(&log), std::hint::black_box(&mut book), &mut findings) {
            Ok(count) => found = count,
            Err(number) => return println!("refused {number}"),
        }
        std::hint::black_box(&book);
    }
    println!("{found} {}", checksum(&findings[..8 * found]));
}
