// The plain Rust side of bench/run: the same day, the same records, and at each record the checks that document 01 asks
// of take, as requests K2 and K5 change them. The day is of version 1.
const CELLS: usize = 12288;

struct Day {
    rulebook: u8,
    version: u16,
    date: u32,
    contracts: u16,
    accounts: u16,
    spare: u16,
    taken: u32,
}

fn u16_at(s: &[u8], at: usize) -> u16 {
    u16::from_le_bytes([s[at], s[at + 1]])
}

fn u32_at(s: &[u8], at: usize) -> u32 {
    u32::from_le_bytes([s[at], s[at + 1], s[at + 2], s[at + 3]])
}

fn month_days(y: u32, m: u32) -> u32 {
    match m {
        2 if y % 4 == 0 && (y % 100 != 0 || y % 400 == 0) => 29,
        2 => 28,
        4 | 6 | 9 | 11 => 30,
        _ => 31,
    }
}

fn real_day(date: u32) -> bool {
    let (y, m, d) = (date / 10000, date / 100 % 100, date % 100);
    (2000..=2099).contains(&y) && (1..=12).contains(&m) && (1..=month_days(y, m)).contains(&d)
}

fn contracts_good(part: &[u8], rulebook: u8) -> bool {
    let (mut good, mut before) = (true, 0);
    for e in part.chunks_exact(8) {
        let id = u16_at(e, 0);
        let largest = u32_at(e, 4);
        let sort = e[2];
        good &= (before < id)
            & ((sort == 1) | ((sort == 2) & (rulebook == 1)))
            & (e[3] <= 15)
            & (largest >= 1)
            & (largest <= 1_000_000);
        before = id;
    }
    good
}

fn accounts_good(part: &[u8]) -> bool {
    let (mut bad, mut before) = (false, 0);
    for e in part.chunks_exact(8) {
        let number = u32_at(e, 0);
        let rest = u32_at(e, 4);
        bad |= (number <= before)
            | ((rest & 255).wrapping_sub(1) > 127)
            | ((rest >> 8).wrapping_sub(1) > 1);
        before = number;
    }
    !bad
}

fn log_fault(log: &[u8]) -> u32 {
    if log.len() < 16 {
        return 1;
    }
    if &log[0..3] != b"AXD" {
        return 2;
    }
    if u16_at(log, 4) != 1 && u16_at(log, 4) != 2 {
        return 3;
    }
    if log[3] != 1 && log[3] != 2 {
        return 4;
    }
    if !real_day(u32_at(log, 6)) {
        return 5;
    }
    let (c, a) = (u16_at(log, 10) as usize, u16_at(log, 12) as usize);
    if !(1..=32).contains(&c) || !(1..=512).contains(&a) || u16_at(log, 14) != 0 {
        return 6;
    }
    if log.len() != 16 + 8 * c + 8 * a {
        return 1;
    }
    if !contracts_good(&log[16..16 + 8 * c], log[3]) {
        return 7;
    }
    if !accounts_good(&log[16 + 8 * c..]) {
        return 8;
    }
    0
}

fn order_good(rulebook: u8, instruction: u8, purpose: u8) -> bool {
    (1..=6).contains(&instruction)
        && (rulebook == 1 || (instruction != 3 && instruction != 4))
        && (1..=4).contains(&purpose)
}

fn record_good(rulebook: u8, r: &[u8]) -> bool {
    let lots = u32_at(r, 12);
    r[1] == 0
        && (1..=1_000_000).contains(&lots)
        && order_good(rulebook, r[16], r[17])
        && (r[0] == 1 && order_good(rulebook, r[18], r[19])
            || r[0] == 2 && u32_at(r, 8) == 0 && r[18] == 0 && r[19] == 0)
        && brokers_good(r)
}

fn brokers_good(r: &[u8]) -> bool {
    r.len() == 20 || u16_at(r, 20) != 0 && (u16_at(r, 22) != 0) == (r[0] == 1)
}

fn record_length(version: u16) -> usize {
    if version == 2 {
        24
    } else {
        20
    }
}

/// By the instruction 1, by the purpose 2, by both 3; the codes are the rulebook's.
fn clause(rulebook: u8, sort: u8, kind: u8, instruction: u8, purpose: u8) -> u8 {
    let (by_instruction, by_purpose) = if rulebook == 1 {
        (instruction >= 2, purpose == 2 || purpose == 3 || purpose == 4 && kind == 2 && sort == 2)
    } else {
        (
            instruction == 2 || instruction == 1 && kind == 2,
            purpose == 2 || purpose == 3 && kind >= 2 || purpose == 4 && kind == 2,
        )
    };
    by_instruction as u8 + 2 * by_purpose as u8
}

fn find(part: &[u8], number: u32) -> Option<&[u8]> {
    let (mut from, mut size) = (0, part.len() / 8);
    while size > 1 {
        let half = size / 2;
        if u32_at(part, 8 * (from + half)) <= number {
            from += half;
        }
        size -= half;
    }
    let e = &part[8 * from..8 * from + 8];
    (u32_at(e, 0) == number).then_some(e)
}

/// The clauses of the first order and the second, for each kind, or the refusal.
fn take(day: &mut Day, log: &[u8], r: &[u8], counts: &mut [u32]) -> Result<[[u8; 2]; 3], u32> {
    if r.len() != record_length(day.version) {
        return Err(1);
    }
    if counts.len() < CELLS {
        return Err(16);
    }
    if log_fault(log) != 0
        || log[3] != day.rulebook
        || u16_at(log, 4) != day.version
        || u32_at(log, 6) != day.date
        || u16_at(log, 10) != day.contracts
        || u16_at(log, 12) != day.accounts
        || u16_at(log, 14) != day.spare
    {
        return Err(19);
    }
    let rulebook = day.rulebook;
    if !record_good(rulebook, r) {
        return Err(11);
    }
    let middle = 16 + 8 * day.contracts as usize;
    let id = u16_at(r, 2);
    let Some(place) = log[16..middle].chunks_exact(8).position(|e| u16_at(e, 0) == id) else {
        return Err(12);
    };
    let accounts = &log[middle..];
    let Some(first) = find(accounts, u32_at(r, 4)) else {
        return Err(13);
    };
    let cell = (first[4] as usize - 1) * 96 + place;
    let contract = &log[16 + 8 * place..24 + 8 * place];
    let clause_of = |kind, order: usize| clause(rulebook, contract[2], kind, r[order], r[order + 1]);
    let mut why = [1, 2, 3].map(|kind| [clause_of(kind, 16), 0]);
    let mut raise = [false; 3];
    if r[0] == 1 {
        let Some(second) = find(accounts, u32_at(r, 8)) else {
            return Err(13);
        };
        for kind in 1..=3 {
            why[kind - 1][1] = clause_of(kind as u8, 18);
        }
        raise[0] = first[4] == second[4] && why[0] == [0, 0];
    } else {
        let (five, four) = (5 * u32_at(r, 12) as u64, 4 * u32_at(contract, 4) as u64);
        let large = if rulebook == 1 { five > four } else { five >= four };
        raise[1] = why[1][0] == 0;
        raise[2] = large && why[2][0] == 0;
    }
    if day.taken >= 1_000_000 {
        return Err(14);
    }
    if (0..3).any(|k| raise[k] && counts[cell + 32 * k] > day.taken) {
        return Err(19);
    }
    for k in 0..3 {
        if raise[k] {
            counts[cell + 32 * k] += 1;
        }
    }
    day.taken += 1;
    Ok(why)
}

fn tables() -> Vec<u8> {
    let mut t = vec![0u8; 4368];
    t[0..4].copy_from_slice(b"AXD\x01");
    t[4..6].copy_from_slice(&1u16.to_le_bytes());
    t[6..10].copy_from_slice(&20240305u32.to_le_bytes());
    t[10..12].copy_from_slice(&32u16.to_le_bytes());
    t[12..14].copy_from_slice(&512u16.to_le_bytes());
    for k in 0..32 {
        let e = &mut t[16 + 8 * k..24 + 8 * k];
        e[0..2].copy_from_slice(&(k as u16 + 1).to_le_bytes());
        e[2] = 1;
        e[4..8].copy_from_slice(&1000u32.to_le_bytes());
    }
    for k in 0..512 {
        let e = &mut t[272 + 8 * k..280 + 8 * k];
        e[0..4].copy_from_slice(&(7 * (k as u32 + 1)).to_le_bytes());
        e[4] = (k / 4 + 1) as u8;
        e[5] = 1;
    }
    t
}

fn draw(row: &mut [u8; 20], seed: u32) {
    let trade = seed / 16777216 % 4 == 0;
    row[2..4].copy_from_slice(&((seed / 65536 % 32 + 1) as u16).to_le_bytes());
    row[4..8].copy_from_slice(&(7 * (seed / 4096 % 512 + 1)).to_le_bytes());
    row[12..16].copy_from_slice(&(seed / 1024 % 1000 + 1).to_le_bytes());
    row[16..18].copy_from_slice(&[1, (seed / 256 % 4 + 1) as u8]);
    if trade {
        row[0] = 1;
        row[8..12].copy_from_slice(&(7 * (seed / 2048 % 512 + 1)).to_le_bytes());
        row[18..20].copy_from_slice(&[1, (seed / 64 % 4 + 1) as u8]);
    } else {
        row[0] = 2;
        row[8..12].fill(0);
        row[18..20].fill(0);
    }
}

fn main() {
    let t = tables();
    let mut counts = vec![0u32; CELLS];
    let mut day = Day { rulebook: 1, version: 1, date: 20240305, contracts: 32, accounts: 512, spare: 0, taken: 0 };
    let mut row = [0u8; 20];
    let mut seed = 1u32;
    let (mut refused, mut clauses) = (0, 0);
    for _ in 0..1_000_000 {
        seed = seed.wrapping_mul(1664525).wrapping_add(1013904223);
        draw(&mut row, seed);
        match take(&mut day, std::hint::black_box(&t), &row, &mut counts) {
            Ok(why) => clauses += why.iter().flatten().map(|&x| x as u64).sum::<u64>(),
            Err(number) => {
                refused = number;
                break;
            }
        }
    }
    println!("{} {} {}", refused, counts.iter().map(|&x| x as u64).sum::<u64>(), clauses);
}
