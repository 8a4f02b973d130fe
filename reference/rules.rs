//! What the exchanges' texts say (document 01, "What counts" and "Ladders", as document 02 changes it), with no bytes.
//! Positions (K4) come last.

/// The number of contract and account entries, groups and so on that everything is laid out by.
pub const GROUPS: usize = 128;
pub const KINDS: usize = 3;
pub const FAMILIES: usize = 16;
pub const PLACES: usize = 32;

/// The last contract type that a rulebook has: options are DCE's alone.
pub fn last_type(rulebook: u8) -> u8 {
    if rulebook == 1 {
        2
    } else {
        1
    }
}

/// Whether a rulebook has an order's codes. Rulebook 2 has no stop and no arbitrage order.
pub fn is_order(rulebook: u8, (instruction, purpose): (u8, u8)) -> bool {
    let has_instruction = match rulebook {
        1 => (1..=6).contains(&instruction),
        _ => matches!(instruction, 1 | 2 | 5 | 6),
    };
    has_instruction && (1..=4).contains(&purpose)
}

/// Whether there are such codes: rulebook, edition, contract type, kind, instruction and purpose. There is no edition
/// but 0.
pub fn is_known([rulebook, edition, contract_type, kind, instruction, purpose]: [u8; 6]) -> bool {
    (1..=2).contains(&rulebook)
        && edition == 0
        && (1..=last_type(rulebook)).contains(&contract_type)
        && (1..=KINDS).contains(&(kind as usize))
        && is_order(rulebook, (instruction, purpose))
}

/// The exemption test of any codes: the clause that exempts such an order (K5), 1 its instruction, 2 its purpose, 3
/// either by itself, 0 none. Codes that there are not are held as exempt (K3), by clause 1.
pub fn clause(codes: [u8; 6]) -> u8 {
    let [rulebook, _, contract_type, kind, instruction, purpose] = codes;
    if !is_known(codes) {
        return 1;
    }
    let by_instruction = is_exempt_instruction(rulebook, kind, instruction);
    let by_purpose = is_exempt_purpose(rulebook, contract_type, kind, purpose);
    by_instruction as u8 + 2 * by_purpose as u8
}

fn is_exempt_instruction(rulebook: u8, kind: u8, instruction: u8) -> bool {
    if rulebook == 1 {
        (2..=6).contains(&instruction)
    } else {
        instruction == 2 || (instruction == 1 && kind == 2)
    }
}

/// Market making is spared for kind 2: in rulebook 1 in options only (K1), in rulebook 2 everywhere.
fn is_exempt_purpose(rulebook: u8, contract_type: u8, kind: u8, purpose: u8) -> bool {
    match purpose {
        2 => true,
        3 => rulebook == 1 || kind != 1,
        4 => kind == 2 && (rulebook == 2 || contract_type == 2),
        _ => false,
    }
}

/// By multiplying: four fifths are never rounded. Lots and largest orders are at most 1,000,000.
pub fn is_large(rulebook: u8, lots: u32, largest: u32) -> bool {
    if rulebook == 1 {
        5 * lots > 4 * largest
    } else {
        5 * lots >= 4 * largest
    }
}

/// The times on one contract in one day that make an offence.
pub fn enough(rulebook: u8, kind: usize) -> u32 {
    match (kind, rulebook) {
        (1, _) => 5,
        (2, _) => 500,
        (_, 1) => 400,
        _ => 100,
    }
}

/// Rulebook 1 counts futures and options apart; rulebook 2 goes by product.
pub fn family(rulebook: u8, contract_type: u8, product: u8) -> usize {
    if rulebook == 1 {
        contract_type as usize - 1
    } else {
        product as usize
    }
}

/// Three offences start the count again; no offence is on no rung.
pub fn rung(total: u16) -> u8 {
    match total {
        0 => 0,
        n => ((n - 1) % 3 + 1) as u8,
    }
}

pub fn sanction(rulebook: u8, has_member: bool, rung: u8) -> u8 {
    match (rulebook == 1 && has_member, rung) {
        (true, 2) => 4,
        (true, 3) => 5,
        _ => rung,
    }
}

/// A group's long or short sum on one contract. 003 spares who is not above the previous day's limit too.
pub fn is_over(rulebook: u8, sum: u64, today: u32, previous: u32) -> bool {
    sum > today as u64 && (rulebook != 1 || sum > previous as u64)
}

/// Position logs have futures only, which are one family in rulebook 1.
pub fn position_family(rulebook: u8, product: u8) -> usize {
    family(rulebook, 1, product)
}

/// Watch list, no opening for 10 trading days, no opening for 6 months; members change nothing.
pub fn position_sanction(rung: u8) -> u8 {
    match rung {
        1 => 2,
        2 => 7,
        _ => 8,
    }
}
