//! The edges of requests K3 and K5: the exemption test of any codes, asked by itself.
use crate::build::Script;
use crate::cases::{replay, replay_expecting, Case};

pub fn sheet_edges() -> Vec<Case> {
    let mut all = vec![rows()];
    all.extend((0..=3).flat_map(|rulebook| [0, 1].map(|edition| around_the_lists(rulebook, edition))));
    all.extend((0..6).flat_map(any_byte));
    all
}

fn asked(codes: &[[u8; 6]]) -> Script {
    let mut script = Script::default();
    codes.iter().for_each(|&codes| script.exemption(codes));
    script
}

/// Rulebook, edition, contract type, kind, instruction, purpose, and the clause by document 02, not by the reference.
const ROWS: [([u8; 6], u8); 52] = [
    ([1, 0, 1, 1, 1, 1], 0),
    ([1, 0, 1, 1, 1, 2], 2),
    ([1, 0, 1, 1, 1, 3], 2),
    ([1, 0, 1, 1, 1, 4], 0),
    // market making in futures and in options (K1), and for large cancels
    ([1, 0, 1, 2, 1, 4], 0),
    ([1, 0, 2, 2, 1, 4], 2),
    ([1, 0, 2, 3, 1, 4], 0),
    ([1, 0, 2, 1, 5, 4], 1),
    ([1, 0, 2, 2, 5, 4], 3),
    ([1, 0, 2, 3, 5, 4], 1),
    // market and FAK in either rulebook, for large cancels
    ([1, 0, 1, 3, 2, 1], 1),
    ([1, 0, 1, 3, 6, 1], 1),
    ([2, 0, 1, 3, 2, 1], 1),
    ([2, 0, 1, 3, 6, 1], 0),
    // either by itself
    ([1, 0, 1, 1, 2, 2], 3),
    ([1, 0, 2, 3, 4, 3], 3),
    ([2, 0, 1, 1, 2, 2], 3),
    // rulebook 2: a plain limit for each kind, FOK, arbitrage for kinds 2 and 3
    ([2, 0, 1, 1, 1, 1], 0),
    ([2, 0, 1, 2, 1, 1], 1),
    ([2, 0, 1, 3, 1, 1], 0),
    ([2, 0, 1, 1, 1, 2], 2),
    ([2, 0, 1, 2, 1, 2], 3),
    ([2, 0, 1, 2, 1, 3], 3),
    ([2, 0, 1, 2, 1, 4], 3),
    ([2, 0, 1, 2, 5, 1], 0),
    ([2, 0, 1, 2, 5, 4], 2),
    ([2, 0, 1, 1, 6, 3], 0),
    ([2, 0, 1, 3, 6, 3], 2),
    ([2, 0, 1, 1, 2, 3], 1),
    ([2, 0, 1, 3, 2, 3], 3),
    // rulebook 2 refuses an option, a stop order, an arbitrage order, also where the purpose would exempt
    ([2, 0, 2, 1, 5, 1], 1),
    ([2, 0, 2, 1, 1, 2], 1),
    ([2, 0, 2, 2, 2, 2], 1),
    ([2, 0, 1, 1, 3, 1], 1),
    ([2, 0, 1, 1, 3, 2], 1),
    ([2, 0, 1, 2, 4, 1], 1),
    ([2, 0, 1, 3, 4, 3], 1),
    // codes that no list has
    ([0, 0, 1, 1, 1, 1], 1),
    ([3, 0, 1, 1, 1, 1], 1),
    ([3, 0, 1, 1, 2, 2], 1),
    ([1, 1, 1, 1, 1, 1], 1),
    ([1, 1, 1, 1, 2, 2], 1),
    ([1, 0, 0, 1, 1, 1], 1),
    ([1, 0, 3, 1, 1, 1], 1),
    ([1, 0, 3, 1, 1, 2], 1),
    ([1, 0, 1, 0, 2, 2], 1),
    ([1, 0, 1, 4, 1, 1], 1),
    ([1, 0, 1, 1, 7, 1], 1),
    ([2, 0, 1, 1, 7, 2], 1),
    ([1, 0, 1, 1, 1, 0], 1),
    ([1, 0, 1, 1, 1, 5], 1),
    ([1, 0, 1, 1, 2, 5], 1),
];

fn rows() -> Case {
    replay_expecting("exemptions by document 02", asked(&ROWS.map(|row| row.0)), ROWS.map(|row| row.1).into())
}

/// Every code of every list, and one on either side.
fn around_the_lists(rulebook: u8, edition: u8) -> Case {
    let mut codes = Vec::new();
    for contract_type in 0..=3 {
        for kind in 0..=4 {
            for instruction in 0..=7 {
                codes.extend((0..=5).map(|purpose| [rulebook, edition, contract_type, kind, instruction, purpose]));
            }
        }
    }
    replay(format!("exemptions around the lists, rulebook {rulebook}, edition {edition}"), asked(&codes))
}

/// Any byte for one of the codes, where the others do not exempt and where instruction and purpose both do.
fn any_byte(place: usize) -> [Case; 4] {
    [[1, 0, 1, 2, 1, 1], [2, 0, 1, 2, 6, 1], [1, 0, 1, 2, 2, 2], [2, 0, 1, 2, 2, 2]].map(|given: [u8; 6]| {
        let with = |byte| {
            let mut codes = given;
            codes[place] = byte;
            codes
        };
        let codes: Vec<[u8; 6]> = (0..=255).map(with).collect();
        replay(format!("exemptions {given:?} with any byte at place {place}"), asked(&codes))
    })
}
