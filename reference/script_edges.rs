//! The edges of a script's own rules: limits, unknown letters, cut-off steps, lengths.
use crate::build::Script;
use crate::cases::{replay, Case};

pub fn script_edges() -> Vec<Case> {
    let mut all = vec![replay("an empty script", Script::default())];
    all.extend(limits());
    all.extend(places());
    all.extend(letters());
    all.extend(cut_steps());
    all.extend(long_scripts());
    all
}

/// A good call, the step in question, and a call that is only reached where the step was good.
fn around(name: String, step: impl Fn(&mut Script)) -> Case {
    let mut script = Script::default();
    script.book(12_304);
    script.fresh(1);
    step(&mut script);
    script.abandon();
    replay(name, script)
}

fn limits() -> Vec<Case> {
    let mut all = Vec::new();
    for n in [20_000, 20_001, u32::MAX] {
        all.push(around(format!("C {n}"), |s| s.counts(n, 7)));
        all.push(around(format!("B {n}"), |s| s.book(n)));
    }
    for n in [70_000, 70_001, u32::MAX] {
        all.push(around(format!("F {n}"), |s| s.findings(n, 7)));
    }
    for n in [8_192, 8_193] {
        all.push(around(format!("T {n}"), |s| s.tables(&vec![1; n])));
    }
    for n in [8_000, 8_001, u32::MAX] {
        all.push(around(format!("A {n}"), |s| s.position_book(n)));
    }
    for n in [0, 300_000, 300_001] {
        all.push(around(format!("p {n}"), |s| s.judge(&vec![1; n])));
    }
    for n in [0, 64, 65] {
        all.push(around(format!("t {n}"), |s| s.take(&vec![1; n])));
        all.push(around(format!("m {n}"), |s| s.take_often(3, &vec![1; n])));
        all.push(around(format!("m 0 {n}"), |s| s.take_often(0, &vec![1; n])));
        all.push(around(format!("e {n}"), |s| s.end(&vec![3; n])));
    }
    all
}

/// Either side of the books' and the counts' length.
fn places() -> Vec<Case> {
    let around_end = |end| [(end - 1, 1), (end, 0), (end, 1), (end + 1, 0), (end - 1, 2), (u32::MAX, 1), (u32::MAX, 0)];
    let in_book = around_end(12_304).map(|(at, n)| around(format!("b {at} {n}"), |s| s.book_bytes(at, &vec![9; n])));
    let in_positions = around_end(4_112).map(|(at, n)| {
        around(format!("j {at} {n}"), |s| {
            s.position_book(4_112);
            s.position_bytes(at, &vec![9; n]);
            s.position_ask([1, 5, 0]);
        })
    });
    let with_none = around("j with no book".to_string(), |s| s.position_bytes(0, &[]));
    let in_counts = [0, 9, 10, u32::MAX].map(|i| {
        around(format!("c {i}"), |s| {
            s.counts(10, 1);
            s.count(i, 2);
        })
    });
    in_book.into_iter().chain(in_positions).chain([with_none]).chain(in_counts).collect()
}

fn letters() -> Vec<Case> {
    let unknown = [b' ', b'\n', b'0', b'n', b's', b'G', b'J', b'P', b'R', b'Q', b'X', 0, 255];
    unknown.map(|letter| around(format!("letter {letter}"), |s| s.0.push(letter))).into()
}

/// A script with every letter, cut after every byte of its last step.
fn cut_steps() -> Vec<Case> {
    let steps: [&dyn Fn(&mut Script); 20] = [
        &|s| s.opened(&[1; 13], 7),
        &|s| s.counts(10, 1),
        &|s| s.count(0, 5),
        &|s| s.findings(10, 1),
        &|s| s.book(10),
        &|s| s.book_bytes(0, &[1, 2, 3]),
        &|s| s.tables(&[1, 2, 3]),
        &|s| s.fresh(1),
        &|s| s.take(&[1; 20]),
        &|s| s.take_often(2, &[1; 20]),
        &|s| s.end(&[3; 20]),
        &|s| s.ask([1, 1, 0]),
        &|s| s.exemption([1, 0, 1, 1, 1, 1]),
        &|s| s.open(),
        &|s| s.abandon(),
        &|s| s.position_book(10),
        &|s| s.position_bytes(0, &[1, 2, 3]),
        &|s| s.position_fresh(1),
        &|s| s.judge(&[1; 20]),
        &|s| s.position_ask([1, 5, 0]),
    ];
    let mut all = Vec::new();
    let mut before = Script::default();
    before.counts(5, 5);
    before.book(5);
    before.position_book(5);
    before.abandon();
    for step in steps {
        let mut whole = before.clone();
        step(&mut whole);
        for length in before.0.len() + 1..=whole.0.len() {
            let letter = whole.0[before.0.len()] as char;
            let cut = Script(whole.0[..length].to_vec());
            all.push(replay(format!("step {letter} cut to {} bytes", length - before.0.len()), cut));
        }
    }
    all
}

/// Either side of 1,000,000 bytes, with a bad step inside and without.
fn long_scripts() -> Vec<Case> {
    let mut all = Vec::new();
    for length in [999_999, 1_000_000, 1_000_001, 1_100_000] {
        let mut script = Script::default();
        script.abandon();
        script.0.resize(length - 1, b'N');
        script.abandon();
        all.push(replay(format!("a script of {length} bytes"), script.clone()));
        script.0[500] = b'?';
        all.push(replay(format!("a bad script of {length} bytes"), script));
    }
    all
}
