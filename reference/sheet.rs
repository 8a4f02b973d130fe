//! The program sheet: the exemptions in words, all or narrowed by words, and nothing where the words are no good.
use crate::cases::Feed;
use crate::rules::{clause, is_known};
use crate::run::{command, run, run_as_set};
use crate::stage::{empty_folder, has_status, prints, said, text, Stage};
use std::fs::{self, OpenOptions};
use std::process::{Command, Stdio};

const TITLE: &str = "# Exemptions

An order that is exempt for a kind of offence does not count for it.
Each line is an entry of the table that the desk looks up: its number, rulebook, contract
type, kind, instruction, purpose, and whether such an order counts or which clause exempts it.
";

const HEADINGS: [&str; 2] = [
    "\n## Rulebook 1, DCE: document 003, one (1) 4\n",
    "\n## Rulebook 2, CFX (CFFEX government bond futures): document 004, one (1) 5\n",
];

/// What a clause says of an order.
pub const CLAUSES: [&str; 4] =
    ["counts", "exempt by instruction", "exempt by purpose", "exempt by instruction and purpose"];

pub const KINDS: [&str; 3] = ["self-trade", "frequent cancels", "large cancels"];

/// The words for each code, in the order of a line: rulebook, contract type, kind, instruction, purpose.
const LISTS: [&[&str]; 5] = [
    &["DCE", "CFX"],
    &["futures", "option"],
    &KINDS,
    &["plain limit", "market", "stop", "arbitrage order", "FOK", "FAK"],
    &["ordinary", "hedge", "arbitrage", "market making"],
];

const WORDS: [&str; 5] = ["--rulebook", "--type", "--kind", "--instruction", "--purpose"];

/// All codes in the order of the page: the last list turns fastest.
fn all_codes() -> Vec<[u8; 5]> {
    let mut all = vec![[0; 5]];
    for (place, list) in LISTS.iter().enumerate() {
        let with = |codes: [u8; 5]| {
            (1..=list.len() as u8).map(move |code| {
                let mut next = codes;
                next[place] = code;
                next
            })
        };
        all = all.into_iter().flat_map(with).collect();
    }
    all
}

fn in_words(codes: &[u8]) -> String {
    let words: Vec<&str> = codes.iter().zip(LISTS).map(|(&code, list)| list[code as usize - 1]).collect();
    words.join(", ")
}

fn answer([rulebook, contract_type, kind, instruction, purpose]: [u8; 5]) -> &'static str {
    let codes = [rulebook, 0, contract_type, kind, instruction, purpose];
    if is_known(codes) {
        CLAUSES[clause(codes) as usize]
    } else {
        "exempt, refused by the rulebook"
    }
}

/// The page of the codes asked for, where 0 is any code.
pub fn page(asked: [u8; 5]) -> String {
    let mut text = TITLE.to_string();
    let (mut rulebook, mut block) = (0, String::new());
    for (i, codes) in all_codes().into_iter().enumerate() {
        if asked.iter().zip(codes).any(|(&asked, code)| asked != 0 && asked != code) {
            continue;
        }
        if codes[0] != rulebook {
            rulebook = codes[0];
            text.push_str(HEADINGS[rulebook as usize - 1]);
        }
        if in_words(&codes[..3]) != block {
            block = in_words(&codes[..3]);
            text.push_str(&format!("\n### {block}\n\n"));
        }
        text.push_str(&format!("{}. {}: {}\n", i + 1, in_words(&codes), answer(codes)));
    }
    text
}

/// What is no word of the program's, or no code of its list.
const WRONG: [&[&str]; 17] = [
    &[""],
    &["1"],
    &["--rulebook"],
    &["--rulebook", ""],
    &["--rulebook", "0"],
    &["--rulebook", "3"],
    &["--rulebook", "01"],
    &["--rulebook", "257"],
    &["--rulebook", "1", "2"],
    &["--rulebook", "1", "--kind"],
    &["rulebook", "1"],
    &["--Rulebook", "1"],
    &["--instructions-of-any-sort", "1"],
    &["--type", "3"],
    &["--kind", "4"],
    &["--instruction", "7"],
    &["--purpose", "5"],
];

/// Lines by documents 01 and 02, not by the reference.
const LINES: [&str; 7] = [
    "1. DCE, futures, self-trade, plain limit, ordinary: counts\n",
    "2. DCE, futures, self-trade, plain limit, hedge: exempt by purpose\n",
    "5. DCE, futures, self-trade, market, ordinary: exempt by instruction\n",
    "6. DCE, futures, self-trade, market, hedge: exempt by instruction and purpose\n",
    "145. CFX, futures, self-trade, plain limit, ordinary: counts\n",
    "154. CFX, futures, self-trade, stop, hedge: exempt, refused by the rulebook\n",
    "288. CFX, option, large cancels, FAK, market making: exempt, refused by the rulebook\n",
];

type Results = Vec<(String, Result<(), String>)>;

pub fn sheet(stage: &Stage) -> Results {
    let mut all = vec![
        ("the page that is kept".to_string(), is_kept(stage)),
        ("lines by the documents".to_string(), has_lines()),
        ("a word said twice".to_string(), shows(stage, &["--kind", "1", "--kind", "3"], [0, 0, 3, 0, 0])),
        ("words in another order".to_string(), shows(stage, &["--purpose", "4", "--rulebook", "1"], [1, 0, 0, 0, 4])),
        ("sheet, standard output is full".to_string(), full_output(stage)),
    ];
    all.extend(some_asked().into_iter().map(|asked| narrowed(stage, asked)));
    all.extend(WRONG.map(|words| (format!("sheet with words {words:?}"), refuses(stage, words))));
    all
}

/// Nothing, each code of each list by itself, and some at once.
fn some_asked() -> Vec<[u8; 5]> {
    let mut all = vec![[0; 5], [1, 2, 2, 1, 4], [2, 2, 0, 0, 0], [2, 0, 3, 5, 0]];
    for (place, list) in LISTS.iter().enumerate() {
        for code in 1..=list.len() as u8 {
            let mut asked = [0; 5];
            asked[place] = code;
            all.push(asked);
        }
    }
    all
}

fn program(stage: &Stage, words: &[&str]) -> Result<Command, String> {
    let folder = empty_folder(stage.folder, "sheet")?;
    let mut command = command(&stage.programs.through_run("sheet"), &folder);
    command.args(words);
    Ok(command)
}

fn shows(stage: &Stage, words: &[&str], asked: [u8; 5]) -> Result<(), String> {
    let output = run(program(stage, words)?, stage.folder, &[], Feed::Pipe).map_err(text)?;
    prints(&output, &page(asked))?;
    has_status(&output, 0)
}

fn narrowed(stage: &Stage, asked: [u8; 5]) -> (String, Result<(), String>) {
    let pairs = WORDS.iter().zip(asked).filter(|&(_, code)| code != 0);
    let words: Vec<String> = pairs.flat_map(|(word, code)| [word.to_string(), code.to_string()]).collect();
    let words: Vec<&str> = words.iter().map(String::as_str).collect();
    (format!("sheet {}", words.join(" ")), shows(stage, &words, asked))
}

fn is_kept(stage: &Stage) -> Result<(), String> {
    let kept = fs::read_to_string(stage.root.join("docs/EXEMPTIONS.md")).map_err(text)?;
    if kept == page([0; 5]) {
        return Ok(());
    }
    Err("docs/EXEMPTIONS.md is not the reference's page".to_string())
}

fn has_lines() -> Result<(), String> {
    let page = page([0; 5]);
    match LINES.iter().find(|line| !page.contains(&format!("\n{line}"))) {
        Some(line) => Err(format!("the reference's page has no line {line:?}")),
        None => Ok(()),
    }
}

fn refuses(stage: &Stage, words: &[&str]) -> Result<(), String> {
    let output = run(program(stage, words)?, stage.folder, &[], Feed::Pipe).map_err(text)?;
    said(&output)?;
    has_status(&output, 1)
}

fn full_output(stage: &Stage) -> Result<(), String> {
    let full = OpenOptions::new().write(true).open("/dev/full").map_err(text)?;
    let mut command = program(stage, &[])?;
    command.stdout(full).stderr(Stdio::piped());
    let output = run_as_set(&mut command, stage.folder, &[], Feed::Pipe).map_err(text)?;
    said(&output)?;
    has_status(&output, 1)
}
