//! The vector format: cases of calls with the exact words that they must give. `vectors/README.md`
//! describes its lines.
//!
//! A case is run by writing it again, from its store and its calls alone, and comparing lines.

use std::path::Path;

use crate::call::{numbered, perform, Call};
use crate::geometry::ONES;
use crate::slot::Pair;
use crate::variant::Variant;

/// The vector files of a folder that hold cases.
const FILES: [&str; 2] = ["damaged.txt", "sequences.txt"];

/// A case: what its first line says, its store before the first call, and its calls.
#[derive(Clone, Debug)]
pub struct Case {
    pub title: String,
    pub store: Vec<u32>,
    pub calls: Vec<Call>,
}

/// What running vector files came to.
#[derive(Clone, Debug, Default)]
pub struct Compared {
    pub cases: usize,
    pub calls: usize,
    pub sheets: usize,
    pub differences: Vec<String>,
}

/// The texts of a folder's vector files that hold cases.
pub fn texts(folder: &Path) -> Result<Vec<String>, String> {
    FILES.iter().map(|name| read(folder, name)).collect()
}

/// The text of a file of a folder.
pub fn read(folder: &Path, name: &str) -> Result<String, String> {
    let path = folder.join(name);
    std::fs::read_to_string(&path).map_err(|e| format!("{}: {e}", path.display()))
}

/// Runs every case of a vector file's text, and adds what it came to.
pub fn run(variant: Variant, text: &str, compared: &mut Compared) {
    let lines: Vec<&str> = text.lines().collect();
    let starts: Vec<usize> = (0..lines.len())
        .filter(|at| lines[*at].starts_with("case "))
        .collect();
    if starts.first() != Some(&0) {
        compared.differences.push("no case at line 1".to_string());
    }
    for (at, start) in starts.iter().enumerate() {
        let end = starts.get(at + 1).copied().unwrap_or(lines.len());
        run_case(variant, &lines[*start..end], start + 1, compared);
    }
}

/// The cases of a vector file's text, answers left aside.
pub fn cases(text: &str) -> Vec<Case> {
    let lines: Vec<&str> = text.lines().collect();
    let blocks = lines.chunk_by(|_, next| !next.starts_with("case "));
    blocks.filter_map(parse).collect()
}

/// Runs the case of these lines, the first of which has this number in its file.
fn run_case(variant: Variant, lines: &[&str], number: usize, compared: &mut Compared) {
    compared.cases += 1;
    let Some(case) = parse(lines) else {
        let difference = format!("line {number}: not a case of the vector format");
        compared.differences.push(difference);
        return;
    };
    compared.calls += case.calls.len();
    let ours = write(variant, &case);
    for at in 0..lines.len().max(ours.len()) {
        let wanted = lines.get(at).map_or("(no line)", |line| line.trim_end());
        let given = ours.get(at).map_or("(no line)", |line| line.trim_end());
        if wanted != given {
            compared.differences.push(format!(
                "line {}, {}:\n  wanted {wanted}\n  given  {given}",
                number + at,
                case.title,
            ));
            return;
        }
    }
}

/// The case that these lines begin with, answers left aside.
fn parse(lines: &[&str]) -> Option<Case> {
    let title = lines.first()?.to_string();
    let (length, words) = lines.get(1)?.strip_prefix("store ")?.split_once(' ')?;
    let store = parse_words(words)?;
    if length.parse() != Ok(store.len()) {
        return None;
    }
    let mut calls = Vec::new();
    for line in &lines[2..] {
        let word = line.split(' ').next()?;
        match word {
            "reply" | "after" | "workafter" | "slice" | "end" => {}
            _ => calls.push(parse_call(line)?),
        }
    }
    Some(Case {
        title,
        store,
        calls,
    })
}

/// The words of a line in hexadecimal, where `w*n` is a run of n.
fn parse_words(text: &str) -> Option<Vec<u32>> {
    let mut words = Vec::new();
    for item in text.split_whitespace() {
        let (word, run) = item.split_once('*').unwrap_or((item, "1"));
        let word = u32::from_str_radix(word, 16).ok()?;
        words.extend(std::iter::repeat_n(word, run.parse().ok()?));
    }
    Some(words)
}

/// The call that a line says.
fn parse_call(line: &str) -> Option<Call> {
    let parts: Vec<&str> = line.split(' ').collect();
    let pair = |at: usize| {
        let badge = parts.get(at)?.parse().ok()?;
        let floor = parts.get(at + 1)?.parse().ok()?;
        Some(Pair { badge, floor })
    };
    match (parts[0], &parts[1..]) {
        ("ask", [_, _]) => Some(Call::Ask(pair(1)?)),
        ("why", [_, _]) => Some(Call::Why(pair(1)?)),
        ("put", [_, _, "work", length]) => Some(Call::Put(pair(1)?, length.parse().ok()?)),
        ("drop", [_, _, "work", length]) => Some(Call::Drop(pair(1)?, length.parse().ok()?)),
        ("list", [_, _, _, _, "slice", length]) => {
            Some(Call::List(pair(1)?, pair(3)?, length.parse().ok()?))
        }
        ("check", []) => Some(Call::Check),
        _ => None,
    }
}

/// The lines of a case, with the answers that this build gives.
pub fn write(variant: Variant, case: &Case) -> Vec<String> {
    let mut store = case.store.clone();
    let mut lines = vec![
        case.title.clone(),
        format!("store {} {}", store.len(), write_words(&store)),
    ];
    for call in &case.calls {
        write_call(variant, &mut store, *call, &mut lines);
    }
    lines.push(format!("end {}", write_words(&store)));
    lines
}

/// Makes a call on the store, and adds its lines.
fn write_call(variant: Variant, store: &mut [u32], call: Call, lines: &mut Vec<String>) {
    let before = store.to_vec();
    let outcome = perform(variant, store, call);
    let values: Vec<String> = outcome.reply.values.iter().map(u32::to_string).collect();
    lines.push(call_line(call));
    lines.push(format!(
        "reply {} values {}",
        outcome.reply.number,
        values.join(" "),
    ));
    match call {
        Call::Put(..) | Call::Drop(..) => {
            lines.push(after_line(&before, store));
            lines.push(work_line(&outcome.work));
        }
        Call::List(..) => lines.push(format!("slice {}", write_words(&outcome.slice))),
        Call::Ask(_) | Call::Why(_) | Call::Check => {}
    }
}

/// The line of a call.
fn call_line(call: Call) -> String {
    let two = |pair: Pair| format!("{} {}", pair.badge, pair.floor);
    match call {
        Call::Ask(pair) => format!("ask {}", two(pair)),
        Call::Why(pair) => format!("why {}", two(pair)),
        Call::Put(pair, length) => format!("put {} work {length}", two(pair)),
        Call::Drop(pair, length) => format!("drop {} work {length}", two(pair)),
        Call::List(first, last, length) => {
            format!("list {} {} slice {length}", two(first), two(last))
        }
        Call::Check => "check".to_string(),
    }
}

/// The line of the words that a call changed in the store.
fn after_line(before: &[u32], after: &[u32]) -> String {
    let changed: Vec<String> = (0..after.len())
        .filter(|at| before[*at] != after[*at])
        .map(|at| format!("{at}={:x}", after[at]))
        .collect();
    if changed.is_empty() {
        "after same".to_string()
    } else {
        format!("after {}", changed.join(" "))
    }
}

/// The line of a work area after a call.
fn work_line(work: &[u32]) -> String {
    let state = if work == numbered(0, work.len()) {
        "same"
    } else if work.iter().all(|word| *word == ONES) {
        "ones"
    } else {
        "other"
    };
    format!("workafter {state}")
}

/// Words in hexadecimal, two or more of the same as a run.
fn write_words(words: &[u32]) -> String {
    let runs = words.chunk_by(|left, right| left == right);
    let items: Vec<String> = runs
        .map(|run| match run.len() {
            1 => format!("{:x}", run[0]),
            length => format!("{:x}*{length}", run[0]),
        })
        .collect();
    items.join(" ")
}
