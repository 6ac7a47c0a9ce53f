//! What the replay program must print is what the vectors say, and shows every false build.

mod common;

use std::collections::BTreeSet;

use second::script::{Script, MOST_WORDS};
use second::variant::{Variant, FALSE_BUILDS};
use second::vectors;

/// The lines that a script of the vectors alone prints, those of formats left aside.
fn lines(variant: Variant) -> Vec<String> {
    let script = Script::of(variant, &common::vector_texts(), 0, 0);
    let formats = |line: &String| line.split(' ').nth(1) == Some("store");
    script.lines.into_iter().filter(|l| !formats(l)).collect()
}

/// The texts of the vectors without the cases whose store is longer than the replay program's, and how
/// many those are.
fn short_texts() -> (Vec<String>, usize) {
    let mut long = 0;
    let mut short = |block: &[&str]| {
        let length = block[1].split(' ').nth(1).expect("a length");
        let fits = length.parse::<usize>().expect("a number") <= MOST_WORDS;
        long += usize::from(!fits);
        fits
    };
    let mut texts = common::vector_texts();
    for text in &mut texts {
        let lines: Vec<&str> = text.lines().collect();
        let blocks = lines.chunk_by(|_, next| !next.starts_with("case "));
        *text = blocks
            .filter(|block| short(block))
            .collect::<Vec<_>>()
            .concat()
            .join("\n");
    }
    (texts, long)
}

/// What a printed line says, in the words of the vectors: what follows `reply`, with the first `values`
/// of the line's `room` values, and then `after` and `workafter` or `slice` if the call has them.
fn said(line: &str, values: usize, room: usize) -> Vec<String> {
    let (line, work) = line.split_once(" work").unwrap_or((line, ""));
    let (numbers, store) = line.split_once(" store").unwrap_or((line, ""));
    let edited = numbers.len() < line.len();
    let numbers: Vec<&str> = numbers.split(' ').collect();
    let (told, rest) = numbers.split_at(1 + values);
    let (padding, slice) = rest.split_at(room - values);
    assert!(padding.iter().all(|number| *number == "0"), "{line}");
    let mut said = vec![format!("{} values {}", told[0], told[1..].join(" "))];
    if edited {
        said.extend([changed(store), changed(work)]);
    }
    if !slice.is_empty() {
        let word = |number: &&str| format!("{:x}", number.parse::<u32>().expect("a word"));
        said.push(slice.iter().map(word).collect::<Vec<_>>().join(" "));
    }
    said
}

/// The words that printed runs say are changed, as `after` has them.
fn changed(runs: &str) -> String {
    let mut words = Vec::new();
    for run in runs.split_whitespace() {
        let (at, run) = run.split_once('=').expect("a run");
        let (word, count) = run.split_once('*').unwrap_or((run, "1"));
        let [at, word, count] = [at, word, count].map(|n| n.parse::<u32>().expect("a number"));
        words.extend((at..at + count).map(|at| format!("{at}={word:x}")));
    }
    match words.len() {
        0 => "same".to_string(),
        _ => words.join(" "),
    }
}

/// The answers of vectors, call by call: how many values the printed line has, and what the vectors'
/// lines say behind their first words.
fn answers(text: &str) -> Vec<(usize, Vec<String>)> {
    let mut answers: Vec<(usize, Vec<String>)> = Vec::new();
    let (mut room, mut work) = (0, "");
    for line in text.lines() {
        let (word, rest) = line.split_once(' ').unwrap_or((line, ""));
        let answer = match (word, rest) {
            ("reply", _) => {
                answers.push((room, Vec::new()));
                rest.to_string()
            }
            ("workafter", "ones") => changed(&format!("0=4294967295*{work}")),
            ("after" | "workafter", _) => rest.to_string(),
            ("slice", words) if !words.is_empty() => spelt(words),
            _ => {
                room = match word {
                    "put" | "drop" => 7,
                    "why" => 22,
                    _ => 3,
                };
                work = rest.rsplit(' ').next().unwrap_or("");
                continue;
            }
        };
        answers.last_mut().expect("a call").1.push(answer);
    }
    answers
}

/// Words with every run of `w*n` spelt out.
fn spelt(words: &str) -> String {
    let spelt = words.split(' ').map(|item| match item.split_once('*') {
        Some((word, count)) => vec![word; count.parse().expect("a count")].join(" "),
        None => item.to_string(),
    });
    spelt.collect::<Vec<_>>().join(" ")
}

#[test]
fn every_vector_is_replayed_as_it_stands() {
    let (texts, long) = short_texts();
    assert_eq!(long, 1, "cases that the replay program has no room for");
    let wanted: Vec<_> = texts.iter().flat_map(|text| answers(text)).collect();
    let lines = lines(Variant::Right);
    assert_eq!(lines.len(), wanted.len());
    for (line, (room, wanted)) in lines.iter().zip(&wanted) {
        let values = wanted[0].split(' ').count() - 2;
        assert_eq!(&said(line, values, *room), wanted, "{line}");
    }
    assert!(wanted.iter().any(|(room, _)| *room == 22), "no why");
}

#[test]
fn damaged_stores_are_asked_why_too() {
    let script = Script::of(Variant::Right, &[], 7, 1200);
    let first = |line: &str| line.split(' ').next().map(str::to_string);
    let list = |line: &&String| line.contains(" 1000 ");
    let long = script.lines.iter().filter(|l| l.split(' ').count() == 23);
    let whys = long.filter(|line| !list(line));
    let replies: BTreeSet<_> = whys.filter_map(|line| first(line)).collect();
    let wanted = ["0", "1", "5", "10", "11", "12", "13"];
    assert_eq!(replies, wanted.map(str::to_string).into());
}

#[test]
fn a_store_called_formatted_is_made_by_a_format() {
    let texts = common::vector_texts();
    let cases = texts.iter().flat_map(|text| vectors::cases(text));
    let called = cases.filter(|case| case.title.contains(" formatted "));
    let script = Script::of(Variant::Right, &texts, 0, 0);
    let formats = script.lines.len() - lines(Variant::Right).len();
    assert!(formats >= called.count() && formats > 0);
}

#[test]
fn a_replay_of_the_vectors_finds_what_the_vectors_find() {
    let right = lines(Variant::Right);
    for variant in FALSE_BUILDS {
        let found = lines(variant) != right;
        assert_eq!(
            found,
            !common::NOT_IN_VECTORS.contains(&variant),
            "{variant:?}"
        );
    }
}
