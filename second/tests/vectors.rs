//! The program gives every word of the vectors.

mod common;

use second::sheet_vectors;
use second::variant::Variant;
use second::vectors::{run, Compared};

/// How many lines of a text begin with this word.
fn count(text: &str, word: &str) -> usize {
    text.lines().filter(|line| says(line, word)).count()
}

/// Whether a line begins with this word, and says more.
fn says(line: &str, word: &str) -> bool {
    let more = line.strip_prefix(word).and_then(|l| l.strip_prefix(' '));
    more.is_some_and(|rest| !rest.is_empty())
}

/// A text with another last character in the first line that begins with this word.
fn changed(text: &str, word: &str) -> String {
    let mut lines: Vec<String> = text.lines().map(str::to_string).collect();
    let line = lines.iter_mut().find(|line| says(line, word)).expect(word);
    let last = line.pop();
    line.push(if last == Some('0') { '1' } else { '0' });
    lines.join("\n")
}

#[test]
fn all_vectors_are_given() {
    for text in common::vector_texts() {
        let mut compared = Compared::default();
        run(Variant::Right, &text, &mut compared);
        assert!(
            compared.differences.is_empty(),
            "{:#?}",
            compared.differences
        );
        assert_eq!(compared.cases, count(&text, "case"));
        assert_eq!(compared.calls, count(&text, "reply"));
        assert!(compared.cases > 0 && compared.calls > 0);
    }
}

#[test]
fn a_changed_answer_is_a_difference() {
    for text in common::vector_texts() {
        for word in ["reply", "after", "workafter", "slice", "end"] {
            let mut compared = Compared::default();
            run(Variant::Right, &changed(&text, word), &mut compared);
            assert_eq!(compared.differences.len(), 1, "{word}");
        }
    }
}

/// What running a text of sheets came to.
fn run_sheets(text: &str) -> Compared {
    let mut compared = Compared::default();
    sheet_vectors::run(text, &mut compared);
    compared
}

#[test]
fn all_sheets_are_given() {
    let text = common::sheet_text();
    assert!(sheet_vectors::are_in(&text));
    let compared = run_sheets(&text);
    assert!(
        compared.differences.is_empty(),
        "{:#?}",
        compared.differences
    );
    assert_eq!(compared.sheets, count(&text, "sheet"));
    assert!(compared.sheets > 0);
}

#[test]
fn a_changed_line_of_a_sheet_is_a_difference() {
    let text = common::sheet_text();
    let lines: Vec<&str> = text.lines().collect();
    for (at, line) in [
        (0, "sheet 1 0"),
        (1, "00"),
        (2, "6c696e653d370a"),
        (2, "x"),
        (2, "0"),
    ] {
        let mut changed = lines.clone();
        changed[at] = line;
        assert_eq!(
            run_sheets(&changed.join("\n")).differences.len(),
            1,
            "{line}"
        );
    }
}
