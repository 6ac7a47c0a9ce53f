//! The vectors of the sheet program: inputs with the bytes that it must print. `vectors/README.md`
//! describes their lines.

use std::path::Path;

use crate::sheet;
use crate::vectors::{read, Compared};

/// The file of a folder that holds them.
const FILE: &str = "sheets.txt";

/// What the first line of a sheet begins with.
const START: &str = "sheet ";

/// The text of a folder's vectors.
pub fn text(folder: &Path) -> Result<String, String> {
    read(folder, FILE)
}

/// Whether a text holds sheets.
pub fn are_in(text: &str) -> bool {
    text.starts_with(START)
}

/// Runs every sheet of a text, and adds what it came to.
pub fn run(text: &str, compared: &mut Compared) {
    let lines: Vec<&str> = text.lines().collect();
    for (number, sheet) in lines.chunks(3).enumerate() {
        compared.sheets += 1;
        if let Some(difference) = difference(number, sheet) {
            let line = 3 * number + 1;
            compared
                .differences
                .push(format!("line {line}: {difference}"));
        }
    }
}

/// What is wrong with the sheet of this number, if anything is.
fn difference(number: usize, lines: &[&str]) -> Option<String> {
    let Some((input, wanted)) = parse(number, lines) else {
        return Some(format!("not sheet {number} of the vector format"));
    };
    let given = sheet::run(&input);
    (given != wanted).then(|| {
        let shown = |bytes: &[u8]| String::from_utf8_lossy(bytes).into_owned();
        format!("wanted {:?}\n  given  {:?}", shown(&wanted), shown(&given))
    })
}

/// The input of the sheet of this number, and what it must print.
fn parse(number: usize, lines: &[&str]) -> Option<(Vec<u8>, Vec<u8>)> {
    let [title, input, output] = lines else {
        return None;
    };
    let input = parse_bytes(input)?;
    let right_title = format!("{START}{number} {}", input.len());
    (*title == right_title).then_some((input, parse_bytes(output)?))
}

/// The bytes of a line that has two hexadecimal digits for each.
fn parse_bytes(digits: &str) -> Option<Vec<u8>> {
    let pairs = digits.as_bytes().chunks(2);
    let byte = |pair: &[u8]| match pair {
        [_, _] => u8::from_str_radix(std::str::from_utf8(pair).ok()?, 16).ok(),
        _ => None,
    };
    pairs.map(byte).collect()
}
