//! The example chips are those that the program writes, and their README tells what `why` prints.

use std::path::PathBuf;

use second::chips::{bytes, examples, PAIR};
use second::why;

/// The path of a file in the folder of example chips.
fn path(name: &str) -> PathBuf {
    let second = PathBuf::from(env!("CARGO_MANIFEST_DIR"));
    second.join("../examples/chips").join(name)
}

/// The row of the README's table that tells what `why` prints of a chip.
fn row(readme: &str, name: &str, told: &str) -> bool {
    let lines: Vec<String> = told.lines().map(|line| format!("`{line}`")).collect();
    let start = format!("| `{name}.chip` | ");
    let end = format!(
        " | {} | {} | {} |",
        PAIR.badge,
        PAIR.floor,
        lines.join("<br>")
    );
    let rows = readme.lines().filter(|line| line.starts_with(&start));
    rows.filter(|line| line.ends_with(&end)).count() == 1
}

#[test]
fn the_files_are_those_that_the_program_writes() {
    for chip in examples() {
        let file = std::fs::read(path(&format!("{}.chip", chip.name))).expect(chip.name);
        assert_eq!(file, bytes(&chip.store), "{}", chip.name);
    }
    let files = std::fs::read_dir(path("")).expect("a folder");
    let names = files.map(|file| file.expect("a file").file_name());
    let chips = names.filter(|name| name.to_string_lossy().ends_with(".chip"));
    assert_eq!(chips.count(), examples().len());
}

#[test]
fn the_readme_tells_what_is_printed() {
    let readme = std::fs::read_to_string(path("README.md")).expect("a README");
    let [badge, floor] = [PAIR.badge, PAIR.floor].map(|number| number.to_string());
    for chip in examples() {
        let words = format!(": {} words of four bytes", chip.store.len());
        assert!(readme.contains(&words), "{}", chip.name);
        let arguments = [badge.as_bytes(), floor.as_bytes()];
        let told = why::run(&arguments, &bytes(&chip.store));
        assert!(
            row(&readme, chip.name, &told.text),
            "{}: {}",
            chip.name,
            told.text
        );
    }
}
