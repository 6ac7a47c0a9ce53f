//! The sheet program: the paper's example, its edges and every kind of fault.

use second::sheet::{run, MOST_BYTES};
use second::sheets::{example, faulty, good, longest, refusals, START};

/// What the program prints, as text.
fn printed(input: &[u8]) -> String {
    String::from_utf8(run(input)).expect("plain text")
}

#[test]
fn the_example_of_the_paper() {
    let wanted = "put=0\nput=2\nask=1\ndrop=0\nask=0\n\
                  live=0\nhead=0\nlevel1=0\nlevel2=0\npages=0\n";
    assert_eq!(printed(example().as_bytes()), wanted);
}

#[test]
fn counts_refusals_and_pages() {
    let text = printed(refusals().as_bytes());
    let lines: Vec<&str> = text.lines().collect();
    assert!(lines[..16].iter().all(|line| *line == "put=0"));
    let rest = [
        "put=4",
        "put=2",
        "drop=3",
        "live=16",
        "head=0",
        "level1=0",
        "level2=16",
        "pages=8",
    ];
    assert_eq!(lines[16..], rest);
}

#[test]
fn only_existing_levels_are_printed() {
    let two = printed(b"head=1\nratio=2\nlevels=2\n");
    assert_eq!(two, "live=0\nhead=0\nlevel1=0\npages=0\n");
    let four = printed(b"head=1\nratio=2\nlevels=4\n");
    assert_eq!(
        four,
        "live=0\nhead=0\nlevel1=0\nlevel2=0\nlevel3=0\npages=0\n"
    );
}

#[test]
fn numbers_at_the_edge_are_taken() {
    for number in ["0", "1", "10", "4294967295"] {
        let sheet = format!("{START}op=ask\nbadge={number}\nfloor={number}\n");
        assert!(printed(sheet.as_bytes()).starts_with("ask=0\n"), "{number}");
    }
}

#[test]
fn good_sheets_end_in_their_pages() {
    for sheet in good() {
        assert!(sheet.len() <= MOST_BYTES);
        let text = printed(&sheet);
        let last = text.lines().last().unwrap_or_default();
        assert!(last.starts_with("pages="), "{text}");
    }
}

#[test]
fn a_fault_prints_its_line_alone() {
    for (sheet, line) in faulty() {
        let shown = String::from_utf8_lossy(&sheet);
        assert_eq!(printed(&sheet), format!("line={line}\n"), "{shown:?}");
    }
}

#[test]
fn the_most_words_of_a_store() {
    // 27,3,4 has 4,079 words, the most of any below the limit.
    assert!(printed(b"head=27\nratio=3\nlevels=4\n").starts_with("live=0\n"));
}

#[test]
fn the_most_bytes_of_a_sheet() {
    let sheet = longest();
    assert_eq!(sheet.len(), MOST_BYTES);
    assert_eq!(printed(sheet.as_bytes()).matches("ask=0\n").count(), 711);
}
