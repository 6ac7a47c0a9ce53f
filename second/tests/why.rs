//! The program `why`: its lines, its refusals, and every kind of wrong input.

mod common;

use std::collections::BTreeSet;
use std::io::Write;
use std::process::{Command, Output, Stdio};

use second::calls::Reply;
use second::chips::{bytes, examples};
use second::generate::formatted;
use second::slot::LEAST;
use second::why::{lines, run, MOST_BYTES};
use second::whys::{inputs, script, Input};

/// What the program tells.
fn told(badge: &str, floor: &str, chip: &[u8]) -> (String, bool) {
    let told = run(&[badge.as_bytes(), floor.as_bytes()], chip);
    (told.text, told.wrong)
}

/// The line for standard error, as the program tells it.
fn wrong(line: &str) -> (String, bool) {
    (format!("why: {line}\n"), true)
}

/// The bytes of an example chip.
fn chip(name: &str) -> Vec<u8> {
    let chip = examples().into_iter().find(|chip| chip.name == name);
    bytes(&chip.expect(name).store)
}

/// The bytes of a formatted store.
fn fresh(geometry: &str) -> Vec<u8> {
    bytes(&formatted(common::geometry(geometry)))
}

/// Runs the command line, with these arguments and this input.
fn command(arguments: &[&str], input: &[u8]) -> Output {
    let mut child = Command::new(env!("CARGO_BIN_EXE_second"))
        .arg("why")
        .args(arguments)
        .stdin(Stdio::piped())
        .stdout(Stdio::piped())
        .stderr(Stdio::piped())
        .spawn()
        .expect("the program");
    let mut stdin = child.stdin.take().expect("its input");
    stdin.write_all(input).expect("its input is read");
    drop(stdin);
    child.wait_with_output().expect("its output")
}

#[test]
fn a_pair_that_is_held() {
    let text = "level=0 page=0 slot=0 follows=0\n\
                level=1 page=0 slot=0 follows=0\n\
                level=2 page=0 slot=6 entry=normal\n\
                held=1 decided=2\n\
                Badge 7 may call floor 1: it was added, and the addition stands in level 2.\n";
    assert_eq!(told("7", "1", &chip("held-at-bottom")).0, text);
}

#[test]
fn a_pair_that_was_removed() {
    let text = "level=0 page=0 slot=0 follows=0\n\
                level=1 page=0 slot=1 entry=filter\n\
                held=0 decided=1\n\
                Badge 7 may not call floor 1: it was removed, and the removal stands in level 1.\n";
    assert_eq!(told("7", "1", &chip("removed")).0, text);
}

#[test]
fn a_pair_that_was_never_there() {
    let text = "level=0 page=0 slot=0 follows=0\n\
                level=1 page=0\n\
                held=0 decided=2\n\
                Badge 4294967295 may not call floor 0: no entry for it was found.\n";
    assert_eq!(told("4294967295", "0", &fresh("1,2,2")).0, text);
}

#[test]
fn refusals() {
    let lines = [
        (
            told("7", "1", &[0; 36]),
            "reply=1\nThe chip cannot be read: its first three words name no geometry.\n",
        ),
        (
            told("7", "1", &[]),
            "reply=5\nThe chip cannot be read: its length is not the one that its geometry asks for.\n",
        ),
        (
            told("7", "1", &chip("damaged")),
            "reply=12 level=2 page=0 slot=0\n\
             The store is damaged: page 0 of level 2 is wrong at slot 0.\n",
        ),
    ];
    for (given, wanted) in lines {
        assert_eq!(given, (wanted.to_string(), false));
    }
}

#[test]
fn the_sentence_of_each_number() {
    let wanted = [
        (10, [0, 0, 0], "its directory is wrong"),
        (11, [0, 0, 5], "the head is wrong at slot 5"),
        (12, [1, 4, 2], "page 4 of level 1 is wrong at slot 2"),
        (
            13,
            [1, 4, 2],
            "level 1 is not as it is written, at slot 2 of page 4",
        ),
        (
            14,
            [1, 4, 2],
            "an entry in level 1, page 4, slot 2 does not fit the levels below",
        ),
        (14, [0, 0, 0], "the number of pairs is wrong"),
    ];
    for (number, values, says) in wanted {
        let reply = Reply {
            number,
            values: values.to_vec(),
        };
        let [level, page, slot] = values;
        let first = format!("reply={number} level={level} page={page} slot={slot}");
        let second = format!("The store is damaged: {says}.");
        assert_eq!(lines(LEAST, &reply), [first, second]);
    }
}

#[test]
fn wrong_input_is_told_in_this_order() {
    let count = "give a badge and a floor: ./why BADGE FLOOR < CHIP";
    for arguments in [&[][..], &[&b"7"[..]], &[&b"7"[..]; 3], &[&b"x"[..]; 3]] {
        let given = run(arguments, b"chip.");
        assert_eq!((given.text, given.wrong), wrong(count));
    }
    let badge = "the badge is no number from 0 to 4294967295";
    assert_eq!(told("x", "y", b"chip."), wrong(badge));
    let floor = "the floor is no number from 0 to 4294967295";
    assert_eq!(told("7", "y", b"chip."), wrong(floor));
    let too_long = "the chip has more than 492352 bytes";
    assert_eq!(told("7", "1", &vec![0; MOST_BYTES + 1]), wrong(too_long));
    let no_words = "the chip's bytes are no multiple of four";
    assert_eq!(told("7", "1", b"chip."), wrong(no_words));
}

#[test]
fn the_most_bytes_of_a_chip() {
    let mut chip = fresh("64,8,4");
    assert_eq!(chip.len(), MOST_BYTES);
    assert!(told("7", "1", &chip).0.contains("held=0 decided=4\n"));
    for _ in 0..4 {
        chip.push(0);
        assert_eq!(
            told("7", "1", &chip),
            wrong("the chip has more than 492352 bytes")
        );
    }
}

#[test]
fn the_command_writes_to_its_two_streams() {
    let chip = chip("removed");
    let output = command(&["7", "1"], &chip);
    assert_eq!(output.status.code(), Some(0));
    assert_eq!(output.stdout, told("7", "1", &chip).0.into_bytes());
    assert!(output.stderr.is_empty());
    for arguments in [
        &[][..],
        &["7"],
        &["7", "1", "1"],
        &["--build", "1"],
        &["7", "-1"],
    ] {
        let output = command(arguments, &chip);
        let arguments: Vec<&[u8]> = arguments.iter().map(|a| a.as_bytes()).collect();
        assert_eq!(output.status.code(), Some(2));
        assert_eq!(output.stderr, run(&arguments, &chip).text.into_bytes());
        assert!(output.stdout.is_empty());
    }
}

/// What kind of text an input gets: the number and the level of a fault, or else whether it is for
/// standard error, and what its last line says behind the badge and the floor.
fn kind(input: &Input) -> String {
    let told = input.told();
    let lines: Vec<&str> = told.text.lines().collect();
    if let Some((fault, _)) = lines[0].split_once(" page=").filter(|_| lines.len() == 2) {
        return fault.to_string();
    }
    let says = lines[lines.len() - 1].split(": ").skip(1);
    format!("{} {}", told.wrong, says.collect::<Vec<_>>().join(": "))
}

#[test]
fn the_inputs_show_every_kind_of_text() {
    let kinds: BTreeSet<String> = inputs().iter().map(kind).collect();
    let mut wanted: BTreeSet<String> = [
        "true the badge is no number from 0 to 4294967295",
        "true the floor is no number from 0 to 4294967295",
        "true the chip's bytes are no multiple of four",
        "false no entry for it was found.",
        "false its first three words name no geometry.",
        "false its length is not the one that its geometry asks for.",
    ]
    .map(String::from)
    .into();
    for level in 0..4 {
        wanted.insert(format!(
            "false it was added, and the addition stands in level {level}."
        ));
        wanted.insert(format!(
            "false it was removed, and the removal stands in level {level}."
        ));
    }
    for (number, levels) in [(10, 0..1), (11, 0..1), (12, 1..4), (13, 1..3)] {
        wanted.extend(levels.map(|level| format!("reply={number} level={level}")));
    }
    assert_eq!(kinds, wanted);
    let texts: String = inputs().iter().map(|input| input.told().text).collect();
    assert!(texts.contains("level=1 page=1 slot=") && texts.contains("level=2 page=1 slot="));
    let fault_at = |place: &str| {
        let mut firsts = texts.lines().filter(|line| line.starts_with("reply="));
        assert!(firsts.any(|line| line.ends_with(place)), "{place}");
    };
    ["page=0 slot=0", "page=0 slot=1", "page=1 slot=0"]
        .iter()
        .for_each(|place| fault_at(place));
    assert!(
        texts.lines().any(|line| line == "level=1 page=0"),
        "no page without a slot"
    );
}

#[test]
fn the_script_of_whys_is_of_a_small_size() {
    let (read, printed) = script();
    assert!(read.len() + printed.len() < 200_000);
}
