//! The replay's numbers are fixed: another program makes the same ones.

mod common;

use second::replay::Replay;
use second::variant::Variant;

/// The lines of a replay.
fn lines(text: &str, seed: u32, damage: Option<usize>, calls: usize, every: usize) -> Vec<String> {
    let geometry = common::geometry(text);
    Replay::new(Variant::Right, geometry, seed, damage).lines(calls, every)
}

#[test]
fn the_last_call_has_a_line() {
    let lines = lines("4,2,3", 9, None, 25, 10);
    let calls: Vec<&str> = lines
        .iter()
        .map(|line| line.split(' ').nth(1).expect("a number"))
        .collect();
    assert_eq!(calls, ["10", "20", "25"]);
}

#[test]
fn pinned_replays() {
    let pinned = |text, seed, damage| lines(text, seed, damage, 2000, 2000).join("\n");
    assert_eq!(
        pinned("4,2,3", 1, None),
        "calls 2000 live 7 store 360e4a38eeb3cfc4 work f5f45328a8ebdb25 replies 12ad456e15ada88e",
    );
    assert_eq!(
        pinned("4,2,3", 1, Some(40)),
        "calls 2000 live 16 store fc3bb61070e86b87 work f5f45328a8ebdb25 replies b41c6bb3bfb4dfb2",
    );
    assert_eq!(
        pinned("16,4,3", 7, None),
        "calls 2000 live 89 store 6ffb686fe53d4bf0 work c081fdb636a83ba5 replies caab640ebeeebada",
    );
}
