//! What the gate holds to what.

use stack_gate::computed::Computed;
use stack_gate::gate::{faults, painted};

/// An ask of these computed bytes, which calls memset.
fn ask(bytes: u64) -> Vec<Computed> {
    vec![Computed {
        name: "ask",
        bytes,
        path: Vec::new(),
        outside: vec!["memset".to_string()],
    }]
}

/// What is wrong with an ask of these computed bytes beside what was painted.
fn wrong(bytes: u64, lines: &str, bound: Option<u64>) -> Vec<String> {
    faults(&ask(bytes), &painted(lines).expect("painted"), bound)
}

#[test]
fn a_call_within_its_bound_passes() {
    assert!(wrong(512, "ask 512\n", None).is_empty());
    assert!(wrong(360, "ask 352\n", None).is_empty());
}

#[test]
fn a_call_above_its_bound_fails() {
    assert_eq!(
        wrong(520, "ask 352\n", None),
        ["ask: computed 520 bytes, of 512 allowed"]
    );
    let both = [
        "ask: computed 360 bytes, of 100 allowed",
        "ask: painted 352 bytes, of 100 allowed",
    ];
    assert_eq!(wrong(360, "ask 352\n", Some(100)), both);
}

#[test]
fn a_painted_figure_above_the_computed_one_fails() {
    let said = "ask: painted 352 bytes, but 344 computed; besides memset's own";
    assert_eq!(wrong(344, "ask 352\n", None), [said]);
}

#[test]
fn a_call_that_only_one_of_the_two_knows_fails() {
    assert_eq!(wrong(344, "", None), ["ask: not painted"]);
    assert_eq!(
        wrong(344, "ask 344\nnew 8\n", None),
        ["new: painted, but not computed"]
    );
}

#[test]
fn a_line_that_is_not_a_call_and_its_bytes_is_refused() {
    assert!(painted("ask many\n").is_err());
    assert!(painted("ask\n").is_err());
}
