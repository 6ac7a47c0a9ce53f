//! The bench table's eleven cases.

use second::cases;
use second::variant::Variant;

#[test]
fn all_eleven_cases_are_right() {
    let ran = cases::run(Variant::Right);
    assert_eq!(ran.len(), 11);
    for case in ran {
        assert!(
            case.differences.is_empty(),
            "case {}: {:#?}",
            case.number,
            case.differences
        );
    }
}

#[test]
fn a_false_build_is_wrong_in_the_table() {
    let right = cases::run(Variant::Right);
    for (variant, number) in [
        (Variant::PagesOneMore, 1),
        (Variant::FullBeforeHeld, 5),
        (Variant::SaysHeld, 7),
        (Variant::InternalFenceOwnPage, 8),
        (Variant::PageByte, 9),
        (Variant::WritesNothing, 10),
        (Variant::ListFirstOnly, 11),
    ] {
        let ran = &cases::run(variant)[number - 1];
        assert!(!ran.differences.is_empty(), "{variant:?}");
        assert_ne!(ran.lines, right[number - 1].lines, "{variant:?}");
    }
}
