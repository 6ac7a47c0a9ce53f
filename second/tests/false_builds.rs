//! Every false build is found, by the vectors or by a replay beside the right one. Those that tell a
//! fault wrongly show themselves on damaged stores alone.

mod common;

use second::beside::Beside;
use second::fault::NUMBERS;
use second::geometry::Geometry;
use second::replay::Replay;
use second::variant::{Variant, FALSE_BUILDS};
use second::vectors::{run, Compared};

/// The builds that answer on every sound store as the right one does.
const ON_DAMAGE: [Variant; 6] = [
    Variant::HeadWritingBeforePages,
    Variant::LeftOfTwo,
    Variant::SlotFromOne,
    Variant::InternalFenceForEntry,
    Variant::LiveAtEntry,
    Variant::HeadToldAsDirectory,
];

/// Whether a build is found by sequences of some thousand calls on sound stores.
fn shows_on_sound_stores(variant: Variant) -> bool {
    variant != Variant::PageByte && !ON_DAMAGE.contains(&variant)
}

/// The differences of a build from the vectors.
fn differences(variant: Variant) -> usize {
    let mut compared = Compared::default();
    for text in common::vector_texts() {
        run(variant, &text, &mut compared);
    }
    compared.differences.len()
}

/// The first call of a replay after which a build differs from the right one.
fn replay_finds(variant: Variant, geometry: Geometry, calls: usize) -> Option<usize> {
    let right = Replay::new(Variant::Right, geometry, 1, None);
    let other = Replay::new(variant, geometry, 1, None);
    right.first_difference(other, calls)
}

#[test]
fn the_right_build_has_no_difference() {
    assert_eq!(differences(Variant::Right), 0);
    let geometry = common::geometry("10,4,3");
    assert_eq!(replay_finds(Variant::Right, geometry, 3000), None);
}

#[test]
fn the_vectors_find_all_but_two() {
    for variant in FALSE_BUILDS {
        let found = differences(variant) > 0;
        assert_eq!(
            found,
            !common::NOT_IN_VECTORS.contains(&variant),
            "{variant:?}"
        );
    }
}

#[test]
fn a_replay_finds_all_that_show_on_sound_stores() {
    let geometry = common::geometry("10,4,3");
    for variant in FALSE_BUILDS {
        let found = replay_finds(variant, geometry, 3000).is_some();
        assert_eq!(found, shows_on_sound_stores(variant), "{variant:?}");
    }
}

#[test]
fn a_large_replay_finds_a_page_number_cut_to_a_byte() {
    let geometry = common::geometry("64,8,4");
    let found = replay_finds(Variant::PageByte, geometry, 16_000);
    assert!(found.is_some());
}

#[test]
fn beside_the_right_build_sequences_find_all_that_show_on_sound_stores() {
    for variant in [Variant::Right].into_iter().chain(FALSE_BUILDS) {
        let mut beside = Beside::new(&variant);
        let found = ["4,2,3", "10,4,3"]
            .iter()
            .any(|text| beside.sequence(1, common::geometry(text), 1000).is_err());
        let wanted = variant != Variant::Right && shows_on_sound_stores(variant);
        assert_eq!(found, wanted, "{variant:?}");
    }
}

#[test]
fn beside_the_right_build_damage_finds_those_that_tell_a_fault_wrongly() {
    for variant in ON_DAMAGE {
        let mut beside = Beside::new(&variant);
        assert!(beside.damaged(1, 4000).is_err(), "{variant:?}");
    }
    let mut beside = Beside::new(&Variant::Right);
    assert!(beside.damaged(1, 4000).is_ok());
    for number in NUMBERS {
        let met = beside.replies.get(&number);
        assert!(met.is_some_and(|met| *met > 500), "{number}: {met:?}");
    }
}
