//! Damaged stores from a seed: named kinds of damage, and calls made on what they leave.

mod calls;
mod entries;
mod length;
mod loose;
mod slots;
mod source;
mod words;

use crate::geometry::Geometry;
use crate::layout::lay_tree;
use crate::random::Random;
use crate::variant::Variant;
use crate::vectors::Case;
use crate::writing::write_laid;

/// A named kind of damage.
type Named<T> = (&'static str, T);

/// What is damaged on the way from a sound tree to words, and how.
enum Damage {
    /// Nothing is damaged.
    None,
    /// The tree's entries are damaged, and then written by the rules.
    Entries(entries::Spoil),
    /// The tree is written by a false build's rules.
    Layout(Variant),
    /// The slots are damaged, and then put in pages and words as they are.
    Slots(slots::Spoil),
    /// Every run of slots has its form, but the runs do not fit together.
    Loose,
    /// The store's words are damaged.
    Words(words::Spoil),
    /// The slots are damaged, and then the words, so that two rules may be broken.
    SlotsAndWords(slots::Spoil, words::Spoil),
    /// The store's length is wrong.
    Length(length::Spoil),
}

/// The false builds whose layouts are damage.
const LAYOUTS: &[Named<Variant>] = &[
    ("first fence with its own pair", Variant::FirstFenceOwnPair),
    (
        "internal fence to its own page",
        Variant::InternalFenceOwnPage,
    ),
];

/// The name of damage to slots and then to words.
const BOTH: &str = "slots, and then words";

/// The names of all kinds of damage.
pub fn names() -> Vec<String> {
    let mut names = ["sound", "loose", BOTH].map(str::to_string).to_vec();
    names.extend(entries::KINDS.iter().map(|kind| name("entries", kind)));
    names.extend(LAYOUTS.iter().map(|kind| name("layout", kind)));
    names.extend(slots::KINDS.iter().map(|kind| name("slots", kind)));
    names.extend(words::KINDS.iter().map(|kind| name("word", kind)));
    names.extend(length::KINDS.iter().map(|kind| name("length", kind)));
    names
}

/// The case with this number: a few calls on a damaged store of a small geometry.
pub fn damaged(random: &mut Random, number: usize) -> Case {
    let geometry = source::small_geometry(random);
    let (name, damage) = any_damage(random);
    let store = damaged_store(random, geometry, &damage);
    Case {
        title: format!("case {number} {name} {geometry}"),
        calls: calls::on(random, geometry, &store),
        store,
    }
}

/// A kind of damage and its name.
fn any_damage(random: &mut Random) -> (String, Damage) {
    match random.below(27) {
        0 => ("sound".to_string(), Damage::None),
        1..4 => ("loose".to_string(), Damage::Loose),
        4..8 => {
            let kind = random.pick(entries::KINDS);
            (name("entries", kind), Damage::Entries(kind.1))
        }
        8 => {
            let kind = random.pick(LAYOUTS);
            (name("layout", kind), Damage::Layout(kind.1))
        }
        9..16 => {
            let kind = random.pick(slots::KINDS);
            (name("slots", kind), Damage::Slots(kind.1))
        }
        16..23 => {
            let kind = random.pick(words::KINDS);
            (name("word", kind), Damage::Words(kind.1))
        }
        23..26 => {
            let (slots, words) = (random.pick(slots::KINDS), random.pick(words::KINDS));
            (BOTH.to_string(), Damage::SlotsAndWords(slots.1, words.1))
        }
        _ => {
            let kind = random.pick(length::KINDS);
            (name("length", kind), Damage::Length(kind.1))
        }
    }
}

/// The name of a kind of damage, with what is damaged before it.
fn name<T>(damaged: &str, kind: &Named<T>) -> String {
    format!("{damaged}: {}", kind.0)
}

/// A store of this geometry with this damage.
fn damaged_store(random: &mut Random, geometry: Geometry, damage: &Damage) -> Vec<u32> {
    let mut tree = source::sound_tree(random, geometry);
    let mut live = source::live(&tree);
    if let Damage::Entries(spoil) = damage {
        spoil(random, &mut tree);
        if random.one_in(2) {
            live = source::live(&tree);
        }
    }
    let mut laid = match damage {
        Damage::Layout(variant) => lay_tree(&tree, *variant),
        Damage::Loose => loose::lay(random, geometry),
        _ => lay_tree(&tree, Variant::Right),
    };
    if let Damage::Slots(spoil) | Damage::SlotsAndWords(spoil, _) = damage {
        spoil(random, &tree, &mut laid);
    }
    let mut store = write_laid(geometry, live, &laid);
    match damage {
        Damage::Words(spoil) | Damage::SlotsAndWords(_, spoil) => {
            spoil(random, geometry, &mut store);
        }
        Damage::Length(spoil) => spoil(random, &mut store),
        _ => {}
    }
    store
}
