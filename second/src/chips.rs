//! The example chips: small stores, one for each kind of answer that `why` gives.

use crate::calls;
use crate::generate::formatted;
use crate::geometry::{Geometry, SLOT_WORDS};
use crate::slot::Pair;
use crate::variant::Variant;

/// The geometry of every example: a head of 8 entries, level 1 of 16, and a bottom of 32.
const GEOMETRY: [u32; 3] = [8, 2, 3];

/// The badge and the floor that every example is about.
pub const PAIR: Pair = Pair { badge: 7, floor: 1 };

/// An example: the name of its file without `.chip`, and its store.
pub struct Chip {
    pub name: &'static str,
    pub store: Vec<u32>,
}

/// Every example.
pub fn examples() -> Vec<Chip> {
    let chip = |name, store| Chip { name, store };
    vec![
        chip("held-in-head", held_in_head()),
        chip("held-at-bottom", held_at_bottom()),
        chip("removed", removed()),
        chip("never-there", never_there()),
        chip("damaged", damaged()),
    ]
}

/// Words as a chip keeps them: four bytes each, lowest first.
pub fn bytes(words: &[u32]) -> Vec<u8> {
    words.iter().flat_map(|word| word.to_le_bytes()).collect()
}

/// Badges 5, 6 and 7 are put on floor 1. A head of three entries stays a head.
fn held_in_head() -> Vec<u32> {
    let mut store = empty();
    put_badges(&mut store, 5..=7, 1);
    store
}

/// Badges 1 to 16 are put on floor 1. The eighth put merges the head into level 1, and the sixteenth
/// merges both into the bottom.
fn held_at_bottom() -> Vec<u32> {
    let mut store = empty();
    put_badges(&mut store, 1..=16, 1);
    store
}

/// The pair is in the bottom when it is dropped. Seven badges are put on floor 2, and the merge of
/// the head takes the drop's filter into level 1.
fn removed() -> Vec<u32> {
    let mut store = held_at_bottom();
    let mut work = vec![0; geometry().work_words()];
    calls::drop(Variant::Right, &mut store, &mut work, PAIR);
    put_badges(&mut store, 21..=27, 2);
    store
}

/// Badges 1 to 28 but 7 are put on floor 1: sixteen stand in the bottom, eight in level 1, and three in
/// the head.
fn never_there() -> Vec<u32> {
    let mut store = empty();
    put_badges(&mut store, 1..=6, 1);
    put_badges(&mut store, 8..=28, 1);
    store
}

/// One bit of the bottom is flipped in the store that holds the pair there: the tag of its first slot
/// becomes that of a fence.
fn damaged() -> Vec<u32> {
    let mut store = held_at_bottom();
    let first_slot = geometry().page_start(geometry().bottom(), 0) + 1;
    store[first_slot + SLOT_WORDS - 1] ^= 2;
    store
}

/// The geometry of every example.
fn geometry() -> Geometry {
    let [head, ratio, levels] = GEOMETRY;
    Geometry::new(head, ratio, levels).expect("a geometry in its ranges")
}

/// The store of the empty set.
fn empty() -> Vec<u32> {
    formatted(geometry())
}

/// Puts badges on a floor, one after another.
fn put_badges(store: &mut [u32], badges: std::ops::RangeInclusive<u32>, floor: u32) {
    let mut work = vec![0; geometry().work_words()];
    for badge in badges {
        calls::put(Variant::Right, store, &mut work, Pair { badge, floor });
    }
}
