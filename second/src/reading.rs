//! Words to slots and entries, as they stand, with no test of their sense.
//!
//! Every function here but the first wants a store of its geometry's exact length.

use crate::fault::Place;
use crate::geometry::{
    Geometry, HEAD_COUNT, HEAD_SLOTS, LIVE, PAGE_COUNTS, PAGE_SLOTS, SLOT_WORDS,
};
use crate::slot::{Entry, Pair, Slot};
use crate::tree::Tree;

/// The geometry that words 0 to 2 give, or none if a number is outside its range.
pub fn geometry(store: &[u32]) -> Option<Geometry> {
    match store {
        [h, k, l, ..] => Geometry::new(*h, *k, *l),
        _ => None,
    }
}

/// The stored number of live pairs.
pub fn live(store: &[u32]) -> u32 {
    store[LIVE]
}

/// The page count that the directory gives level 1, 2 or 3.
pub fn page_count(store: &[u32], level: usize) -> u32 {
    store[PAGE_COUNTS + level - 1]
}

/// The pages of a level, as many as the directory gives it and its room has.
pub fn page_numbers(geometry: Geometry, store: &[u32], level: usize) -> std::ops::Range<usize> {
    let pages = page_count(store, level) as usize;
    0..pages.min(geometry.page_room(level))
}

/// The head's used slots; a count above its room is read as the room.
pub fn head(geometry: Geometry, store: &[u32]) -> Vec<Slot> {
    let used = (store[HEAD_COUNT] as usize).min(geometry.head_room());
    run(store, HEAD_SLOTS, used)
}

/// The slot count of a page.
pub fn slot_count(geometry: Geometry, store: &[u32], level: usize, page: usize) -> u32 {
    store[geometry.page_start(level, page)]
}

/// A page's used slots; a count above 21 is read as 21.
pub fn page(geometry: Geometry, store: &[u32], level: usize, page: usize) -> Vec<Slot> {
    let used = (slot_count(geometry, store, level, page) as usize).min(PAGE_SLOTS);
    run(store, geometry.page_start(level, page) + 1, used)
}

/// The pair in the first slot of each page of a level, whatever that page's count.
pub fn first_pairs(geometry: Geometry, store: &[u32], level: usize) -> Vec<Pair> {
    page_numbers(geometry, store, level)
        .map(|page| run(store, geometry.page_start(level, page) + 1, 1)[0].pair)
        .collect()
}

/// The index entries of a level in the order in which they stand, by kind alone.
pub fn entries(geometry: Geometry, store: &[u32], level: usize) -> Vec<Entry> {
    let placed = placed_entries(geometry, store, level);
    placed.into_iter().map(|(_, entry)| entry).collect()
}

/// The index entries of a level with their places, in the order in which they stand.
pub fn placed_entries(geometry: Geometry, store: &[u32], level: usize) -> Vec<(Place, Entry)> {
    let pages = if level == 0 {
        vec![head(geometry, store)]
    } else {
        page_numbers(geometry, store, level)
            .map(|number| page(geometry, store, level, number))
            .collect()
    };
    let mut placed = Vec::new();
    for (page, slots) in pages.iter().enumerate() {
        for (slot, words) in slots.iter().enumerate() {
            let place = Place { level, page, slot };
            placed.extend(Entry::of_slot(words).map(|entry| (place, entry)));
        }
    }
    placed
}

/// The index entries of every level.
pub fn tree(geometry: Geometry, store: &[u32]) -> Tree {
    Tree {
        geometry,
        levels: (0..geometry.levels())
            .map(|level| entries(geometry, store, level))
            .collect(),
    }
}

/// A run of this many slots that begins at this place.
fn run(store: &[u32], start: usize, slots: usize) -> Vec<Slot> {
    store[start..start + SLOT_WORDS * slots]
        .chunks(SLOT_WORDS)
        .map(|words| Slot::of_words(words[0], words[1], words[2]))
        .collect()
}
