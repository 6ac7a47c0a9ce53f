//! The writing of a store: slots and pages to words.

use crate::geometry::{Geometry, MOST_LEVELS, ONES, PAGE_WORDS, SLOT_WORDS};
use crate::layout::{lay_tree, Laid, Page};
use crate::slot::Slot;
use crate::tree::Tree;
use crate::variant::Variant;

/// The store of a tree with this many live pairs.
pub fn write_tree(tree: &Tree, live: u32, variant: Variant) -> Vec<u32> {
    write_laid(tree.geometry, live, &lay_tree(tree, variant))
}

/// The store with these used slots; what goes beyond a room is left out.
pub fn write_laid(geometry: Geometry, live: u32, laid: &Laid) -> Vec<u32> {
    let mut words = geometry.words().to_vec();
    words.push(live);
    for level in 1..MOST_LEVELS {
        let pages = laid.levels.get(level - 1).map_or(0, Vec::len);
        words.push(pages as u32);
    }
    words.push(0);
    words.extend(head_words(geometry, &laid.head));
    for level in 1..geometry.levels() {
        words.extend(level_words(geometry, level, &laid.levels[level - 1]));
    }
    words
}

/// The head's words: its slot count, then its whole room.
pub fn head_words(geometry: Geometry, slots: &[Slot]) -> Vec<u32> {
    run_words(slots, 1 + SLOT_WORDS * geometry.head_room())
}

/// The words of a level's whole page room.
pub fn level_words(geometry: Geometry, level: usize, pages: &[Page]) -> Vec<u32> {
    let mut words: Vec<u32> = pages
        .iter()
        .flat_map(|page| run_words(page, PAGE_WORDS))
        .collect();
    words.resize(PAGE_WORDS * geometry.page_room(level), ONES);
    words
}

/// A slot count, these slots, and all ones up to this length.
fn run_words(slots: &[Slot], length: usize) -> Vec<u32> {
    let mut words = vec![slots.len() as u32];
    words.extend(slots.iter().flat_map(Slot::words));
    words.resize(length, ONES);
    words
}
