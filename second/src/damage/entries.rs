//! Damage to a tree's index entries, which are then written by the rules.

use super::Named;
use crate::random::Random;
use crate::slot::{Entry, Pair};
use crate::tree::{columns, Tree};

/// Damages the entries of a tree.
pub type Spoil = fn(&mut Random, &mut Tree);

/// Every kind of damage to entries.
pub const KINDS: &[Named<Spoil>] = &[
    ("kind flipped", flip_kind),
    ("two kinds flipped", flip_two_kinds),
    ("lower one removed", remove_lowest),
    ("same kind above", repeat_above),
    ("twice in a level", repeat_in_level),
    ("out of order", swap),
    ("level at capacity", fill_level),
    ("head at capacity", fill_head),
    ("filter in the bottom", filter_in_bottom),
    ("bottom over M", overfill_bottom),
];

/// Makes a normal entry a filter, or a filter normal.
fn flip_kind(random: &mut Random, tree: &mut Tree) {
    if let Some((level, at)) = any_place(random, tree) {
        let entry = &mut tree.levels[level][at];
        entry.filter = !entry.filter;
    }
}

/// Flips the kinds of two entries, in one level or in two.
fn flip_two_kinds(random: &mut Random, tree: &mut Tree) {
    flip_kind(random, tree);
    flip_kind(random, tree);
}

/// Removes the lowest entry of a pair, one with others above it if there is one.
fn remove_lowest(random: &mut Random, tree: &mut Tree) {
    let entries = tree.by_pair();
    let mut stacked = columns(&entries);
    stacked.retain(|column| column.len() > 1);
    let pairs: Vec<Pair> = stacked.iter().map(|column| column[0].pair).collect();
    if pairs.is_empty() {
        return flip_kind(random, tree);
    }
    let pair = *random.pick(&pairs);
    let has = |level: &Vec<Entry>| level.iter().any(|entry| entry.pair == pair);
    if let Some(level) = tree.levels.iter_mut().rfind(|level| has(level)) {
        level.retain(|entry| entry.pair != pair);
    }
}

/// Adds an entry of the same kind above another, in a level that does not have its pair.
fn repeat_above(random: &mut Random, tree: &mut Tree) {
    if let Some((level, at)) = any_place(random, tree) {
        let entry = tree.levels[level][at];
        let above = &mut tree.levels[random.below(level)];
        above.retain(|other| other.pair != entry.pair);
        insert(above, entry);
    }
}

/// Adds an entry of a pair to a level that has one already, of either kind.
fn repeat_in_level(random: &mut Random, tree: &mut Tree) {
    if let Some((level, at)) = any_place(random, tree) {
        let mut entry = tree.levels[level][at];
        entry.filter ^= random.one_in(2);
        insert(&mut tree.levels[level], entry);
    }
}

/// Exchanges two entries of a level, mostly neighbours.
fn swap(random: &mut Random, tree: &mut Tree) {
    if let Some((level, at)) = any_place(random, tree) {
        let entries = &mut tree.levels[level];
        let other = if random.one_in(3) {
            random.below(entries.len())
        } else {
            (at + 1) % entries.len()
        };
        entries.swap(at, other);
    }
}

/// Fills a level above the bottom up to its capacity with normal entries.
fn fill_level(random: &mut Random, tree: &mut Tree) {
    let level = random.below(tree.geometry.bottom());
    let capacity = tree.geometry.capacity(level);
    fill(random, &mut tree.levels[level], capacity, false);
}

/// Fills the head up to its capacity or a little more.
fn fill_head(random: &mut Random, tree: &mut Tree) {
    let entries = tree.geometry.capacity(0) + random.below(2);
    fill(random, &mut tree.levels[0], entries, false);
}

/// Makes a bottom entry a filter, or adds one.
fn filter_in_bottom(random: &mut Random, tree: &mut Tree) {
    let bottom = &mut tree.levels[tree.geometry.bottom()];
    if bottom.is_empty() || random.one_in(3) {
        let more = bottom.len() + 1;
        return fill(random, bottom, more, true);
    }
    let at = random.below(bottom.len());
    bottom[at].filter = true;
}

/// Fills the bottom to M or one more, with filters or normal entries.
fn overfill_bottom(random: &mut Random, tree: &mut Tree) {
    let filters = random.one_in(2);
    let entries = tree.geometry.most() + random.below(3) / 2 + random.below(2);
    let bottom = tree.geometry.bottom();
    fill(random, &mut tree.levels[bottom], entries, filters);
}

/// A level and a place in it that has an entry.
fn any_place(random: &mut Random, tree: &Tree) -> Option<(usize, usize)> {
    let filled: Vec<usize> = (0..tree.levels.len())
        .filter(|level| !tree.levels[*level].is_empty())
        .collect();
    if filled.is_empty() {
        return None;
    }
    let level = *random.pick(&filled);
    Some((level, random.below(tree.levels[level].len())))
}

/// Adds entries of new pairs until the level has so many.
fn fill(random: &mut Random, level: &mut Vec<Entry>, entries: usize, filter: bool) {
    while level.len() < entries {
        let pair = Pair {
            badge: random.below(500) as u32,
            floor: random.word(),
        };
        if level.iter().all(|entry| entry.pair != pair) {
            insert(level, Entry { pair, filter });
        }
    }
}

/// Adds an entry after those that are not above it.
fn insert(level: &mut Vec<Entry>, entry: Entry) {
    let at = level.iter().filter(|e| e.pair <= entry.pair).count();
    level.insert(at, entry);
}
