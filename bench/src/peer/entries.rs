//! The index entries of a level in order, their merge over all levels, and their numbers.

use std::slice::ChunksExact;

use super::plan::{is_fence, slot_key, slots, Plan, PAGE_WORDS, SLOT_WORDS};
use super::Key;

/// An index entry: a pair that is there (normal) or taken away (a filter).
#[derive(Clone, Copy)]
pub struct Entry {
    pub pair: Key,
    pub normal: bool,
}

impl Entry {
    /// The entry in a slot that holds one.
    pub fn of_slot(slot: &[u32]) -> Entry {
        Entry {
            pair: slot_key(slot),
            normal: slot[2] & 1 == 0,
        }
    }
}

/// The index entries of a level's pages, or of the head, in order.
pub struct Entries<'a> {
    pages: ChunksExact<'a, u32>,
    slots: ChunksExact<'a, u32>,
}

impl<'a> Entries<'a> {
    /// Those of a level, the head being level 0.
    pub fn of_level(store: &'a [u32], plan: &Plan, level: usize) -> Entries<'a> {
        if level == 0 {
            Entries {
                pages: [].chunks_exact(PAGE_WORDS),
                slots: plan.head(store).chunks_exact(SLOT_WORDS),
            }
        } else {
            Entries {
                pages: plan.level(store, level).chunks_exact(PAGE_WORDS),
                slots: [].chunks_exact(SLOT_WORDS),
            }
        }
    }
}

impl Iterator for Entries<'_> {
    type Item = Entry;

    /// The next index entry.
    fn next(&mut self) -> Option<Entry> {
        loop {
            for slot in self.slots.by_ref() {
                if !is_fence(slot[2]) {
                    return Some(Entry::of_slot(slot));
                }
            }
            self.slots = slots(self.pages.next()?).chunks_exact(SLOT_WORDS);
        }
    }
}

/// A pair with what the levels say of it.
pub struct Seen {
    pub pair: Key,
    /// What its topmost entry says.
    pub held: bool,
    /// Whether its entries alternate in kind, the lowest being normal.
    pub alternate: bool,
}

/// Every pair that a level has an entry of, ascending.
pub struct Merged<'a> {
    levels: [Entries<'a>; 4],
    fronts: [Option<Entry>; 4],
}

impl<'a> Merged<'a> {
    /// The pairs of a store whose levels are each sound.
    pub fn of_store(store: &'a [u32], plan: &Plan) -> Merged<'a> {
        let mut levels = [0, 1, 2, 3].map(|level| Entries::of_level(store, plan, level));
        let fronts = levels.each_mut().map(Entries::next);
        Merged { levels, fronts }
    }
}

impl Iterator for Merged<'_> {
    type Item = Seen;

    /// The next pair.
    fn next(&mut self) -> Option<Seen> {
        let pair = self.fronts.iter().flatten().map(|entry| entry.pair).min()?;
        let (mut held, mut alternate) = (false, true);
        for level in (0..4).rev() {
            match self.fronts[level] {
                Some(entry) if entry.pair == pair => {
                    alternate &= entry.normal != held;
                    held = entry.normal;
                    self.fronts[level] = self.levels[level].next();
                }
                _ => {}
            }
        }
        Some(Seen {
            pair,
            held,
            alternate,
        })
    }
}

/// The index entries in each level, by kind alone.
pub fn counts(store: &[u32], plan: &Plan) -> [u32; 4] {
    let count = |run: &[u32]| {
        run.chunks_exact(SLOT_WORDS)
            .map(|slot| u32::from(!is_fence(slot[2])))
            .sum::<u32>()
    };
    let mut counts = [count(plan.head(store)), 0, 0, 0];
    for (level, entries) in counts.iter_mut().enumerate().skip(1) {
        let pages = plan.level(store, level).chunks_exact(PAGE_WORDS);
        *entries = pages.map(|page| count(slots(page))).sum();
    }
    counts
}
