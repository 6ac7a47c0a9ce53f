//! Putting, dropping, merging: the FD-tree as one plain list of index entries a level.

use crate::geometry::Geometry;
use crate::layout::lay_tree;
use crate::slot::{Entry, Pair};
use crate::variant::Variant;

/// The index entries of every level, from the head down, each list ascending.
#[derive(Clone, Debug, PartialEq, Eq)]
pub struct Tree {
    pub geometry: Geometry,
    pub levels: Vec<Vec<Entry>>,
}

/// What the merges of one call did: the deepest level merged into, and the pages written.
#[derive(Clone, Copy, Debug, Default, PartialEq, Eq)]
pub struct Merged {
    pub deepest: usize,
    pub pages: usize,
}

impl Tree {
    /// The tree of the empty set.
    pub fn empty(geometry: Geometry) -> Tree {
        Tree {
            geometry,
            levels: vec![Vec::new(); geometry.levels()],
        }
    }

    /// Puts a pair that is not held.
    pub fn put(&mut self, pair: Pair, variant: Variant) -> Merged {
        self.update(
            Entry {
                pair,
                filter: false,
            },
            variant,
        )
    }

    /// Drops a pair that is held.
    pub fn drop(&mut self, pair: Pair, variant: Variant) -> Merged {
        self.update(Entry { pair, filter: true }, variant)
    }

    /// Takes this pair's other kind out of the head, or else adds this entry; then merges if full.
    pub fn update(&mut self, entry: Entry, variant: Variant) -> Merged {
        let head = &mut self.levels[0];
        match head.iter().position(|e| e.pair == entry.pair) {
            Some(at) => {
                head.remove(at);
            }
            None => {
                let at = head.iter().filter(|e| e.pair < entry.pair).count();
                head.insert(at, entry);
            }
        }
        let mut merged = Merged::default();
        if self.levels[0].len() >= self.geometry.capacity(0) {
            self.merge(1, &mut merged, variant);
        }
        merged
    }

    /// Merges the level above into this one, which leaves it empty, then settles this one.
    fn merge(&mut self, into: usize, merged: &mut Merged, variant: Variant) {
        let above = std::mem::take(&mut self.levels[into - 1]);
        let before_bottom = into < self.geometry.bottom();
        self.levels[into] = join(&above, &self.levels[into], before_bottom, variant);
        let laid = lay_tree(self, variant);
        merged.deepest = into;
        merged.pages += laid.levels[..into].iter().map(Vec::len).sum::<usize>();
        self.settle(into, merged, variant);
    }

    /// Merges a level above the bottom on, if it has reached its capacity.
    fn settle(&mut self, level: usize, merged: &mut Merged, variant: Variant) {
        let full = self.levels[level].len() >= self.geometry.capacity(level);
        if level < self.geometry.bottom() && full {
            self.merge(level + 1, merged, variant);
        }
    }

    /// All entries in the order of their pairs, those of one pair from the top down.
    pub fn by_pair(&self) -> Vec<Entry> {
        let mut entries = self.levels.concat();
        entries.sort_by_key(|entry| entry.pair);
        entries
    }

    /// The held pairs in ascending order: those whose topmost entry is normal.
    pub fn held(&self) -> Vec<Pair> {
        let entries = self.by_pair();
        let tops = columns(&entries).into_iter().map(|column| column[0]);
        let held = tops.filter(|top| !top.filter);
        held.map(|top| top.pair).collect()
    }
}

/// Entries by pair cut into columns, one for each pair, each from the top down.
pub fn columns(by_pair: &[Entry]) -> Vec<&[Entry]> {
    by_pair
        .chunk_by(|one, next| one.pair == next.pair)
        .collect()
}

/// The entries of two neighbouring levels in order, a pair that is in both left out.
fn join(above: &[Entry], below: &[Entry], before_bottom: bool, variant: Variant) -> Vec<Entry> {
    let has = |level: &[Entry], pair: Pair| level.binary_search_by_key(&pair, |e| e.pair).is_ok();
    let cancels =
        |e: &Entry| has(below, e.pair) && (e.filter || variant != Variant::CancelOnlyFilterAbove);
    let lost = |e: &Entry| {
        let unmatched = e.filter && !has(below, e.pair);
        unmatched && before_bottom && variant == Variant::DropUnmatchedFilter
    };
    let gone = |e: &&Entry| cancels(e) || lost(e);
    let gone: Vec<Entry> = above.iter().filter(gone).copied().collect();
    let mut joined: Vec<Entry> = above.iter().chain(below).copied().collect();
    joined.retain(|e| !has(&gone, e.pair));
    joined.sort_by_key(|e| e.pair);
    joined
}
