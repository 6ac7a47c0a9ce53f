//! An in-place B+-tree on pages of 64 words, as a rival in pages written.
//!
//! A leaf has its count and up to 31 pairs; an inner page its count, its first child, and up to 20
//! pairs with a child each. A pair's two words and a child's one are as in the index, without tags.
//! Every page that an update changes is written once. The tree is treated kindly: a page is
//! given up only when it is empty, and not written then, so a drop writes one page as a rule, and
//! neither the place of the root nor a list of free pages is counted.

use crate::index::Pair;

/// The pairs of a leaf: (64 - 1) / 2 words.
const LEAF_PAIRS: usize = 31;
/// The pairs of an inner page: (64 - 2) / 3 words.
const INNER_PAIRS: usize = 20;

/// A page.
enum Page {
    Leaf(Vec<Pair>),
    /// One child more than pairs; a child's pairs are from the pair before it on.
    Inner(Vec<Pair>, Vec<usize>),
}

/// A tree, the pages that it has written, and in how many runs: a page right behind the one
/// written before it goes on with a run.
pub struct Tree {
    pages: Vec<Page>,
    root: usize,
    pub written: usize,
    pub runs: usize,
    last: usize,
}

/// What a put did to a page: nothing for the page above, or a second page from a pair on.
enum Put {
    Done,
    Split(Pair, usize),
}

impl Tree {
    /// The tree of the empty set.
    pub fn new() -> Tree {
        Tree {
            pages: vec![Page::Leaf(Vec::new())],
            root: 0,
            written: 0,
            runs: 0,
            last: 0,
        }
    }

    /// Puts a pair that is not held.
    pub fn put(&mut self, pair: Pair) {
        if let Put::Split(from, right) = self.put_below(self.root, pair) {
            let left = self.root;
            self.root = self.add(Page::Inner(vec![from], vec![left, right]));
        }
    }

    /// Drops a pair that is held.
    pub fn drop(&mut self, pair: Pair) {
        self.drop_below(self.root, pair);
        while let Page::Inner(_, children) = &self.pages[self.root] {
            if children.len() > 1 {
                break;
            }
            self.root = children[0];
        }
    }

    /// Whether a pair is held.
    pub fn holds(&self, pair: Pair) -> bool {
        let mut at = self.root;
        loop {
            match &self.pages[at] {
                Page::Leaf(pairs) => return pairs.binary_search(&pair).is_ok(),
                Page::Inner(pairs, children) => at = children[child_of(pairs, pair)],
            }
        }
    }

    /// Puts a pair into a page or below it.
    fn put_below(&mut self, at: usize, pair: Pair) -> Put {
        let child = match &mut self.pages[at] {
            Page::Leaf(pairs) => {
                let place = pairs.partition_point(|other| *other < pair);
                pairs.insert(place, pair);
                return self.split_if_full(at);
            }
            Page::Inner(pairs, children) => children[child_of(pairs, pair)],
        };
        let Put::Split(from, right) = self.put_below(child, pair) else {
            return Put::Done;
        };
        if let Page::Inner(pairs, children) = &mut self.pages[at] {
            let place = pairs.partition_point(|other| *other < from);
            pairs.insert(place, from);
            children.insert(place + 1, right);
        }
        self.split_if_full(at)
    }

    /// Writes a page, or two if it has more pairs than it has room for.
    fn split_if_full(&mut self, at: usize) -> Put {
        self.write(at);
        let (from, right) = match &mut self.pages[at] {
            Page::Leaf(pairs) if pairs.len() > LEAF_PAIRS => {
                let right = pairs.split_off(pairs.len() / 2);
                (right[0], Page::Leaf(right))
            }
            Page::Inner(pairs, children) if pairs.len() > INNER_PAIRS => {
                let right = pairs.split_off(pairs.len() / 2 + 1);
                let from = pairs.pop().expect("more pairs than one");
                let right_children = children.split_off(pairs.len() + 1);
                (from, Page::Inner(right, right_children))
            }
            _ => return Put::Done,
        };
        Put::Split(from, self.add(right))
    }

    /// Drops a pair from a page or below it; tells whether the page is empty then.
    fn drop_below(&mut self, at: usize, pair: Pair) -> bool {
        let (place, child) = match &mut self.pages[at] {
            Page::Leaf(pairs) => {
                pairs.retain(|other| *other != pair);
                if pairs.is_empty() {
                    return true;
                }
                self.write(at);
                return false;
            }
            Page::Inner(pairs, children) => {
                let place = child_of(pairs, pair);
                (place, children[place])
            }
        };
        if !self.drop_below(child, pair) {
            return false;
        }
        let Page::Inner(pairs, children) = &mut self.pages[at] else {
            return false;
        };
        if children.len() == 1 {
            return true;
        }
        children.remove(place);
        pairs.remove(place.saturating_sub(1));
        self.write(at);
        false
    }

    /// Adds a new page, which is written.
    fn add(&mut self, page: Page) -> usize {
        let at = self.pages.len();
        self.pages.push(page);
        self.write(at);
        at
    }

    /// Counts a page that is written.
    fn write(&mut self, at: usize) {
        self.written += 1;
        self.runs += usize::from(at != self.last + 1);
        self.last = at;
    }
}

impl Default for Tree {
    /// The tree of the empty set.
    fn default() -> Tree {
        Tree::new()
    }
}

/// The number of the child that a pair belongs to.
fn child_of(pairs: &[Pair], pair: Pair) -> usize {
    pairs.partition_point(|other| *other <= pair)
}

#[cfg(test)]
mod tests {
    use std::collections::BTreeSet;

    use second::random::Random;

    use super::Tree;

    #[test]
    fn the_tree_holds_what_a_set_holds() {
        let mut random = Random::new(5);
        let (mut tree, mut set) = (Tree::new(), BTreeSet::new());
        for round in 0..40_000 {
            let pair = (random.below(3000) as u32, 0);
            if set.remove(&pair) {
                tree.drop(pair);
            } else if round < 20_000 || random.one_in(3) {
                set.insert(pair);
                tree.put(pair);
            }
            let asked = (random.below(3000) as u32, 0);
            assert_eq!(tree.holds(asked), set.contains(&asked));
        }
    }
}
