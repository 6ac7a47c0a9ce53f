//! Sound trees to begin with, and the geometries that they have.

use crate::call::perform;
use crate::generate::{formatted, Caller};
use crate::geometry::Geometry;
use crate::pairs::STYLES;
use crate::random::Random;
use crate::reading;
use crate::slot::Entry;
use crate::tree::Tree;
use crate::variant::Variant;

/// The most words of a store whose geometry is called small.
const SMALL_STORE: usize = 1900;

/// Geometries that are met more often than others.
const FAVOURITES: [(u32, u32, u32); 7] = [
    (1, 2, 2),
    (1, 2, 4),
    (4, 2, 3),
    (21, 2, 2),
    (10, 4, 3),
    (16, 4, 3),
    (2, 3, 4),
];

/// A geometry with a store of no more than some 1900 words.
pub fn small_geometry(random: &mut Random) -> Geometry {
    loop {
        let (head, ratio, levels) = if random.one_in(3) {
            *random.pick(&FAVOURITES)
        } else {
            let head = 1 + random.below(64) as u32;
            let ratio = 2 + random.below(7) as u32;
            (head, ratio, 2 + random.below(3) as u32)
        };
        match Geometry::new(head, ratio, levels) {
            Some(geometry) if geometry.store_words() <= SMALL_STORE => return geometry,
            _ => {}
        }
    }
}

/// A sound tree, reached by calls or put together level by level.
pub fn sound_tree(random: &mut Random, geometry: Geometry) -> Tree {
    if random.one_in(3) {
        called_tree(random, geometry)
    } else {
        drawn_tree(random, geometry)
    }
}

/// The live pairs of a tree: normal entries less filters, and never below 0.
pub fn live(tree: &Tree) -> u32 {
    let filters = tree.levels.iter().flatten().filter(|e| e.filter).count();
    let normals = tree.levels.iter().flatten().count() - filters;
    normals.saturating_sub(filters) as u32
}

/// The tree after random calls on a formatted store.
fn called_tree(random: &mut Random, geometry: Geometry) -> Tree {
    let mut caller = Caller::new(random.bits(), geometry);
    let mut store = formatted(geometry);
    for _ in 0..random.below(4 * geometry.most().min(200)) {
        let call = caller.next_call();
        let outcome = perform(Variant::Right, &mut store, call);
        caller.learn(call, &outcome.reply);
    }
    reading::tree(geometry, &store)
}

/// A tree whose levels are filled at random, each pair's kinds alternating upwards.
fn drawn_tree(random: &mut Random, geometry: Geometry) -> Tree {
    let mut tree = Tree::empty(geometry);
    let style = *random.pick(&STYLES);
    let space = geometry.most() + random.below(geometry.most()) + 1;
    let chances: Vec<usize> = (0..geometry.levels())
        .map(|level| random.below(2 * geometry.capacity(level)))
        .collect();
    for number in 0..space {
        let mut filter = false;
        let full = live(&tree) as usize == geometry.most();
        for level in (0..geometry.levels()).rev() {
            let bottom = level == geometry.bottom();
            let room = geometry.capacity(level) - usize::from(!bottom);
            let wanted = random.below(space) < chances[level];
            if wanted && !full && tree.levels[level].len() < room {
                let pair = style.pair(number as u32);
                tree.levels[level].push(Entry { pair, filter });
                filter = !filter;
            }
        }
    }
    for level in &mut tree.levels {
        level.sort_by_key(|entry| entry.pair);
    }
    tree
}
