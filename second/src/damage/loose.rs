//! Loose stores: head and pages have the form that a walk tests, but do not fit together.

use crate::geometry::{Geometry, PAGE_SLOTS};
use crate::layout::{Laid, Page};
use crate::random::Random;
use crate::slot::{Kind, Pair, Slot, LEAST};

/// A loose layout of this geometry.
pub fn lay(random: &mut Random, geometry: Geometry) -> Laid {
    let pages: Vec<usize> = (1..geometry.levels())
        .map(|level| 1 + random.below(geometry.page_room(level)))
        .collect();
    let mut levels = Vec::new();
    for level in 1..geometry.levels() {
        let below = pages.get(level).copied();
        let level = (0..pages[level - 1]).map(|_| page(random, below)).collect();
        levels.push(level);
    }
    let head = head(random, geometry, pages[0]);
    Laid { head, levels }
}

/// A head with its fences in turn and fewer than H entries.
fn head(random: &mut Random, geometry: Geometry, pages: usize) -> Vec<Slot> {
    let entries = random.below(geometry.capacity(0));
    let pairs = ascending(random, pages + entries);
    let mut slots: Vec<Slot> = pairs.iter().map(|pair| entry(random, *pair)).collect();
    let mut places: Vec<usize> = (0..slots.len()).collect();
    while places.len() > pages {
        let at = 1 + random.below(places.len() - 1);
        places.remove(at);
    }
    for (page, place) in places.into_iter().enumerate() {
        slots[place].kind = Kind::External;
        slots[place].page = page as u32;
    }
    slots[0].pair = LEAST;
    slots
}

/// A page over a level of so many pages, or a page of the bottom.
fn page(random: &mut Random, pages_below: Option<usize>) -> Page {
    let used = 1 + random.below(PAGE_SLOTS);
    let mut slots = Vec::new();
    for pair in ascending(random, used) {
        let fence = slots.is_empty() || random.one_in(4);
        slots.push(match pages_below {
            Some(pages) if fence => Slot {
                pair,
                kind: *random.pick(&[Kind::External, Kind::Internal]),
                page: random.below(pages) as u32,
            },
            _ => entry(random, pair),
        });
    }
    slots
}

/// Pairs that ascend, mostly from near the least.
fn ascending(random: &mut Random, pairs: usize) -> Vec<Pair> {
    let mut badge = random.below(4) as u32;
    let mut ascending = Vec::new();
    for _ in 0..pairs {
        let floor = random.below(2) as u32;
        ascending.push(Pair { badge, floor });
        badge += 1 + random.below(3) as u32;
    }
    ascending
}

/// An entry of either kind.
fn entry(random: &mut Random, pair: Pair) -> Slot {
    let kind = *random.pick(&[Kind::Normal, Kind::Normal, Kind::Filter]);
    Slot {
        pair,
        kind,
        page: 0,
    }
}
