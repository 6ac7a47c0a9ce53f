//! How a level is written: index entries and fences laid out in slots and pages.

use crate::geometry::PAGE_SLOTS;
use crate::slot::{Entry, Kind, Pair, Slot, LEAST};
use crate::tree::Tree;
use crate::variant::Variant;

/// The used slots of a page.
pub type Page = Vec<Slot>;

/// A store's used slots: the head's, and the pages of levels 1, 2, ... in turn.
#[derive(Clone, Debug)]
pub struct Laid {
    pub head: Vec<Slot>,
    pub levels: Vec<Vec<Page>>,
}

/// The layout of a whole tree, made from the bottom up.
pub fn lay_tree(tree: &Tree, variant: Variant) -> Laid {
    let bottom = tree.geometry.bottom();
    let mut levels = vec![lay_bottom(&tree.levels[bottom])];
    for level in (1..bottom).rev() {
        let fences = fences_to(&first_pairs(&levels[0]), variant);
        levels.insert(0, lay_level(&tree.levels[level], &fences, variant));
    }
    let fences = fences_to(&first_pairs(&levels[0]), variant);
    let head = lay_head(&tree.levels[0], &fences);
    Laid { head, levels }
}

/// The bottom's pages: index entries only; empty, it is one page of no slots.
pub fn lay_bottom(entries: &[Entry]) -> Vec<Page> {
    let slots: Vec<Slot> = entries.iter().map(Entry::slot).collect();
    if slots.is_empty() {
        return vec![Vec::new()];
    }
    slots.chunks(PAGE_SLOTS).map(<[Slot]>::to_vec).collect()
}

/// The pages of a level between head and bottom, over the fences to the level below.
pub fn lay_level(entries: &[Entry], fences: &[Slot], variant: Variant) -> Vec<Page> {
    let mut pages: Vec<Page> = vec![Vec::new()];
    let mut last_external = 0;
    for slot in in_order(entries, fences) {
        if pages[pages.len() - 1].len() == PAGE_SLOTS {
            pages.push(Vec::new());
        }
        let own_page = pages.len() - 1;
        let page = &mut pages[own_page];
        if slot.is_fence() {
            last_external = slot.page;
        } else if page.is_empty() {
            let named = match variant {
                Variant::InternalFenceOwnPage => own_page as u32,
                _ => last_external,
            };
            page.push(internal_fence(slot.pair, named));
        }
        page.push(slot);
    }
    pages
}

/// The head's slots: entries and external fences, not cut into pages, no internal fences.
pub fn lay_head(entries: &[Entry], fences: &[Slot]) -> Vec<Slot> {
    in_order(entries, fences)
}

/// The external fences to the pages below, whose first slots have these pairs.
pub fn fences_to(first_pairs: &[Pair], variant: Variant) -> Vec<Slot> {
    let fence = |(page, own): (usize, &Pair)| Slot {
        pair: match (page, variant) {
            (0, Variant::FirstFenceOwnPair) => *own,
            (0, _) => LEAST,
            _ => *own,
        },
        kind: Kind::External,
        page: match variant {
            Variant::PageByte => page as u32 % 256,
            _ => page as u32,
        },
    };
    first_pairs.iter().enumerate().map(fence).collect()
}

/// Fences in turn, and each entry before the first fence still to come that is above it.
fn in_order(entries: &[Entry], fences: &[Slot]) -> Vec<Slot> {
    let mut slots = Vec::new();
    let mut rest = entries.iter().peekable();
    for fence in fences {
        while let Some(entry) = rest.next_if(|entry| entry.pair < fence.pair) {
            slots.push(entry.slot());
        }
        slots.push(*fence);
    }
    slots.extend(rest.map(Entry::slot));
    slots
}

/// An internal fence with this entry's pair, naming this page of the level below.
fn internal_fence(pair: Pair, page: u32) -> Slot {
    Slot {
        pair,
        kind: Kind::Internal,
        page,
    }
}

/// The pair in each page's first slot; an empty page stands alone, and gives the least pair.
pub fn first_pairs(pages: &[Page]) -> Vec<Pair> {
    pages
        .iter()
        .map(|page| page.first().map_or(LEAST, |slot| slot.pair))
        .collect()
}
