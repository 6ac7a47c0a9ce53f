//! Damage to the slots of a layout, between the rules and the words.

use super::Named;
use crate::layout::{fences_to, first_pairs, lay_head, lay_level, Laid, Page};
use crate::random::Random;
use crate::slot::{Kind, Pair, Slot};
use crate::tree::Tree;
use crate::variant::Variant;

/// Damages the slots of a layout, which was made of this tree.
pub type Spoil = fn(&mut Random, &Tree, &mut Laid);

/// Every kind of damage to slots.
pub const KINDS: &[Named<Spoil>] = &[
    ("internal fence left out", leave_out_internal),
    ("internal fence too many", add_internal),
    ("page broken early", break_page),
    ("last slot in a page of its own", break_last),
    ("an empty page more", add_empty_page),
    ("external fence left out", leave_out_external),
    ("external fence twice", repeat_external),
    ("first slot moved, written over above", move_first_slot),
    ("entry not above the page before", fall_over_edge),
    ("last fence of the head left out", leave_out_last_fence),
    ("two swapped", swap),
    ("one twice", repeat),
    ("one taken out", take_out),
    ("neighbour's pair", copy_pair),
    ("page emptied", empty_page),
    ("fence names another page", name_another),
    ("fence names a page too large", name_too_large),
    ("fences name each other's page", exchange_names),
    ("fence of the other kind", turn_fence),
    ("internal fence in the head", internal_in_head),
    ("fence in the bottom", fence_in_bottom),
];

/// Leaves an internal fence out.
fn leave_out_internal(random: &mut Random, _: &Tree, laid: &mut Laid) {
    if let Some((run, at)) = any_slot(random, laid, |slot| slot.kind == Kind::Internal) {
        run.remove(at);
    }
}

/// Puts an internal fence before an index entry, with its pair.
fn add_internal(random: &mut Random, _: &Tree, laid: &mut Laid) {
    if let Some((run, at)) = any_slot(random, laid, Slot::is_entry) {
        let fence = run[..at].iter().rfind(|slot| slot.is_fence());
        let page = fence.map_or(0, |fence| fence.page);
        let pair = run[at].pair;
        let kind = Kind::Internal;
        run.insert(at, Slot { pair, kind, page });
    }
}

/// Breaks a page in two.
fn break_page(random: &mut Random, _: &Tree, laid: &mut Laid) {
    let level = random.below(laid.levels.len());
    let pages = &mut laid.levels[level];
    let page = random.below(pages.len());
    let at = random.below(pages[page].len());
    let rest = pages[page].split_off(at);
    pages.insert(page + 1, rest);
}

/// Puts the last slot of a level in a page of its own.
fn break_last(random: &mut Random, _: &Tree, laid: &mut Laid) {
    let level = random.below(laid.levels.len());
    let pages = &mut laid.levels[level];
    let last = pages.len() - 1;
    if let Some(slot) = pages[last].pop() {
        pages.push(vec![slot]);
    }
}

/// Adds a page without slots to a level.
fn add_empty_page(random: &mut Random, _: &Tree, laid: &mut Laid) {
    let level = random.below(laid.levels.len());
    laid.levels[level].push(Vec::new());
}

/// Leaves an external fence out.
fn leave_out_external(random: &mut Random, _: &Tree, laid: &mut Laid) {
    if let Some((run, at)) = any_slot(random, laid, |slot| slot.kind == Kind::External) {
        run.remove(at);
    }
}

/// Writes an external fence twice.
fn repeat_external(random: &mut Random, _: &Tree, laid: &mut Laid) {
    if let Some((run, at)) = any_slot(random, laid, |slot| slot.kind == Kind::External) {
        run.insert(at, run[at]);
    }
}

/// Changes the pair in a page's first slot, and writes the levels above over it by the rules.
fn move_first_slot(random: &mut Random, tree: &Tree, laid: &mut Laid) {
    let level = random.below(laid.levels.len());
    let page = random.below(laid.levels[level].len());
    if let Some(first) = laid.levels[level][page].first_mut() {
        first.pair = moved(random, first.pair);
    }
    write_above(tree, laid, level);
}

/// Gives the first entry of a page, and the internal fence before it, a pair of the page before, and
/// writes the levels above over it by the rules. Words are then all as written, but the entries fall.
fn fall_over_edge(random: &mut Random, tree: &Tree, laid: &mut Laid) {
    let edges = |pages: &[Page]| -> Vec<usize> {
        let opens_with_entry = |page: &usize| pages[*page][0].kind != Kind::External;
        (1..pages.len()).filter(opens_with_entry).collect()
    };
    let levels: Vec<usize> = (0..laid.levels.len())
        .filter(|level| !edges(&laid.levels[*level]).is_empty())
        .collect();
    if levels.is_empty() {
        return;
    }
    let level = *random.pick(&levels);
    let pages = &mut laid.levels[level];
    let page = *random.pick(&edges(pages));
    let pair = random.pick(&pages[page - 1]).pair;
    let internal = usize::from(pages[page][0].kind == Kind::Internal);
    for slot in &mut pages[page][..=internal] {
        slot.pair = pair;
    }
    write_above(tree, laid, level);
}

/// Leaves the last fence of the head out.
fn leave_out_last_fence(_: &mut Random, _: &Tree, laid: &mut Laid) {
    if let Some(last) = laid.head.iter().rposition(Slot::is_fence) {
        laid.head.remove(last);
    }
}

/// Writes the head and the levels above one of the layout's over its first slots, by the rules.
fn write_above(tree: &Tree, laid: &mut Laid, level: usize) {
    for above in (0..level).rev() {
        let fences = fences_to(&first_pairs(&laid.levels[above + 1]), Variant::Right);
        laid.levels[above] = lay_level(&tree.levels[above + 1], &fences, Variant::Right);
    }
    let fences = fences_to(&first_pairs(&laid.levels[0]), Variant::Right);
    laid.head = lay_head(&tree.levels[0], &fences);
}

/// Exchanges a slot with the next.
fn swap(random: &mut Random, _: &Tree, laid: &mut Laid) {
    if let Some((run, at)) = any_slot(random, laid, |_| true) {
        let next = (at + 1) % run.len();
        run.swap(at, next);
    }
}

/// Writes a slot twice.
fn repeat(random: &mut Random, _: &Tree, laid: &mut Laid) {
    if let Some((run, at)) = any_slot(random, laid, |_| true) {
        run.insert(at, run[at]);
    }
}

/// Takes a slot out.
fn take_out(random: &mut Random, _: &Tree, laid: &mut Laid) {
    if let Some((run, at)) = any_slot(random, laid, |_| true) {
        run.remove(at);
    }
}

/// Gives a slot its neighbour's pair.
fn copy_pair(random: &mut Random, _: &Tree, laid: &mut Laid) {
    if let Some((run, at)) = any_slot(random, laid, |_| true) {
        run[at].pair = run[(at + 1) % run.len()].pair;
    }
}

/// Takes all slots out of a page.
fn empty_page(random: &mut Random, _: &Tree, laid: &mut Laid) {
    let level = random.below(laid.levels.len());
    let page = random.below(laid.levels[level].len());
    laid.levels[level][page].clear();
}

/// Lets a fence name another page, which may exist or be the next one.
fn name_another(random: &mut Random, _: &Tree, laid: &mut Laid) {
    let pages = laid.levels.iter().map(Vec::len).max().unwrap_or(1);
    if let Some((run, at)) = any_slot(random, laid, Slot::is_fence) {
        run[at].page = random.below(pages + 1) as u32;
    }
}

/// Lets a fence name a page far beyond the level below.
fn name_too_large(random: &mut Random, _: &Tree, laid: &mut Laid) {
    if let Some((run, at)) = any_slot(random, laid, Slot::is_fence) {
        run[at].page += *random.pick(&[256, 65_536, (1 << 30) - 4096]);
    }
}

/// Exchanges the page numbers of two fences of a run.
fn exchange_names(random: &mut Random, _: &Tree, laid: &mut Laid) {
    if let Some((run, at)) = any_slot(random, laid, Slot::is_fence) {
        let fences: Vec<usize> = (0..run.len()).filter(|n| run[*n].is_fence()).collect();
        let other = *random.pick(&fences);
        (run[at].page, run[other].page) = (run[other].page, run[at].page);
    }
}

/// Makes an external fence internal, or an internal one external.
fn turn_fence(random: &mut Random, _: &Tree, laid: &mut Laid) {
    if let Some((run, at)) = any_slot(random, laid, Slot::is_fence) {
        run[at].kind = match run[at].kind {
            Kind::External => Kind::Internal,
            _ => Kind::External,
        };
    }
}

/// Puts an internal fence in the head.
fn internal_in_head(random: &mut Random, _: &Tree, laid: &mut Laid) {
    let at = 1 + random.below(laid.head.len());
    let before = laid.head[at - 1];
    let pair = Pair {
        floor: before.pair.floor.saturating_add(1),
        ..before.pair
    };
    let kind = Kind::Internal;
    laid.head.insert(
        at,
        Slot {
            pair,
            kind,
            page: 0,
        },
    );
}

/// Puts a fence in a page of the bottom.
fn fence_in_bottom(random: &mut Random, _: &Tree, laid: &mut Laid) {
    let bottom = laid.levels.len() - 1;
    let page = random.below(laid.levels[bottom].len());
    let run = &mut laid.levels[bottom][page];
    let pair = run.first().map_or(Pair { badge: 1, floor: 0 }, |s| s.pair);
    let kind = *random.pick(&[Kind::External, Kind::Internal]);
    run.insert(
        0,
        Slot {
            pair,
            kind,
            page: 0,
        },
    );
}

/// A run of slots and a place in it whose slot is as wanted.
fn any_slot<'a>(
    random: &mut Random,
    laid: &'a mut Laid,
    wanted: impl Fn(&Slot) -> bool,
) -> Option<(&'a mut Vec<Slot>, usize)> {
    let runs = std::iter::once(&mut laid.head).chain(laid.levels.iter_mut().flatten());
    let mut fitting: Vec<&mut Vec<Slot>> = runs.filter(|run| run.iter().any(&wanted)).collect();
    if fitting.is_empty() {
        return None;
    }
    let run = fitting.swap_remove(random.below(fitting.len()));
    let places: Vec<usize> = (0..run.len()).filter(|at| wanted(&run[*at])).collect();
    let at = *random.pick(&places);
    Some((run, at))
}

/// A pair near another, or far from it.
fn moved(random: &mut Random, pair: Pair) -> Pair {
    let Pair { badge, floor } = pair;
    match random.below(4) {
        0 => Pair {
            badge,
            floor: floor.wrapping_add(1),
        },
        1 => Pair {
            badge,
            floor: floor.wrapping_sub(1),
        },
        2 => Pair {
            badge: badge.wrapping_sub(1),
            floor,
        },
        _ => Pair {
            badge: random.below(60) as u32,
            floor,
        },
    }
}
