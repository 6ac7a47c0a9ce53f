//! The calls on any words: reply number, values, and every lent word afterwards.

use crate::fault::{Fault, Place, Rule, ACROSS};
use crate::geometry::{Geometry, HEAD_COUNT, HEAD_SLOTS, LIVE, MOST_LEVELS, ONES, SLOT_WORDS};
use crate::reading;
use crate::slot::{Entry, Pair, Slot};
use crate::sound;
use crate::tree::{Merged, Tree};
use crate::variant::Variant;
use crate::walk::{trail, walk, Answer, Step};
use crate::writing::write_tree;

/// A reply number and the values that come with it.
#[derive(Clone, Debug, PartialEq, Eq)]
pub struct Reply {
    pub number: u32,
    pub values: Vec<u32>,
}

/// Reply 1: H, k or l outside its range.
pub const RANGE: u32 = 1;
/// Reply 2: put of a held pair.
pub const HELD: u32 = 2;
/// Reply 3: drop of a pair not held.
pub const NOT_HELD: u32 = 3;
/// Reply 4: put with live = M.
pub const FULL: u32 = 4;
/// Reply 5: a store or work area not of the exact length.
pub const LENGTH: u32 = 5;

/// The values of an accepted why: what ask answers, then five for each of four levels.
pub const WHY_VALUES: usize = 2 + WHY_LEVEL_VALUES * MOST_LEVELS;
/// The values that why tells of a level.
pub const WHY_LEVEL_VALUES: usize = 5;

/// A refused call: its number, and its place where the number is one of a fault (10 to 14).
struct Refusal {
    number: u32,
    place: Place,
}

/// An accepted put or drop: its values, the store afterwards, and whether it merged.
struct Change {
    values: Vec<u32>,
    store: Vec<u32>,
    merged: bool,
}

/// Makes the store of the empty set.
pub fn format(variant: Variant, store: &mut [u32], head: u32, ratio: u32, levels: u32) -> Reply {
    let Some(geometry) = Geometry::new(head, ratio, levels) else {
        return reply(Err(refuse(RANGE)));
    };
    if store.len() != geometry.store_words() || variant == Variant::RefusesAll {
        return reply(Err(refuse(LENGTH)));
    }
    if variant != Variant::WritesNothing {
        store.copy_from_slice(&write_tree(&Tree::empty(geometry), 0, variant));
    }
    reply(Ok(vec![0]))
}

/// Puts a pair.
pub fn put(variant: Variant, store: &mut [u32], work: &mut [u32], pair: Pair) -> Reply {
    let entry = Entry {
        pair,
        filter: false,
    };
    let change = change(variant, store, work.len(), entry);
    make(variant, change, store, work)
}

/// Drops a pair.
pub fn drop(variant: Variant, store: &mut [u32], work: &mut [u32], pair: Pair) -> Reply {
    let entry = Entry { pair, filter: true };
    let change = change(variant, store, work.len(), entry);
    make(variant, change, store, work)
}

/// Asks for a pair: 1 for held or 0, and the deciding level.
pub fn ask(variant: Variant, store: &[u32], pair: Pair) -> Reply {
    reply(open(variant, store).and_then(|geometry| {
        let answer = walk(geometry, store, pair).map_err(|fault| unsound(variant, fault))?;
        let held = answer.held || variant == Variant::SaysHeld;
        Ok(vec![held as u32, answer.level as u32])
    }))
}

/// Tells why a pair is held or not: what ask answers, then what its walk met in each level.
pub fn why(variant: Variant, store: &[u32], pair: Pair) -> Reply {
    reply(open(variant, store).and_then(|geometry| {
        let mut trail = trail(geometry, store, pair).map_err(|fault| unsound(variant, fault))?;
        let answer = Answer::of(geometry, &trail);
        if variant == Variant::WhyLastLevelOut {
            trail.pop();
        }
        let mut values = vec![answer.held as u32, answer.level as u32];
        values.extend(trail.iter().flat_map(|step| step_values(variant, step)));
        values.resize(WHY_VALUES, 0);
        Ok(values)
    }))
}

/// The values of a level that was read: 1, its page, its slot and one more (0 for no slot), its entry
/// (0 none, 1 normal, 2 filter), the page followed and one more (0 where the walk ends).
fn step_values(variant: Variant, step: &Step) -> [u32; WHY_LEVEL_VALUES] {
    let and_one = |number: Option<usize>| number.map_or(0, |number| number as u32 + 1);
    let slot = match (variant, step.fence) {
        (Variant::WhySlotOfFence, Some(fence)) => Some(fence.slot),
        (Variant::WhyFirstSlot, _) => step.slot.or(Some(0)),
        _ => step.slot,
    };
    let entry = match step.entry {
        None => 0,
        Some(entry) if entry.filter && variant != Variant::WhyFilterNormal => 2,
        Some(_) => 1,
    };
    let followed = step.fence.map(|fence| fence.page);
    [1, step.page as u32, and_one(slot), entry, and_one(followed)]
}

/// Lists the held pairs from the first to the last: the pairs written, and the mark.
pub fn list(variant: Variant, store: &[u32], first: Pair, last: Pair, slice: &mut [u32]) -> Reply {
    reply(open_whole(variant, store).map(|geometry| {
        let mut held = reading::tree(geometry, store).held();
        held.retain(|pair| first <= *pair && *pair <= last);
        held.truncate(slice.len() / 2);
        for (at, pair) in held.iter().enumerate() {
            let shown = match variant {
                Variant::ListFirstOnly => held[0],
                _ => *pair,
            };
            slice[2 * at] = shown.badge;
            slice[2 * at + 1] = shown.floor;
        }
        let mark = slice.len() - 2 * held.len() < 2;
        vec![held.len() as u32, mark as u32]
    }))
}

/// Tests the whole store.
pub fn check(variant: Variant, store: &[u32]) -> Reply {
    reply(open_whole(variant, store).map(|_| vec![0]))
}

/// The geometry of a store that passes the tests of replies 5 and 1.
fn open(variant: Variant, store: &[u32]) -> Result<Geometry, Refusal> {
    if store.len() < HEAD_SLOTS || variant == Variant::RefusesAll {
        return Err(refuse(LENGTH));
    }
    let geometry = reading::geometry(store).ok_or(refuse(RANGE))?;
    if store.len() != geometry.store_words() {
        return Err(refuse(LENGTH));
    }
    Ok(geometry)
}

/// The geometry of a store that also passes the whole-store test.
fn open_whole(variant: Variant, store: &[u32]) -> Result<Geometry, Refusal> {
    let geometry = open(variant, store)?;
    test_whole(variant, geometry, store)?;
    Ok(geometry)
}

/// The whole-store test as a refusal.
fn test_whole(variant: Variant, geometry: Geometry, store: &[u32]) -> Result<(), Refusal> {
    match sound::fault(geometry, store, variant) {
        Some(fault) => Err(unsound(variant, fault)),
        None => Ok(()),
    }
}

/// What a put (a normal entry) or a drop (a filter) comes to, tests in the paper's order.
fn change(
    variant: Variant,
    store: &[u32],
    work_words: usize,
    entry: Entry,
) -> Result<Change, Refusal> {
    let geometry = open(variant, store)?;
    if work_words != geometry.work_words() {
        return Err(refuse(LENGTH));
    }
    let answer = walk(geometry, store, entry.pair).map_err(|fault| unsound(variant, fault))?;
    let full = reading::live(store) as usize == geometry.most();
    if entry.filter {
        test_drop(variant, store, answer)?;
    } else {
        test_put(variant, answer, full)?;
    }
    let head = edited_head(geometry, store, entry);
    let entries = head.iter().filter(|slot| slot.is_entry()).count();
    if entries < geometry.capacity(0) {
        return Ok(without_merge(geometry, store, entry, &head));
    }
    test_whole(variant, geometry, store)?;
    Ok(with_merge(variant, geometry, store, entry))
}

/// The tests 2 and 4 of a put.
fn test_put(variant: Variant, answer: Answer, full: bool) -> Result<(), Refusal> {
    if full && variant == Variant::FullBeforeHeld {
        Err(refuse(FULL))
    } else if answer.held {
        Err(refuse(HELD))
    } else if full {
        Err(refuse(FULL))
    } else {
        Ok(())
    }
}

/// The test 3 of a drop, and the late one for live = 0.
fn test_drop(variant: Variant, store: &[u32], answer: Answer) -> Result<(), Refusal> {
    if !answer.held {
        Err(refuse(NOT_HELD))
    } else if reading::live(store) == 0 {
        let fault = Fault::new(ACROSS, Rule::Live, Place::default());
        Err(unsound(variant, fault))
    } else {
        Ok(())
    }
}

/// The head's used slots with the pair's entry taken out, or else with this entry added.
fn edited_head(geometry: Geometry, store: &[u32], entry: Entry) -> Vec<Slot> {
    let mut slots = reading::head(geometry, store);
    let own = |slot: &Slot| slot.is_entry() && slot.pair == entry.pair;
    match slots.iter().position(own) {
        Some(at) => {
            slots.remove(at);
        }
        None => {
            let at = slots.iter().filter(|slot| slot.pair <= entry.pair).count();
            slots.insert(at, entry.slot());
        }
    }
    slots
}

/// The store with another head: used slots move, a vacated slot becomes all ones.
fn without_merge(geometry: Geometry, store: &[u32], entry: Entry, head: &[Slot]) -> Change {
    let vacated = reading::head(geometry, store)
        .len()
        .saturating_sub(head.len());
    let mut words: Vec<u32> = head.iter().flat_map(Slot::words).collect();
    words.resize(words.len() + SLOT_WORDS * vacated, ONES);
    let mut after = store.to_vec();
    after[HEAD_SLOTS..HEAD_SLOTS + words.len()].copy_from_slice(&words);
    after[HEAD_COUNT] = head.len() as u32;
    after[LIVE] = live_after(store, entry);
    Change {
        values: values(geometry, &after, Merged::default()),
        store: after,
        merged: false,
    }
}

/// The store after a call that merges: the writing of the merged tree.
fn with_merge(variant: Variant, geometry: Geometry, store: &[u32], entry: Entry) -> Change {
    let mut tree = reading::tree(geometry, store);
    let mut merged = tree.update(entry, variant);
    match variant {
        Variant::PagesZero => merged.pages = 0,
        Variant::PagesOneMore => merged.pages += 1,
        _ => {}
    }
    let after = write_tree(&tree, live_after(store, entry), variant);
    Change {
        values: values(geometry, &after, merged),
        store: after,
        merged: true,
    }
}

/// The live pairs after a put (one more) or a drop (one less).
fn live_after(store: &[u32], entry: Entry) -> u32 {
    if entry.filter {
        reading::live(store) - 1
    } else {
        reading::live(store) + 1
    }
}

/// Live pairs, deepest level, pages written, and the index entries in each of four levels.
fn values(geometry: Geometry, store: &[u32], merged: Merged) -> Vec<u32> {
    let mut values = vec![
        reading::live(store),
        merged.deepest as u32,
        merged.pages as u32,
    ];
    for level in 0..MOST_LEVELS {
        let exists = level < geometry.levels();
        let entries = exists.then(|| reading::entries(geometry, store, level).len());
        values.push(entries.unwrap_or(0) as u32);
    }
    values
}

/// Makes an accepted change in the lent words, and answers.
fn make(
    variant: Variant,
    change: Result<Change, Refusal>,
    store: &mut [u32],
    work: &mut [u32],
) -> Reply {
    reply(change.map(|change| {
        if variant != Variant::WritesNothing {
            store.copy_from_slice(&change.store);
            if change.merged {
                work.fill(ONES);
            }
        }
        change.values
    }))
}

/// The reply of a call: done with its values, or refused with the three of its place.
fn reply(outcome: Result<Vec<u32>, Refusal>) -> Reply {
    match outcome {
        Ok(values) => Reply { number: 0, values },
        Err(refusal) => Reply {
            number: refusal.number,
            values: refusal.place.values().to_vec(),
        },
    }
}

/// A refusal that returns zeros.
fn refuse(number: u32) -> Refusal {
    Refusal {
        number,
        place: Place::default(),
    }
}

/// A fault with its number and its place, as this build tells it.
fn unsound(variant: Variant, fault: Fault) -> Refusal {
    let Fault { number, place, .. } = fault.told_by(variant);
    Refusal { number, place }
}
