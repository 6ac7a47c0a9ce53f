//! The rules that put, drop and ask test: directory, head, and the form of one page.

use crate::fault::{Fault, Place, Rule, DIRECTORY, HEAD, PAGE_FORM};
use crate::geometry::{Geometry, HEAD_COUNT, MOST_LEVELS, PAGE_SLOTS, ZERO_WORD};
use crate::reading;
use crate::slot::{Kind, Slot, LEAST};

/// What is wrong with the directory: live above M, a page count out of its range, or word 7.
pub fn directory_fault(geometry: Geometry, store: &[u32]) -> Option<Fault> {
    let fault = |rule| Some(Fault::new(DIRECTORY, rule, Place::default()));
    let in_range = |level: usize| {
        let pages = reading::page_count(store, level) as usize;
        if level <= geometry.bottom() {
            1 <= pages && pages <= geometry.page_room(level)
        } else {
            pages == 0
        }
    };
    if reading::live(store) as usize > geometry.most() {
        fault(Rule::MostLive)
    } else if !(1..MOST_LEVELS).all(in_range) {
        fault(Rule::PageCounts)
    } else if store[ZERO_WORD] != 0 {
        fault(Rule::ZeroWord)
    } else {
        None
    }
}

/// What is wrong with the head, of what ask tests: its count, else the leftmost slot that breaks a
/// rule, else too few fences. Its directory holds.
pub fn head_fault(geometry: Geometry, store: &[u32]) -> Option<Fault> {
    let fault = |rule, slot| Fault::new(HEAD, rule, Place::in_head(slot));
    if store[HEAD_COUNT] as usize > geometry.head_room() {
        return Some(fault(Rule::SlotCount, 0));
    }
    let slots = reading::head(geometry, store);
    let in_a_slot = (0..slots.len()).find_map(|at| {
        let rule = slot_fault(geometry, store, 0, &slots, at);
        let rule = rule.or_else(|| head_slot_fault(geometry, &slots, at));
        rule.map(|rule| fault(rule, at))
    });
    let fences = slots.iter().filter(|slot| slot.is_fence()).count();
    let too_few = fences < reading::page_count(store, 1) as usize;
    in_a_slot.or_else(|| too_few.then(|| fault(Rule::Fences, 0)))
}

/// What is wrong with the form of a page: its slot count, else the leftmost slot that breaks slot order
/// or has no legal tag.
pub fn page_fault(geometry: Geometry, store: &[u32], level: usize, page: usize) -> Option<Fault> {
    let fault = |rule, slot| Fault::new(PAGE_FORM, rule, Place { level, page, slot });
    let bottom = geometry.bottom();
    let may_be_empty = level == bottom && reading::page_count(store, bottom) == 1;
    let count = reading::slot_count(geometry, store, level, page) as usize;
    if count > PAGE_SLOTS || count == 0 && !may_be_empty {
        return Some(fault(Rule::SlotCount, 0));
    }
    let slots = reading::page(geometry, store, level, page);
    (0..slots.len()).find_map(|at| {
        let rule = slot_fault(geometry, store, level, &slots, at);
        rule.map(|rule| fault(rule, at))
    })
}

/// The rule of any slot that this one breaks: its place behind the slot before it, or its tag. Of two
/// slots out of order it is the right one that breaks the rule.
fn slot_fault(
    geometry: Geometry,
    store: &[u32],
    level: usize,
    slots: &[Slot],
    at: usize,
) -> Option<Rule> {
    if at > 0 && !stand_in_order(&slots[at - 1], &slots[at]) {
        Some(Rule::Order)
    } else if !tag_is_legal(geometry, store, level, &slots[at]) {
        Some(Rule::Tag)
    } else {
        None
    }
}

/// The rule of the head alone that this slot breaks.
fn head_slot_fault(geometry: Geometry, slots: &[Slot], at: usize) -> Option<Rule> {
    let slot = slots[at];
    let fences_before = slots[..at].iter().filter(|slot| slot.is_fence()).count();
    let entries_before = at - fences_before;
    if slot.is_fence() && slot.page as usize != fences_before {
        Some(Rule::Turn)
    } else if at == 0 && !(slot.is_fence() && slot.pair == LEAST) {
        Some(Rule::LeastFence)
    } else if slot.is_entry() && entries_before + 1 == geometry.capacity(0) {
        Some(Rule::HeadRoom)
    } else {
        None
    }
}

/// Whether the pair does not fall, and the left slot is no index entry of the right one's pair.
fn stand_in_order(left: &Slot, right: &Slot) -> bool {
    left.pair < right.pair || left.pair == right.pair && left.is_fence()
}

/// Whether a slot of this level has a legal tag.
fn tag_is_legal(geometry: Geometry, store: &[u32], level: usize, slot: &Slot) -> bool {
    let names_a_page_below =
        level < geometry.bottom() && slot.page < reading::page_count(store, level + 1);
    match slot.kind {
        Kind::Normal | Kind::Filter => slot.page == 0,
        Kind::External => names_a_page_below,
        Kind::Internal => names_a_page_below && level > 0,
    }
}
