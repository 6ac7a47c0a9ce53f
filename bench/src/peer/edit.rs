//! The head edited in place.

use super::plan::{HEAD_COUNT, HEAD_SLOTS, ONES, SLOT_WORDS};
use super::Key;

/// Adds an entry to the head behind its first slots, so many.
pub fn add(store: &mut [u32], behind: usize, pair: Key, normal: bool) {
    let (place, end) = places(store, behind);
    store.copy_within(place..end, place + SLOT_WORDS);
    let slot = [(pair >> 32) as u32, pair as u32, u32::from(!normal)];
    store[place..place + SLOT_WORDS].copy_from_slice(&slot);
    store[HEAD_COUNT] += 1;
}

/// Removes the entry in this slot of the head.
pub fn remove(store: &mut [u32], at: usize) {
    let (place, end) = places(store, at);
    store.copy_within(place + SLOT_WORDS..end, place);
    store[end - SLOT_WORDS..end].fill(ONES);
    store[HEAD_COUNT] -= 1;
}

/// The place of a slot of the head, and that of the first unused one.
fn places(store: &[u32], slot: usize) -> (usize, usize) {
    let place = |slot: usize| HEAD_SLOTS + SLOT_WORDS * slot;
    (place(slot), place(store[HEAD_COUNT] as usize))
}
