//! Calls to make on a damaged store.

use crate::call::Call;
use crate::geometry::{Geometry, HEAD_COUNT, HEAD_SLOTS, SLOT_WORDS};
use crate::random::Random;
use crate::reading;
use crate::slot::{Pair, GREATEST, LEAST};

/// The calls made on each damaged store.
const CALLS: usize = 8;

/// Calls about pairs in the store or near them, some with a wrong work area.
pub fn on(random: &mut Random, geometry: Geometry, store: &[u32]) -> Vec<Call> {
    let known = known_pairs(geometry, store);
    let mut calls = Vec::new();
    for _ in 0..CALLS {
        let pair = near(random, &known);
        let work = work_length(random, geometry);
        calls.push(match random.below(10) {
            0..2 => Call::Ask(pair),
            2 => Call::Why(pair),
            3..6 => Call::Put(pair, work),
            6..8 => Call::Drop(pair, work),
            8 => Call::List(pair, near(random, &known), random.below(30)),
            _ => Call::Check,
        });
    }
    calls
}

/// The pairs in the used slots of a store, as far as they can be read.
fn known_pairs(geometry: Geometry, store: &[u32]) -> Vec<Pair> {
    if store.len() != geometry.store_words() {
        return vec![LEAST];
    }
    let entries = reading::tree(geometry, store).levels.concat();
    let mut pairs: Vec<Pair> = entries.iter().map(|entry| entry.pair).collect();
    let head = (store[HEAD_COUNT] as usize).min(geometry.head_room());
    for slot in 0..head {
        let at = HEAD_SLOTS + SLOT_WORDS * slot;
        let (badge, floor) = (store[at], store[at + 1]);
        pairs.push(Pair { badge, floor });
    }
    pairs.push(LEAST);
    pairs
}

/// One of these pairs, or one near it, or one far off.
fn near(random: &mut Random, known: &[Pair]) -> Pair {
    let Pair { badge, floor } = *random.pick(known);
    match random.below(10) {
        0..5 => Pair { badge, floor },
        5 => Pair {
            badge,
            floor: floor.saturating_add(1),
        },
        6 => Pair {
            badge,
            floor: floor.saturating_sub(1),
        },
        7 => Pair {
            badge: badge.saturating_add(1),
            floor,
        },
        8 => Pair {
            badge: random.below(60) as u32,
            floor: 0,
        },
        _ => GREATEST,
    }
}

/// The right length of a work area, or at times a wrong one.
fn work_length(random: &mut Random, geometry: Geometry) -> usize {
    let right = geometry.work_words();
    if random.one_in(12) {
        *random.pick(&[0, right - 1, right + 1, right + 64])
    } else {
        right
    }
}
