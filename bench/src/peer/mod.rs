//! The peer: the whole contract of the paper (docs/RULES.md) in safe Rust, on the same words.
//!
//! It is written for speed as far as safe and simple code goes: levels are streamed, nothing is
//! allocated, and a merge goes through the work area. Each call has the C interface's form: the
//! reply number, and its values in `out`, zeros where the paper gives none.

mod edit;
mod entries;
mod fault;
mod listing;
mod merge;
mod plan;
mod walk;
mod whole;

use plan::{Plan, LIVE};

/// A pair in the order of pairs: the badge above, the floor below.
pub type Key = u64;

const RANGE: u32 = 1;
const HELD: u32 = 2;
const MISSING: u32 = 3;
const FULL: u32 = 4;
const LENGTH: u32 = 5;
const DIRECTORY: u32 = 10;
const HEAD: u32 = 11;
const PAGE: u32 = 12;
const LEVEL: u32 = 13;
const KINDS: u32 = 14;

/// What an accepted put or drop returns.
type Values = [u32; 7];

/// A reply that is not done, and the level, page and slot of a fault, from 10 to 14.
struct Refusal {
    number: u32,
    place: [u32; 3],
}

/// The key of a pair.
pub fn key(badge: u32, floor: u32) -> Key {
    Key::from(badge) << 32 | Key::from(floor)
}

/// Makes the store of the empty set.
#[inline(never)]
pub fn format(store: &mut [u32], head: u32, ratio: u32, levels: u32) -> u32 {
    match Plan::new(head, ratio, levels) {
        None => RANGE,
        Some(plan) if store.len() != plan.store_words => LENGTH,
        Some(plan) => {
            merge::write_empty(store, &plan, [head, ratio, levels]);
            0
        }
    }
}

/// Puts a pair.
#[inline(never)]
pub fn put(store: &mut [u32], work: &mut [u32], badge: u32, floor: u32, out: &mut [u32; 7]) -> u32 {
    tell(change(store, work, key(badge, floor), true), out)
}

/// Drops a pair.
#[inline(never)]
pub fn drop(
    store: &mut [u32],
    work: &mut [u32],
    badge: u32,
    floor: u32,
    out: &mut [u32; 7],
) -> u32 {
    tell(change(store, work, key(badge, floor), false), out)
}

/// Asks for a pair: held or not, and the deciding level.
#[inline(never)]
pub fn ask(store: &[u32], badge: u32, floor: u32, out: &mut [u32; 3]) -> u32 {
    let answer = Plan::open(store).and_then(|plan| {
        let found = walk::find(store, &plan, key(badge, floor))?;
        Ok([u32::from(found.held), found.level, 0])
    });
    tell(answer, out)
}

/// Lists the held pairs from the first to the last: the pairs written, and the mark.
#[inline(never)]
pub fn list(
    store: &[u32],
    first: (u32, u32),
    last: (u32, u32),
    slice: &mut [u32],
    out: &mut [u32; 3],
) -> u32 {
    let answer = Plan::open(store).and_then(|plan| {
        whole::test(store, &plan)?;
        let (first, last) = (key(first.0, first.1), key(last.0, last.1));
        let [pairs, mark] = listing::list(store, &plan, first, last, slice);
        Ok([pairs, mark, 0])
    });
    tell(answer, out)
}

/// Tests the whole store.
#[inline(never)]
pub fn check(store: &[u32], out: &mut [u32; 3]) -> u32 {
    let answer = Plan::open(store).and_then(|plan| {
        whole::test(store, &plan)?;
        Ok([0; 3])
    });
    tell(answer, out)
}

/// A put or a drop of a pair, tests in the paper's order.
fn change(store: &mut [u32], work: &mut [u32], pair: Key, put: bool) -> Result<Values, Refusal> {
    let plan = Plan::open(store)?;
    if work.len() != plan.work_words {
        return Err(refuse(LENGTH));
    }
    let found = walk::find(store, &plan, pair)?;
    let live = store[LIVE];
    if put && found.held {
        return Err(refuse(HELD));
    }
    if !put && !found.held {
        return Err(refuse(MISSING));
    }
    if put && live == plan.most() {
        return Err(refuse(FULL));
    }
    if !put && live == 0 {
        return Err(refuse(KINDS));
    }
    let after = if put { live + 1 } else { live - 1 };
    if found.level == 0 {
        edit::remove(store, found.reach - 1);
    } else if found.entries + 1 < plan.capacities[0] {
        edit::add(store, found.reach, pair, put);
    } else {
        let mut counts = whole::test(store, &plan)?;
        edit::add(store, found.reach, pair, put);
        store[LIVE] = after;
        let merged = merge::settle(store, work, &plan, &mut counts);
        return Ok(values(after, merged, counts));
    }
    store[LIVE] = after;
    Ok(values(after, [0, 0], entries::counts(store, &plan)))
}

/// Live pairs, the deepest level and the pages written, and the entries of each level.
fn values(live: u32, merged: [u32; 2], counts: [u32; 4]) -> Values {
    let [head, first, second, third] = counts;
    [live, merged[0], merged[1], head, first, second, third]
}

/// Writes what a call came to into `out`, and gives the reply number.
fn tell<const N: usize>(answer: Result<[u32; N], Refusal>, out: &mut [u32; N]) -> u32 {
    match answer {
        Ok(values) => {
            *out = values;
            0
        }
        Err(refusal) => {
            *out = [0; N];
            out[..3].copy_from_slice(&refusal.place);
            refusal.number
        }
    }
}

/// A refusal that returns zeros.
fn refuse(number: u32) -> Refusal {
    fault(number, 0, 0, 0)
}

/// A refusal with the place of a fault.
fn fault(number: u32, level: usize, page: usize, slot: usize) -> Refusal {
    let place = [level, page, slot].map(|number| number as u32);
    Refusal { number, place }
}
