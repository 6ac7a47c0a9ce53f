//! List: the held pairs of a range, by a merge of the levels.

use super::entries::Merged;
use super::plan::Plan;
use super::Key;

/// Writes the held pairs from the first to the last; gives their number and the mark.
pub fn list(store: &[u32], plan: &Plan, first: Key, last: Key, slice: &mut [u32]) -> [u32; 2] {
    let held = Merged::of_store(store, plan)
        .take_while(|seen| seen.pair <= last)
        .filter(|seen| seen.held && seen.pair >= first);
    let mut pairs = 0;
    for (two, seen) in slice.chunks_exact_mut(2).zip(held) {
        two[0] = (seen.pair >> 32) as u32;
        two[1] = seen.pair as u32;
        pairs += 1;
    }
    let mark = slice.len() < 2 * pairs + 2;
    [pairs as u32, u32::from(mark)]
}
