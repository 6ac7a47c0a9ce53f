//! Damage to a store's length.

use super::Named;
use crate::geometry::ONES;
use crate::random::Random;

/// Damages the length of a store.
pub type Spoil = fn(&mut Random, &mut Vec<u32>);

/// Every kind of damage to the length.
pub const KINDS: &[Named<Spoil>] = &[("a few words off", off), ("hardly any words", short)];

/// Makes the store a little longer or shorter.
fn off(random: &mut Random, words: &mut Vec<u32>) {
    let few = *random.pick(&[1, 2, 3, 64]);
    let length = if random.one_in(2) {
        words.len() + few
    } else {
        words.len() - few
    };
    words.resize(length, ONES);
}

/// Leaves hardly more than nine words, or fewer.
fn short(random: &mut Random, words: &mut Vec<u32>) {
    words.truncate(random.below(12));
    if random.one_in(3) && words.len() > 2 {
        words[random.below(3)] = 0;
    }
}
