//! A call as a value, and what it leaves in every lent word.

use crate::calls::{self, Reply};
use crate::slot::Pair;
use crate::variant::Variant;

/// A call on a store, with the length of what else is lent.
#[derive(Clone, Copy, Debug, PartialEq, Eq)]
pub enum Call {
    Ask(Pair),
    Why(Pair),
    Put(Pair, usize),
    Drop(Pair, usize),
    List(Pair, Pair, usize),
    Check,
}

/// What a call answers, and its work area and list slice afterwards (empty if it has none).
#[derive(Clone, Debug, PartialEq, Eq)]
pub struct Outcome {
    pub reply: Reply,
    pub work: Vec<u32>,
    pub slice: Vec<u32>,
}

/// Makes a call; before it word j of a work area is j, and of a list slice 1000 + j.
pub fn perform(variant: Variant, store: &mut [u32], call: Call) -> Outcome {
    let (mut work, mut slice) = (Vec::new(), Vec::new());
    let reply = match call {
        Call::Ask(pair) => calls::ask(variant, store, pair),
        Call::Why(pair) => calls::why(variant, store, pair),
        Call::Put(pair, length) => {
            work = numbered(0, length);
            calls::put(variant, store, &mut work, pair)
        }
        Call::Drop(pair, length) => {
            work = numbered(0, length);
            calls::drop(variant, store, &mut work, pair)
        }
        Call::List(first, last, length) => {
            slice = numbered(1000, length);
            calls::list(variant, store, first, last, &mut slice)
        }
        Call::Check => calls::check(variant, store),
    };
    Outcome { reply, work, slice }
}

/// This many words that count up from the first.
pub fn numbered(first: u32, length: usize) -> Vec<u32> {
    (0..length as u32).map(|j| first + j).collect()
}
