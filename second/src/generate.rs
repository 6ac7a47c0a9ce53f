//! Random calls on a freshly formatted store, from a seed.
//!
//! Calls come in phases: filling up to live = M and beyond, draining, and mixing. Some
//! pairs are put and dropped over and over, so that their filters sink and cancel; some
//! puts are of held pairs, some drops of absent ones, some work areas have a wrong length.

use std::collections::BTreeSet;

use crate::call::{perform, Call};
use crate::calls::{self, Reply};
use crate::geometry::Geometry;
use crate::pairs::{Style, STYLES};
use crate::random::Random;
use crate::slot::{Pair, GREATEST};
use crate::variant::Variant;
use crate::vectors::Case;

/// The store of the empty set.
pub fn formatted(geometry: Geometry) -> Vec<u32> {
    let [head, ratio, levels] = geometry.words();
    let mut store = vec![0; geometry.store_words()];
    calls::format(Variant::Right, &mut store, head, ratio, levels);
    store
}

/// The case with this number: so many random calls on a freshly formatted store.
pub fn sequence(seed: u64, number: usize, geometry: Geometry, calls: usize) -> Case {
    let mut caller = Caller::new(seed, geometry);
    let store = formatted(geometry);
    let mut now = store.clone();
    let mut made = Vec::new();
    for _ in 0..calls {
        let call = caller.next_call();
        let outcome = perform(Variant::Right, &mut now, call);
        caller.learn(call, &outcome.reply);
        made.push(call);
    }
    Case {
        title: format!("case {number} formatted {geometry}"),
        store,
        calls: made,
    }
}

/// What the calls of a phase are mostly about.
#[derive(Clone, Copy, Debug, PartialEq, Eq)]
enum Phase {
    Fill,
    Drain,
    Mix,
}

/// The source of a sequence's calls, which knows the held pairs from the replies.
pub struct Caller {
    random: Random,
    geometry: Geometry,
    style: Style,
    phase: Phase,
    left: usize,
    held: BTreeSet<Pair>,
    busy: Vec<Pair>,
}

impl Caller {
    /// The caller of a seed, which begins by filling the store.
    pub fn new(seed: u64, geometry: Geometry) -> Caller {
        let mut random = Random::new(seed);
        let style = *random.pick(&STYLES);
        let mut caller = Caller {
            random,
            geometry,
            style,
            phase: Phase::Fill,
            left: 3 * geometry.most(),
            held: BTreeSet::new(),
            busy: Vec::new(),
        };
        caller.busy = (0..4).map(|_| caller.any_pair()).collect();
        caller
    }

    /// The next call.
    pub fn next_call(&mut self) -> Call {
        self.step_phase();
        let roll = self.random.below(100);
        let puts = match self.phase {
            Phase::Fill => 76,
            Phase::Mix => 40,
            Phase::Drain => 4,
        };
        let work = self.geometry.work_words();
        match roll {
            0..80 if self.random.one_in(6) => self.turn_busy(),
            0..80 if roll < puts => Call::Put(self.absent_pair(), work),
            0..80 => Call::Drop(self.held_pair(), work),
            80..83 => Call::Put(self.held_pair(), work),
            83..86 => Call::Drop(self.absent_pair(), work),
            86..88 => self.wrong_work(),
            88..93 if self.whole_store() => self.list(),
            93..95 if self.whole_store() => Call::Check,
            98.. => Call::Why(self.some_pair()),
            _ => Call::Ask(self.some_pair()),
        }
    }

    /// Whether to make a call that reads the whole store: rarely where there is much to read.
    fn whole_store(&mut self) -> bool {
        self.random.one_in(1 + self.geometry.most() / 1000)
    }

    /// Takes note of what a call did to the held pairs.
    pub fn learn(&mut self, call: Call, reply: &Reply) {
        match call {
            Call::Put(pair, _) if reply.number == 0 => {
                self.held.insert(pair);
            }
            Call::Drop(pair, _) if reply.number == 0 => {
                self.held.remove(&pair);
            }
            _ => {}
        }
    }

    /// Counts down the phase; a store that is full or empty soon gets another phase.
    fn step_phase(&mut self) {
        let full = self.held.len() == self.geometry.most();
        let over =
            self.phase == Phase::Fill && full || self.phase == Phase::Drain && self.held.is_empty();
        if over {
            self.left = self.left.min(8);
        }
        if self.left == 0 {
            self.phase = *self.random.pick(&[Phase::Fill, Phase::Drain, Phase::Mix]);
            self.left = self.random.below(2 * self.geometry.most()) + 8;
        }
        self.left -= 1;
    }

    /// A drop of a busy pair if it is held, else a put.
    fn turn_busy(&mut self) -> Call {
        let pair = *self.random.pick(&self.busy);
        let work = self.geometry.work_words();
        if self.held.contains(&pair) {
            Call::Drop(pair, work)
        } else {
            Call::Put(pair, work)
        }
    }

    /// A list of a range that is narrow or wide, at times the wrong way round.
    fn list(&mut self) -> Call {
        let (one, two) = (self.some_pair(), self.some_pair());
        let room = self.random.below(24);
        if self.random.one_in(4) {
            Call::List(one, two, room)
        } else {
            Call::List(one.min(two), one.max(two), room)
        }
    }

    /// A put or drop with a work area of a wrong length.
    fn wrong_work(&mut self) -> Call {
        let right = self.geometry.work_words();
        let wrong = *self.random.pick(&[0, 1, right - 1, right + 1, right + 64]);
        if self.random.one_in(2) {
            Call::Put(self.absent_pair(), wrong)
        } else {
            Call::Drop(self.held_pair(), wrong)
        }
    }

    /// A pair that is held, or any if none is.
    fn held_pair(&mut self) -> Pair {
        let from = self.any_pair();
        let next = self.held.range(from..).next().or(self.held.first());
        next.copied().unwrap_or(from)
    }

    /// A pair that is not held, as far as a few tries find one.
    fn absent_pair(&mut self) -> Pair {
        let mut pair = self.any_pair();
        for _ in 0..16 {
            if !self.held.contains(&pair) {
                break;
            }
            pair = self.any_pair();
        }
        pair
    }

    /// A pair of any sort.
    fn some_pair(&mut self) -> Pair {
        match self.random.below(8) {
            0 => GREATEST,
            1 => *self.random.pick(&self.busy),
            2..5 => self.held_pair(),
            _ => self.any_pair(),
        }
    }

    /// One of twice as many pairs as the store can hold.
    fn any_pair(&mut self) -> Pair {
        let number = self.random.below(2 * self.geometry.most() + 2);
        self.style.pair(number as u32)
    }
}
