//! Traces of updates, and stores filled by them. Every trace is run on the library and on the peer,
//! whose replies and words must be the same.

use std::collections::HashSet;

use second::geometry::Geometry;
use second::random::Random;

use crate::index::{Index, Lent, Library, Pair, Peer};

/// An update: a put of a pair that is not held, or a drop of one that is.
#[derive(Clone, Copy)]
pub enum Update {
    Put(Pair),
    Drop(Pair),
}

/// What an update returns: live, the deepest level, pages written, the entries of four levels.
pub type Values = [u32; 7];

/// Puts of random pairs, so many, all different.
pub fn random_puts(seed: u64, puts: usize) -> Vec<Update> {
    let mut random = Random::new(seed);
    let mut held = HashSet::new();
    let mut trace = Vec::new();
    while trace.len() < puts {
        let pair = random_pair(&mut random);
        if held.insert(pair) {
            trace.push(Update::Put(pair));
        }
    }
    trace
}

/// A store at rest: random puts up to nine tenths of M, then as many updates as M, of which every
/// other drops a random held pair and the rest put a new one.
pub fn turnover(seed: u64, geometry: Geometry) -> Vec<Update> {
    let mut random = Random::new(!seed);
    let mut trace = random_puts(seed, (geometry.most() * 9 / 10).max(1));
    let mut held: Vec<Pair> = trace.iter().map(Update::pair).collect();
    for _ in 0..geometry.most() / 2 {
        let at = random.below(held.len());
        trace.push(Update::Drop(held.swap_remove(at)));
        let pair = random_pair(&mut random);
        held.push(pair);
        trace.push(Update::Put(pair));
    }
    trace
}

impl Update {
    /// The pair that is put or dropped.
    pub fn pair(&self) -> Pair {
        match *self {
            Update::Put(pair) | Update::Drop(pair) => pair,
        }
    }

    /// Makes the update; it must be accepted.
    pub fn make(&self, index: &impl Index, lent: &mut Lent) -> Values {
        let mut out = [0; 7];
        let number = match *self {
            Update::Put(pair) => index.put(&mut lent.store, &mut lent.work, pair, &mut out),
            Update::Drop(pair) => index.drop(&mut lent.store, &mut lent.work, pair, &mut out),
        };
        assert_eq!(number, 0, "an update of a trace");
        out
    }
}

/// Runs a trace on a formatted store by the library and by the peer; replies must agree at every
/// update, words after every merge and at the end. Gives the store, and what each update returned.
pub fn run_both(geometry: Geometry, trace: &[Update]) -> (Lent, Vec<Values>) {
    let mut ours = Lent::formatted(geometry);
    let mut peers = ours.clone();
    let mut returned = Vec::new();
    for update in trace {
        let values = update.make(&Library, &mut ours);
        let same = update.make(&Peer, &mut peers);
        assert_eq!(values, same, "{geometry}: library and peer differ");
        if values[1] > 0 {
            assert_same(geometry, &ours, &peers);
        }
        returned.push(values);
    }
    assert_same(geometry, &ours, &peers);
    (ours, returned)
}

/// Library and peer have the same words.
fn assert_same(geometry: Geometry, ours: &Lent, peers: &Lent) {
    let same = ours.store == peers.store && ours.work == peers.work;
    assert!(same, "{geometry}: library and peer have other words");
}

/// A store filled with random pairs, whose head has room for two entries more without a merge.
pub struct Filled {
    pub geometry: Geometry,
    pub percent: usize,
    pub lent: Lent,
    pub held: Vec<Pair>,
    /// Pairs that are not held, as many.
    pub absent: Vec<Pair>,
}

impl Filled {
    /// A store filled to so many hundredths of M, or a little more or less for the head's sake.
    pub fn new(geometry: Geometry, percent: usize) -> Filled {
        let most = geometry.most();
        let wanted = (most * percent / 100).max(1);
        let trace = random_puts(3, 2 * most);
        let room_in_head = geometry.capacity(0).saturating_sub(2);
        let mut lent = Lent::formatted(geometry);
        let mut held = Vec::new();
        let mut entries = 0;
        for update in &trace {
            if held.len() == most || held.len() >= wanted && entries <= room_in_head {
                break;
            }
            entries = update.make(&Peer, &mut lent)[3] as usize;
            held.push(update.pair());
        }
        let absent = trace[most..].iter().map(Update::pair).collect();
        Filled {
            geometry,
            percent,
            lent,
            held,
            absent,
        }
    }
}

/// A random badge with one of 32 floors.
fn random_pair(random: &mut Random) -> Pair {
    (random.word(), random.below(32) as u32)
}
