//! Long random sequences, beside a plain set and beside a tree that is never read from words.

mod common;

use std::collections::BTreeSet;

use second::call::{numbered, perform, Call, Outcome};
use second::calls;
use second::generate::{formatted, Caller};
use second::geometry::{Geometry, ONES};
use second::layout::{lay_tree, Page};
use second::slot::Pair;
use second::tree::{Merged, Tree};
use second::variant::Variant;
use second::writing::write_tree;

/// A sequence beside its plain set and its tree.
struct Beside {
    geometry: Geometry,
    store: Vec<u32>,
    set: BTreeSet<Pair>,
    tree: Tree,
    accepted: usize,
    pages: usize,
    seen: BTreeSet<String>,
}

impl Beside {
    /// The beginning of a sequence.
    fn new(geometry: Geometry) -> Beside {
        Beside {
            geometry,
            store: formatted(geometry),
            set: BTreeSet::new(),
            tree: Tree::empty(geometry),
            accepted: 0,
            pages: 0,
            seen: BTreeSet::new(),
        }
    }

    /// Makes a call and compares its answer, and every word lent, with set and tree.
    fn call(&mut self, call: Call, check_every: usize) -> Outcome {
        let before = self.store.clone();
        let outcome = perform(Variant::Right, &mut self.store, call);
        let number = outcome.reply.number;
        assert_eq!(number, self.number(call), "{call:?}");
        self.seen.insert(format!("{} reply {number}", name(call)));
        if number != 0 || !matches!(call, Call::Put(..) | Call::Drop(..)) {
            assert_eq!(self.store, before, "{call:?} changed the store");
            assert_eq!(outcome.work, numbered(0, outcome.work.len()));
        }
        match call {
            Call::Ask(pair) => assert_eq!(outcome.reply.values, self.answer(pair)),
            Call::Why(pair) => assert_eq!(outcome.reply.values, self.why(pair)),
            Call::List(first, last, length) => self.listed(first, last, length, &outcome),
            Call::Put(pair, _) if number == 0 => self.updated(pair, true, &outcome, check_every),
            Call::Drop(pair, _) if number == 0 => self.updated(pair, false, &outcome, check_every),
            Call::Check => assert_eq!(outcome.reply.values, [0]),
            _ => assert_eq!(outcome.reply.values, [0; 3]),
        }
        outcome
    }

    /// The reply number that the plain set gives.
    fn number(&self, call: Call) -> u32 {
        let work = self.geometry.work_words();
        match call {
            Call::Put(_, length) | Call::Drop(_, length) if length != work => 5,
            Call::Put(pair, _) if self.set.contains(&pair) => 2,
            Call::Put(..) if self.set.len() == self.geometry.most() => 4,
            Call::Drop(pair, _) if !self.set.contains(&pair) => 3,
            _ => 0,
        }
    }

    /// What ask must say: held as in the set, decided where the tree has the pair first.
    fn answer(&self, pair: Pair) -> Vec<u32> {
        let has = |level: &Vec<_>| {
            let found = level.binary_search_by_key(&pair, |e: &second::slot::Entry| e.pair);
            found.is_ok()
        };
        let level = self.tree.levels.iter().position(has);
        let held = self.set.contains(&pair);
        vec![held as u32, level.unwrap_or(self.geometry.levels()) as u32]
    }

    /// What why must say: the answer, and for each level down to the deciding one the page of the
    /// tree's layout that is the last to begin at or below the pair.
    fn why(&self, pair: Pair) -> Vec<u32> {
        let mut values = self.answer(pair);
        let laid = lay_tree(&self.tree, Variant::Right);
        let levels: Vec<Vec<Page>> = [vec![laid.head]].into_iter().chain(laid.levels).collect();
        let begins = |page: &Page| page.first().is_some_and(|slot| slot.pair <= pair);
        let page = |level: usize| levels[level].iter().rposition(begins).unwrap_or(0);
        let last = (values[1] as usize).min(self.geometry.bottom());
        for level in 0..=last {
            let slots = &levels[level][page(level)];
            let slot = slots.iter().filter(|slot| slot.pair <= pair).count();
            let mut own = self.tree.levels[level].iter().filter(|e| e.pair == pair);
            let entry = own.next().map_or(0, |entry| 1 + u32::from(entry.filter));
            let followed = if level < last { page(level + 1) + 1 } else { 0 };
            values.extend([1, page(level) as u32, slot as u32, entry, followed as u32]);
        }
        values.resize(22, 0);
        values
    }

    /// Compares a list with the set's range.
    fn listed(&self, first: Pair, last: Pair, length: usize, outcome: &Outcome) {
        let inside = |pair: &&Pair| first <= **pair && **pair <= last;
        let pairs: Vec<&Pair> = self.set.iter().filter(inside).take(length / 2).collect();
        let mut slice: Vec<u32> = pairs.iter().flat_map(|p| [p.badge, p.floor]).collect();
        let mark = length < slice.len() + 2;
        assert_eq!(outcome.reply.values, [pairs.len() as u32, mark as u32]);
        slice.extend((slice.len()..length).map(|j| 1000 + j as u32));
        assert_eq!(outcome.slice, slice);
    }

    /// Brings set and tree up to date, and compares the accepted put or drop with them.
    fn updated(&mut self, pair: Pair, put: bool, outcome: &Outcome, check_every: usize) {
        let merged = if put {
            self.set.insert(pair);
            self.tree.put(pair, Variant::Right)
        } else {
            self.set.remove(&pair);
            self.tree.drop(pair, Variant::Right)
        };
        self.accepted += 1;
        self.pages += merged.pages;
        self.note(merged);
        assert_eq!(outcome.reply.values, self.values(merged));
        let allowed = self.geometry.pages_allowed(self.accepted);
        assert!(self.pages <= allowed, "{} pages", self.pages);
        let work_is_right = match merged.deepest {
            0 => outcome.work == numbered(0, outcome.work.len()),
            _ => outcome.work.iter().all(|word| *word == ONES),
        };
        assert!(work_is_right, "work area");
        if self.accepted.is_multiple_of(check_every) {
            let live = self.set.len() as u32;
            assert_eq!(self.store, write_tree(&self.tree, live, Variant::Right));
            let check = calls::check(Variant::Right, &self.store);
            assert_eq!((check.number, check.values), (0, vec![0]));
        }
    }

    /// The seven values of an accepted put or drop.
    fn values(&self, merged: Merged) -> Vec<u32> {
        let mut values = vec![self.set.len(), merged.deepest, merged.pages];
        values.extend(self.tree.levels.iter().map(Vec::len));
        values.resize(7, 0);
        values.iter().map(|value| *value as u32).collect()
    }

    /// Takes note of what the sequence has met.
    fn note(&mut self, merged: Merged) {
        let seen = &mut self.seen;
        if merged.deepest > 0 {
            seen.insert(format!("merged into {}", merged.deepest));
        }
        if self.set.len() == self.geometry.most() {
            seen.insert("live at M".to_string());
        }
        for (level, entries) in self.tree.levels.iter().enumerate() {
            if merged.deepest > 0 && entries.iter().any(|entry| entry.filter) {
                seen.insert(format!("filter in level {level}"));
            }
        }
    }
}

/// The name of a call.
fn name(call: Call) -> &'static str {
    match call {
        Call::Ask(_) => "ask",
        Call::Why(_) => "why",
        Call::Put(..) => "put",
        Call::Drop(..) => "drop",
        Call::List(..) => "list",
        Call::Check => "check",
    }
}

/// Runs a sequence of so many calls and gives what it has met.
fn run(text: &str, seed: u64, calls: usize, check_every: usize) -> BTreeSet<String> {
    let geometry = common::geometry(text);
    let mut caller = Caller::new(seed, geometry);
    let mut beside = Beside::new(geometry);
    for _ in 0..calls {
        let call = caller.next_call();
        let outcome = beside.call(call, check_every);
        caller.learn(call, &outcome.reply);
    }
    beside.seen
}

/// What every sequence of a geometry must have met.
fn wanted(geometry: Geometry) -> BTreeSet<String> {
    let mut wanted: BTreeSet<String> = [
        "ask reply 0",
        "why reply 0",
        "put reply 0",
        "put reply 2",
        "put reply 4",
        "put reply 5",
        "drop reply 0",
        "drop reply 3",
        "drop reply 5",
        "list reply 0",
        "check reply 0",
        "live at M",
    ]
    .map(String::from)
    .into();
    for level in 1..geometry.levels() {
        wanted.insert(format!("merged into {level}"));
    }
    for level in 1..geometry.bottom() {
        wanted.insert(format!("filter in level {level}"));
    }
    wanted
}

#[test]
fn small_geometries_beside_a_set_and_a_tree() {
    for text in &common::GEOMETRIES[..6] {
        let mut seen = BTreeSet::new();
        for seed in 0..10 {
            seen.extend(run(text, seed, 6000, 1));
        }
        assert_eq!(seen, wanted(common::geometry(text)), "{text}");
    }
}

#[test]
fn every_small_geometry_for_a_while() {
    for head in [1, 2, 3, 5, 20, 21, 22, 42, 63, 64] {
        for ratio in 2..=8 {
            for levels in 2..=4 {
                let text = format!("{head},{ratio},{levels}");
                if common::geometry(&text).store_words() <= 2500 {
                    run(&text, head * ratio * levels, 1500, 1);
                }
            }
        }
    }
}

#[test]
fn a_wide_geometry_filled_beside_a_set_and_a_tree() {
    let seen = run("64,8,3", 3, 15_000, 100);
    assert_eq!(seen, wanted(common::geometry("64,8,3")));
}

#[test]
fn the_largest_geometry_beside_a_set_and_a_tree() {
    let text = common::GEOMETRIES[6];
    let seen = run(text, 3, 16_000, 1000);
    let mut wanted = wanted(common::geometry(text));
    for of_a_full_store in ["live at M", "put reply 4"] {
        wanted.remove(of_a_full_store);
    }
    assert_eq!(seen, wanted);
}

#[test]
#[ignore = "takes a minute; cargo test --release -- --ignored"]
fn the_largest_geometry_filled_beside_a_set_and_a_tree() {
    let text = common::GEOMETRIES[6];
    let seen = run(text, 3, 75_000, 1000);
    assert_eq!(seen, wanted(common::geometry(text)));
}
