//! The listed replays show what a long sequence must show.

use std::collections::{BTreeMap, BTreeSet};

use second::fault::NUMBERS;
use second::geometry::Geometry;
use second::plan::{Plan, LIST};
use second::reading;
use second::slot::{Entry, Pair};
use second::tree::Tree;
use second::variant::{Variant, FALSE_BUILDS};

/// What a replay showed: how often, by level where it is a list.
#[derive(Clone, Debug, Default)]
struct Shown {
    merges: [usize; 4],
    most_pages: [u32; 4],
    badges_across_pages: [usize; 4],
    sunk_filters: [usize; 4],
    /// Merges that cancelled a pair whose upper entry was normal, and a filter.
    cancelled: [usize; 2],
    at_most: usize,
    /// Faults, by the number told.
    faults: BTreeMap<u32, usize>,
}

impl Shown {
    /// Makes a replay and looks at the store after each call that merged.
    fn by(plan: Plan) -> Shown {
        let mut shown = Shown::default();
        let mut replay = plan.begin(Variant::Right);
        for _ in 0..plan.calls {
            let before = replay.store().to_vec();
            let reply = replay.step();
            let store = replay.store();
            if NUMBERS.contains(&reply.number) {
                *shown.faults.entry(reply.number).or_default() += 1;
            }
            let edited = reply.number == 0 && reply.values.len() == 7;
            if edited && reply.values[0] as usize == plan.geometry.most() {
                shown.at_most += 1;
            }
            if edited && reply.values[1] > 0 {
                shown.merges[reply.values[1] as usize] += 1;
                shown.look(plan.geometry, store);
                if plan.damage.is_none() {
                    let trees = [&before[..], store].map(|s| reading::tree(plan.geometry, s));
                    shown.compare(&trees[0], &trees[1]);
                }
            }
        }
        shown
    }

    /// Looks at the levels below the head.
    fn look(&mut self, geometry: Geometry, store: &[u32]) {
        for level in 1..geometry.levels() {
            let pages: Vec<Vec<Entry>> = reading::page_numbers(geometry, store, level)
                .map(|page| reading::page(geometry, store, level, page))
                .map(|slots| slots.iter().filter_map(Entry::of_slot).collect())
                .collect();
            let across = pages.windows(2).filter(|two| {
                let badge = |entry: Option<&Entry>| entry.map(|e| e.pair.badge);
                let last = badge(two[0].last());
                last.is_some() && last == badge(two[1].first())
            });
            self.badges_across_pages[level] += across.count();
            self.most_pages[level] = self.most_pages[level].max(pages.len() as u32);
            let filters = pages.iter().flatten().filter(|entry| entry.filter);
            self.sunk_filters[level] += filters.count();
        }
    }

    /// Counts the pairs of which two entries went in one call, by the kind of the upper one.
    fn compare(&mut self, before: &Tree, after: &Tree) {
        let after = columns(after);
        for (pair, column) in columns(before) {
            if after.get(&pair).map_or(0, Vec::len) + 2 <= column.len() {
                self.cancelled[usize::from(column[0].filter)] += 1;
            }
        }
    }
}

/// The plans of the list.
fn plans() -> impl Iterator<Item = Plan> {
    LIST.iter()
        .map(|numbers| Plan::of(*numbers).expect("a plan"))
}

/// The entries of each pair, from the top down.
fn columns(tree: &Tree) -> BTreeMap<Pair, Vec<Entry>> {
    let mut columns: BTreeMap<Pair, Vec<Entry>> = BTreeMap::new();
    for entry in tree.levels.iter().flatten() {
        columns.entry(entry.pair).or_default().push(*entry);
    }
    columns
}

#[test]
fn the_listed_replays_show_what_they_must() {
    let largest = Geometry::new(64, 8, 4).expect("a geometry");
    let mut cancelled = [0; 2];
    let mut numbers = BTreeSet::new();
    for plan in plans() {
        let shown = Shown::by(plan);
        println!("{plan:?}\n  {shown:?}");
        let merged = (1..plan.geometry.levels()).all(|level| shown.merges[level] > 0);
        assert!(merged, "no merge into a level: {plan:?}");
        if plan.damage.is_some() {
            assert!(shown.faults.len() > 1, "one number at most: {plan:?}");
            numbers.extend(shown.faults.into_keys());
            continue;
        }
        assert!(shown.faults.is_empty(), "not sound: {plan:?}");
        cancelled = [0, 1].map(|kind| cancelled[kind] + shown.cancelled[kind]);
        if plan.geometry == largest {
            assert!(shown.most_pages[3] > 255, "page numbers fit a byte");
            assert!(shown.sunk_filters[2] > 0, "no filter in level 2");
            assert!((1..4).all(|level| shown.badges_across_pages[level] > 0));
        } else {
            assert!(shown.at_most > 0, "never M live pairs: {plan:?}");
        }
    }
    assert!(cancelled[0] > 0 && cancelled[1] > 0, "{cancelled:?}");
    assert_eq!(numbers, NUMBERS.into(), "the numbers of faults");
}

/// Two changed words do not make an entry and the internal fence before it fall together, so that the
/// build that tells the one for the other is left to the vectors.
#[test]
fn the_listed_replays_find_every_false_build_but_one() {
    for variant in FALSE_BUILDS {
        let differs = |plan: Plan| plan.text(variant) != plan.text(Variant::Right);
        let found = plans().any(differs);
        assert_eq!(
            found,
            variant != Variant::InternalFenceForEntry,
            "{variant:?}"
        );
    }
}
