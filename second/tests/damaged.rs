//! Damaged stores and words of any sort: no panic, and a refusal changes nothing.

mod common;

use std::collections::{BTreeMap, BTreeSet};

use second::call::{numbered, perform, Call};
use second::calls::{self, Reply};
use second::damage::{self, damaged};
use second::fault::{DIRECTORY, HEAD, NUMBERS, PAGE_FORM};
use second::geometry::{Geometry, LIVE, ONES, PAGE_SLOTS};
use second::layout::lay_tree;
use second::random::Random;
use second::reading;
use second::slot::{Entry, Pair, GREATEST, LEAST};
use second::tree::Tree;
use second::variant::Variant;
use second::writing::{write_laid, write_tree};

/// Makes a call, tests that a refusal changes nothing, and gives the reply's number.
fn call(store: &mut [u32], call: Call) -> u32 {
    let before = store.to_vec();
    let outcome = perform(Variant::Right, store, call);
    let reply = &outcome.reply;
    let writes = reply.number == 0 && matches!(call, Call::Put(..) | Call::Drop(..));
    if !writes {
        assert_eq!(store, before, "{call:?} changed the store");
        assert_eq!(outcome.work, numbered(0, outcome.work.len()), "{call:?}");
    }
    if reply.number != 0 {
        assert_eq!(
            outcome.slice,
            numbered(1000, outcome.slice.len()),
            "{call:?}"
        );
        refused(&before, reply);
    } else if writes {
        accepted(&before, store, &reply.values, &outcome.work);
    }
    if let Call::Ask(pair) | Call::Why(pair) = call {
        why_answers_as_ask_does(store, pair);
    }
    reply.number
}

/// A refusal has three values: zeros, or from 11 on a place that the store has.
fn refused(store: &[u32], reply: &Reply) {
    assert!([1, 2, 3, 4, 5].contains(&reply.number) || NUMBERS.contains(&reply.number));
    let [level, page, slot] = reply.values[..] else {
        panic!("{reply:?}");
    };
    if reply.number <= DIRECTORY {
        assert_eq!(reply.values, [0; 3]);
        return;
    }
    let geometry = reading::geometry(store).expect("a geometry");
    let (level, page) = (level as usize, page as usize);
    let (pages, slots) = match level {
        0 => (1, geometry.head_room()),
        _ => (geometry.page_room(level), PAGE_SLOTS),
    };
    assert!(page < pages && (slot as usize) < slots, "{reply:?}");
    match reply.number {
        HEAD => assert_eq!(level, 0),
        PAGE_FORM => assert!(level > 0),
        _ => {}
    }
}

/// Why has the number and the first values of ask, and names an entry just where one decides.
fn why_answers_as_ask_does(store: &[u32], pair: Pair) {
    let ask = calls::ask(Variant::Right, store, pair);
    let why = calls::why(Variant::Right, store, pair);
    assert_eq!(why.number, ask.number);
    assert_eq!(why.values[..ask.values.len()], ask.values);
    if why.number == 0 {
        let levels: Vec<&[u32]> = why.values[2..].chunks(5).collect();
        let named = levels.iter().position(|level| level[3] > 0);
        assert_eq!(named.unwrap_or(store[2] as usize) as u32, ask.values[1]);
        assert_eq!(levels.iter().any(|level| level[3] == 1), ask.values[0] == 1);
    }
}

/// An accepted put or drop changes live by one, and without a merge only directory and head.
fn accepted(before: &[u32], store: &[u32], values: &[u32], work: &[u32]) {
    let geometry = reading::geometry(before).expect("a geometry");
    assert_eq!(values.len(), 7);
    assert_eq!(values[0], store[3]);
    assert_eq!(store[3].abs_diff(before[3]), 1);
    if values[1] == 0 {
        let levels = geometry.page_start(1, 0);
        assert_eq!(before[levels..], store[levels..]);
        assert_eq!(before[4..8], store[4..8]);
        assert_eq!(work, numbered(0, work.len()));
    } else {
        assert_eq!(calls::check(Variant::Right, before).number, 0);
        assert_eq!(calls::check(Variant::Right, store).number, 0);
        assert!(work.iter().all(|word| *word == ONES));
    }
}

/// A store that check passes is, word by word, the writing of its tree.
fn check_means_written(store: &[u32]) {
    if calls::check(Variant::Right, store).number == 0 {
        let geometry = reading::geometry(store).expect("a geometry");
        let tree = reading::tree(geometry, store);
        let live = tree.held().len() as u32;
        assert_eq!(write_tree(&tree, live, Variant::Right), store);
        for pair in tree.held() {
            assert_eq!(calls::ask(Variant::Right, store, pair).values[0], 1);
        }
    }
}

#[test]
fn a_refusal_changes_nothing_on_damaged_stores() {
    let mut random = Random::new(17);
    let mut replies: BTreeMap<u32, usize> = BTreeMap::new();
    let mut names = BTreeSet::new();
    for number in 0..12_000 {
        let mut case = damaged(&mut random, number);
        let mut words: Vec<&str> = case.title.split(' ').skip(2).collect();
        words.pop();
        names.insert(words.join(" "));
        check_means_written(&case.store);
        for made in case.calls {
            *replies.entry(call(&mut case.store, made)).or_default() += 1;
        }
    }
    assert_eq!(names, BTreeSet::from_iter(damage::names()));
    for number in (0..=5).chain(NUMBERS) {
        assert!(
            replies.get(&number).is_some_and(|n| *n > 100),
            "reply {number}: {replies:?}"
        );
    }
}

#[test]
fn every_call_answers_on_words_of_any_sort() {
    let mut random = Random::new(5);
    for _ in 0..40_000 {
        let length = random.below(170);
        let limit = *random.pick(&[3, 5, 70, 1 << 32]);
        let mut store: Vec<u32> = (0..length).map(|_| random.below(limit) as u32).collect();
        if random.one_in(2) {
            let start = [4, 2, 3, random.below(17) as u32, 1, 1, 0, 0];
            store.splice(..length.min(8), start);
            store.resize(152, ONES);
        }
        for _ in 0..4 {
            let pair = Pair {
                badge: random.below(limit) as u32,
                floor: random.below(limit) as u32,
            };
            let work = *random.pick(&[0, 63, 64, 65]);
            let slice = random.below(9);
            let made = *random.pick(&[
                Call::Ask(pair),
                Call::Why(pair),
                Call::Put(pair, work),
                Call::Drop(pair, work),
                Call::List(LEAST, pair, slice),
                Call::List(pair, GREATEST, slice),
                Call::Check,
            ]);
            call(&mut store, made);
        }
        check_means_written(&store);
    }
}

/// The geometry's own words are left aside: another geometry may have the same lengths.
#[test]
fn one_changed_word_is_told_or_makes_another_set() {
    for text in ["1,2,2", "4,2,3", "21,2,2", "2,3,4"] {
        let geometry = common::geometry(text);
        let store = filled(geometry);
        let held = reading::tree(geometry, &store).held();
        let mut sound = 0;
        for at in LIVE..store.len() {
            for change in [1, ONES, 1 << 8, 1 << 30] {
                let mut other = store.clone();
                other[at] = other[at].wrapping_add(change);
                if calls::check(Variant::Right, &other).number == 0 {
                    assert_ne!(reading::tree(geometry, &other).held(), held, "word {at}");
                    sound += 1;
                }
            }
        }
        assert!(sound <= 8 * held.len(), "{text}: {sound}");
    }
}

/// A store with half of what it may hold, all with neighbours at a distance.
fn filled(geometry: Geometry) -> Vec<u32> {
    let mut store = second::generate::formatted(geometry);
    let work = geometry.work_words();
    for badge in 0..geometry.most() as u32 / 2 {
        let pair = Pair {
            badge: 2000 + 1000 * badge,
            floor: 1000,
        };
        assert_eq!(call(&mut store, Call::Put(pair, work)), 0);
    }
    store
}

#[test]
fn a_page_that_the_directory_does_not_count_is_told() {
    let geometry = common::geometry("16,4,3");
    let entry = |badge: u32| Entry {
        pair: Pair { badge, floor: 0 },
        filter: false,
    };
    let mut tree = Tree::empty(geometry);
    tree.levels[1] = (1..=10).map(entry).collect();
    tree.levels[2] = (1001..=1246).map(entry).collect();
    let mut laid = lay_tree(&tree, Variant::Right);
    let sound = write_laid(geometry, 256, &laid);
    assert_eq!(calls::check(Variant::Right, &sound).number, 0);
    // The second page of level 1 holds but a fence; take it from directory and head alone.
    assert_eq!(laid.levels[0][1].len(), 1);
    laid.head.pop();
    let mut store = write_laid(geometry, 256, &laid);
    store[4] = 1;
    let reply = calls::check(Variant::Right, &store);
    assert_eq!((reply.number, reply.values), (13, vec![1, 1, 0]));
}

#[test]
fn format_tests_numbers_before_lengths() {
    let format = |store: &mut [u32], h, k, l| {
        let before = store.to_vec();
        let reply = calls::format(Variant::Right, store, h, k, l);
        assert!(reply.values.iter().all(|value| *value == 0));
        assert!(reply.number == 0 || store == before);
        reply.number
    };
    let mut right = vec![7; 152];
    assert_eq!(format(&mut right, 4, 2, 5), 1);
    assert_eq!(format(&mut [], 4, 2, 5), 1);
    assert_eq!(format(&mut [], 4, 2, 3), 5);
    assert_eq!(format(&mut [7; 151], 4, 2, 3), 5);
    assert_eq!(format(&mut [7; 153], 4, 2, 3), 5);
    assert_eq!(format(&mut right, 4, 2, 3), 0);
    assert_eq!(calls::check(Variant::Right, &right).number, 0);
}
