//! Faults and their places: the order of the tests, each kind of place by hand, and the damage that
//! meets every kind.

mod common;

use std::collections::{BTreeMap, BTreeSet};

use second::call::Call;
use second::calls::{self, Reply};
use second::damage::damaged;
use second::fault::{Fault, Place, Rule};
use second::generate::formatted;
use second::geometry::{Geometry, HEAD_COUNT, HEAD_SLOTS, LIVE, PAGE_COUNTS, SLOT_WORDS};
use second::layout::{lay_tree, Laid};
use second::random::Random;
use second::reading;
use second::slot::{Entry, Kind, Pair, Slot};
use second::sound::fault;
use second::tree::Tree;
use second::variant::Variant;
use second::walk::walk;
use second::writing::write_laid;

/// A pair with floor 0.
fn pair(badge: u32) -> Pair {
    Pair { badge, floor: 0 }
}

/// A normal entry.
fn normal(badge: u32) -> Entry {
    let pair = pair(badge);
    let filter = false;
    Entry { pair, filter }
}

/// A filter.
fn filter(badge: u32) -> Entry {
    let pair = pair(badge);
    let filter = true;
    Entry { pair, filter }
}

/// The tree of 10,4,3 that most tests begin with: three entries in the head, thirty in level 1, which
/// has two pages, and sixty in the bottom, which has three.
fn tree() -> Tree {
    let mut tree = Tree::empty(common::geometry("10,4,3"));
    tree.levels[0] = [15, 315, 615].map(normal).to_vec();
    tree.levels[1] = (1..=30).map(|n| normal(20 * n + 1)).collect();
    tree.levels[2] = (1..=60).map(|n| normal(10 * n)).collect();
    tree
}

/// The layout of that tree.
fn laid() -> Laid {
    lay_tree(&tree(), Variant::Right)
}

/// The store of a tree, with its own live.
fn store_of(tree: &Tree) -> Vec<u32> {
    let filters = tree.levels.iter().flatten().filter(|e| e.filter).count();
    let all = tree.levels.iter().flatten().count();
    write_laid(
        tree.geometry,
        (all - 2 * filters) as u32,
        &lay_tree(tree, Variant::Right),
    )
}

/// The store of a layout of 10,4,3 with 93 live pairs.
fn store(laid: &Laid) -> Vec<u32> {
    write_laid(common::geometry("10,4,3"), 93, laid)
}

/// What check tells of a store: the number, and the place of a fault.
fn checked(store: &[u32]) -> (u32, Vec<u32>) {
    told(calls::check(Variant::Right, store))
}

/// What ask tells of a badge.
fn asked(store: &[u32], badge: u32) -> (u32, Vec<u32>) {
    told(calls::ask(Variant::Right, store, pair(badge)))
}

/// A reply's number and values.
fn told(reply: Reply) -> (u32, Vec<u32>) {
    (reply.number, reply.values)
}

/// A fault of this number at this place.
fn at(number: u32, place: [u32; 3]) -> (u32, Vec<u32>) {
    (number, place.to_vec())
}

/// The place of a word of a slot: 0 its badge, 1 its floor, 2 its tag.
fn word(level: usize, page: usize, slot: usize, word: usize) -> usize {
    let start = match level {
        0 => HEAD_COUNT,
        _ => common::geometry("10,4,3").page_start(level, page),
    };
    start + 1 + SLOT_WORDS * slot + word
}

/// A store with some words changed.
fn with(store: &[u32], changes: &[(usize, u32)]) -> Vec<u32> {
    let mut store = store.to_vec();
    for (at, word) in changes {
        store[*at] = *word;
    }
    store
}

#[test]
fn the_layout_that_the_tests_are_about() {
    let laid = laid();
    assert_eq!(checked(&store(&laid)), (0, vec![0]));
    assert_eq!(laid.head.len(), 5);
    let pages = |level: usize| laid.levels[level].iter().map(Vec::len).collect();
    let lengths: [Vec<usize>; 2] = [pages(0), pages(1)];
    assert_eq!(lengths, [vec![21, 13], vec![21, 21, 18]]);
    assert_eq!(laid.levels[0][1][0].kind, Kind::Internal);
}

#[test]
fn the_number_decides_first_in_a_whole_store() {
    let sound = store(&laid());
    // From the last number to the first, each told before those that stand there already.
    let mut store = with(&sound, &[(LIVE, 92)]);
    assert_eq!(checked(&store), at(14, [0, 0, 0]));
    store[word(2, 2, 20, 0)] = 5;
    assert_eq!(checked(&store), at(13, [2, 2, 20]));
    store[word(0, 0, 5, 1)] = 5;
    assert_eq!(checked(&store), at(13, [0, 0, 5]));
    store[word(2, 2, 3, 2)] = 2;
    assert_eq!(checked(&store), at(12, [2, 2, 3]));
    store[word(1, 1, 12, 2)] = 4;
    assert_eq!(checked(&store), at(12, [1, 1, 12]));
    store[word(0, 0, 4, 2)] = 4;
    assert_eq!(checked(&store), at(11, [0, 0, 4]));
    store[LIVE] = 161;
    assert_eq!(checked(&store), at(10, [0, 0, 0]));
}

#[test]
fn a_walk_tells_page_by_page() {
    // An entry opens page 0 of level 1, and the page below has a bad tag.
    let changes = [(word(1, 0, 0, 2), 0), (word(2, 0, 4, 2), 4)];
    let store = with(&store(&laid()), &changes);
    assert_eq!(asked(&store, 20), at(13, [1, 0, 0]));
    assert_eq!(checked(&store), at(12, [2, 0, 4]));
    // The form of a page comes before its first slot.
    let worse = with(&store, &[(word(1, 0, 20, 2), 4)]);
    assert_eq!(asked(&worse, 20), at(12, [1, 0, 20]));
    // Another page's faults are not met.
    assert_eq!(asked(&worse, 601), (0, vec![1, 1]));
}

#[test]
fn a_first_slot_above_the_pair_asked() {
    // The head leads 361 to page 1 of level 1, whose fence is raised together with its entry.
    let first = laid().levels[0][1][0].pair.badge;
    let mut store = store(&laid());
    assert_eq!(asked(&store, first), (0, vec![1, 1]));
    store[word(1, 1, 0, 1)] = 1;
    store[word(1, 1, 1, 1)] = 1;
    assert_eq!(asked(&store, first), at(13, [1, 1, 0]));
    assert_eq!(asked(&store, first + 1).0, 0);
}

#[test]
fn the_leftmost_slot_of_the_head() {
    let sound = store(&laid());
    let tag = |slot: usize| word(0, 0, slot, 2);
    let badge = |slot: usize| word(0, 0, slot, 0);
    for (changes, slot) in [
        // A count out of range comes before all slots.
        (vec![(HEAD_COUNT, 14), (tag(1), 4)], 0),
        // No slot at all, and no fence first.
        (vec![(HEAD_COUNT, 0)], 0),
        (vec![(badge(0), 1)], 0),
        (vec![(tag(0), 0)], 0),
        // Of two slots out of order the right one, here left of a bad tag and right of another.
        (vec![(badge(1), 1000), (tag(3), 4)], 2),
        (vec![(badge(3), 1), (tag(1), 4)], 1),
        // A fence out of turn, an internal one, and one that names no page.
        (vec![(tag(2), 2)], 2),
        (vec![(tag(1), 2)], 1),
        (vec![(tag(3), 3)], 3),
        (vec![(tag(4), 10)], 4),
        // Too few fences, told after the fault of a slot.
        (vec![(tag(3), 0)], 0),
        (vec![(tag(3), 0), (tag(4), 4)], 4),
        (vec![(PAGE_COUNTS, 3)], 0),
    ] {
        let store = with(&sound, &changes);
        assert_eq!(asked(&store, 15), at(11, [0, 0, slot]), "{changes:?}");
        assert_eq!(checked(&store), at(11, [0, 0, slot]), "{changes:?}");
    }
}

#[test]
fn the_entry_that_the_head_has_no_room_for() {
    let mut tree = tree();
    tree.levels[0] = (1..=11).map(|n| normal(100 * n)).collect();
    let mut store = store_of(&tree);
    let head = reading::head(tree.geometry, &store);
    let tenth = head.iter().position(|slot| slot.pair == pair(1000));
    assert_eq!(tenth, Some(11));
    assert_eq!(asked(&store, 1), at(11, [0, 0, 11]));
    // Leftmost of all: a bad tag before it, and one behind it.
    store[word(0, 0, 12, 2)] = 4;
    assert_eq!(asked(&store, 1), at(11, [0, 0, 11]));
    store[word(0, 0, 10, 2)] = 4;
    assert_eq!(asked(&store, 1), at(11, [0, 0, 10]));
}

#[test]
fn the_leftmost_slot_of_a_page() {
    let sound = store(&laid());
    let start = common::geometry("10,4,3").page_start(2, 1);
    let tag = |slot: usize| word(2, 1, slot, 2);
    let badge = |slot: usize| word(2, 1, slot, 0);
    for (changes, slot) in [
        (vec![(start, 22), (tag(3), 2)], 0),
        (vec![(start, 0), (tag(3), 2)], 0),
        (vec![(badge(5), 1000), (tag(8), 2)], 6),
        (vec![(badge(5), 0), (tag(4), 2)], 4),
        // One pair twice.
        (vec![(badge(5), 260)], 5),
        (vec![(tag(0), 2)], 0),
        (vec![(tag(20), 4)], 20),
        (vec![(tag(20), 3), (tag(19), 5)], 19),
    ] {
        let store = with(&sound, &changes);
        assert_eq!(checked(&store), at(12, [2, 1, slot]), "{changes:?}");
    }
}

#[test]
fn words_that_leave_the_writing() {
    let sound = store(&laid());
    let geometry = common::geometry("10,4,3");
    let count = |level, page| geometry.page_start(level, page);
    let head_slot = |slot: usize| HEAD_SLOTS + SLOT_WORDS * slot;
    for (changes, place) in [
        // The pair of a fence in the head, and an unused slot of it.
        (vec![(head_slot(3) + 1, 1)], [0, 0, 3]),
        (vec![(head_slot(12) + 2, 7)], [0, 0, 12]),
        // A fence of level 1 one floor off, and one that names another page.
        (vec![(word(1, 0, 11, 1), 1)], [1, 0, 11]),
        (vec![(word(1, 1, 0, 2), 3)], [1, 1, 0]),
        // Unused slots, an unused page's count, and its slots; the leftmost of two.
        (vec![(word(1, 1, 13, 0), 0)], [1, 1, 13]),
        (vec![(word(2, 2, 20, 2), 0), (count(2, 3), 0)], [2, 2, 20]),
        (vec![(count(2, 3), 1), (word(2, 3, 4, 0), 1)], [2, 3, 0]),
        (vec![(word(2, 7, 20, 2), 0)], [2, 7, 20]),
        (vec![(word(1, 2, 1, 0), 0)], [1, 2, 1]),
        // A page's count one too small: its last slot is no longer of the level, and the count differs
        // for the entry that moves up from the next page.
        (vec![(count(2, 1), 20)], [2, 1, 0]),
        // That of the last page: its count is right, and the slot behind it is not unused.
        (vec![(count(2, 2), 17)], [2, 2, 17]),
    ] {
        let store = with(&sound, &changes);
        assert_eq!(checked(&store), at(13, place), "{changes:?}");
    }
}

#[test]
fn a_page_that_the_writing_does_not_have() {
    // The last entry of the bottom stands in a page of its own, and level 1 has a fence to it.
    let mut laid = laid();
    let last = laid.levels[1][2].pop().expect("an entry");
    laid.levels[1].push(vec![last]);
    let fence = Slot {
        pair: last.pair,
        kind: Kind::External,
        page: 3,
    };
    laid.levels[0][1].insert(12, fence);
    assert_eq!(checked(&store(&laid)), at(13, [2, 2, 0]));
}

#[test]
fn one_entry_too_many() {
    let mut tree = tree();
    tree.levels[1] = (1..=41).map(|n| normal(20 * n + 1)).collect();
    let store = store_of(&tree);
    let placed = reading::placed_entries(tree.geometry, &store, 1);
    assert_eq!(placed[39].1, normal(801));
    let place = placed[39].0.values();
    assert_eq!(checked(&store), at(13, place));
    // The bottom may have M entries, and the one behind them is told; its live is another matter.
    let geometry = common::geometry("1,2,2");
    let mut tree = Tree::empty(geometry);
    tree.levels[1] = vec![normal(1), normal(2)];
    assert_eq!(checked(&store_of(&tree)).0, 0);
    tree.levels[1].push(filter(3));
    assert_eq!(checked(&store_of(&tree)), at(13, [1, 0, 2]));
}

#[test]
fn an_entry_not_above_the_last_one() {
    // In the bottom, where nothing stands before it.
    let mut tree = tree();
    tree.levels[2][42] = tree.levels[2][41];
    assert_eq!(checked(&store_of(&tree)), at(13, [2, 2, 0]));
    // In level 1, where the internal fence before it has the same pair and is as written.
    let mut tree = self::tree();
    let first = laid().levels[0][1][1].pair;
    let entry = tree.levels[1].iter().position(|e| e.pair == first);
    let entry = entry.expect("the entry");
    tree.levels[1][entry].pair = tree.levels[1][entry - 2].pair;
    assert_eq!(checked(&store_of(&tree)), at(13, [1, 1, 1]));
}

/// Level 1 of 64,8,3 has 196 fences and nothing else, ten pages, of which the directory and the head
/// give the first alone.
#[test]
fn pages_past_the_count_are_compared_with_the_writing() {
    let geometry = common::geometry("64,8,3");
    let mut tree = Tree::empty(geometry);
    tree.levels[2] = (1..=4096).map(normal).collect();
    let mut laid = lay_tree(&tree, Variant::Right);
    assert_eq!(laid.levels[0].len(), 10);
    laid.head.truncate(1);
    let mut store = write_laid(geometry, 4096, &laid);
    store[PAGE_COUNTS] = 1;
    // Every word is the writing, and only the page count is not.
    assert_eq!(checked(&store), at(13, [1, 1, 0]));
    // A word is not: its place is told, though an earlier page is not counted either.
    store[geometry.page_start(1, 2) + 1 + 3 * SLOT_WORDS] += 1;
    assert_eq!(checked(&store), at(13, [1, 2, 3]));
}

#[test]
fn kinds_from_the_top_in_order() {
    let mut tree = tree();
    tree.levels[0] = vec![normal(15), filter(21), normal(210), filter(999)];
    tree.levels[1][3] = filter(81);
    tree.levels[2][59] = filter(600);
    // In the head: normal over the normal 210 of the bottom; before it the filter of level 1's 21.
    let head = |tree: &Tree, badge: u32| {
        let placed = reading::placed_entries(tree.geometry, &store_of(tree), 0);
        let own = placed.iter().find(|(_, entry)| entry.pair == pair(badge));
        own.expect("an entry").0.values()
    };
    assert_eq!(checked(&store_of(&tree)), at(14, head(&tree, 210)));
    tree.levels[0][2] = filter(210);
    assert_eq!(checked(&store_of(&tree)), at(14, head(&tree, 999)));
    tree.levels[0].pop();
    // In level 1 a filter with none below, in the bottom another.
    assert_eq!(checked(&store_of(&tree)), at(14, [1, 0, 4]));
    tree.levels[1][3] = normal(81);
    assert_eq!(checked(&store_of(&tree)), at(14, [2, 2, 17]));
    // The next entry counts, not a later one: normal over a filter over a normal.
    tree.levels[2][59] = normal(600);
    tree.levels[1][9] = filter(200);
    tree.levels[0] = vec![normal(200)];
    assert_eq!(checked(&store_of(&tree)).0, 0);
    tree.levels[0] = vec![filter(200)];
    assert_eq!(checked(&store_of(&tree)), at(14, [0, 0, 1]));
}

#[test]
fn a_drop_with_no_live_pairs() {
    let mut sound = store(&laid());
    sound[LIVE] = 0;
    let geometry = common::geometry("10,4,3");
    let mut drop = |badge: u32| {
        let mut work = vec![0; geometry.work_words()];
        told(calls::drop(
            Variant::Right,
            &mut sound,
            &mut work,
            pair(badge),
        ))
    };
    assert_eq!(drop(15), at(14, [0, 0, 0]));
    assert_eq!(drop(16), at(3, [0, 0, 0]));
}

#[test]
fn why_has_the_place_that_ask_has() {
    let mut store = formatted(common::geometry("10,4,3"));
    store[word(2, 0, 0, 0) - 1] = 22;
    let why = calls::why(Variant::Right, &store, pair(7));
    assert_eq!(asked(&store, 7), at(12, [2, 0, 0]));
    assert_eq!(told(why), at(12, [2, 0, 0]));
}

/// The part of a store in which a level stands.
fn part(geometry: Geometry, level: usize) -> &'static str {
    match level {
        0 => "in the head",
        _ if level == geometry.bottom() => "in the bottom",
        _ => "between",
    }
}

/// What a place is, by the counts of the store.
fn used(geometry: Geometry, store: &[u32], place: Place) -> &'static str {
    let Place { level, page, slot } = place;
    if level > 0 && page >= reading::page_count(store, level) as usize {
        return "an unused page";
    }
    let count = match level {
        0 => store[HEAD_COUNT],
        _ => reading::slot_count(geometry, store, level, page),
    };
    if slot < count as usize {
        "a used slot"
    } else {
        "an unused slot"
    }
}

/// The kind of a fault and of its place.
fn kind(geometry: Geometry, store: &[u32], fault: Fault) -> String {
    let Fault {
        number,
        rule,
        place,
    } = fault;
    let mut kind = format!("{number} {rule:?} {}", part(geometry, place.level));
    if rule == Rule::Words {
        kind += &format!(", {}", used(geometry, store, place));
    }
    if place.page > 0 {
        kind += ", a later page";
    }
    if place.slot > 0 {
        kind += ", a later slot";
    }
    kind
}

/// How often damage meets each kind of fault, in the whole-store test and on walks.
fn kinds_met(cases: usize) -> BTreeMap<String, usize> {
    let mut random = Random::new(23);
    let mut met = BTreeMap::new();
    for number in 0..cases {
        let case = damaged(&mut random, number);
        let store = &case.store;
        let geometry = reading::geometry(store).filter(|g| g.store_words() == store.len());
        let Some(geometry) = geometry else {
            continue;
        };
        let walks = case.calls.iter().filter_map(|call| match call {
            Call::Ask(pair) => walk(geometry, store, *pair).err(),
            _ => None,
        });
        for fault in walks.chain(fault(geometry, store, Variant::Right)) {
            *met.entry(kind(geometry, store, fault)).or_default() += 1;
        }
    }
    met
}

/// Ends of a kind: a first slot of a first page, a later one, and so of a later page.
const FIRST: &str = "";
const SLOT: &str = ", a later slot";
const PAGE: &str = ", a later page";
const BOTH: &str = ", a later page, a later slot";

/// Every kind of fault, with the ends that it can have.
const KINDS: [(&str, &[&str]); 36] = [
    ("10 MostLive in the head", &[FIRST]),
    ("10 PageCounts in the head", &[FIRST]),
    ("10 ZeroWord in the head", &[FIRST]),
    ("11 SlotCount in the head", &[FIRST]),
    ("11 Order in the head", &[SLOT]),
    ("11 Tag in the head", &[FIRST, SLOT]),
    ("11 Turn in the head", &[FIRST, SLOT]),
    ("11 LeastFence in the head", &[FIRST]),
    ("11 HeadRoom in the head", &[SLOT]),
    ("11 Fences in the head", &[FIRST]),
    ("12 SlotCount between", &[FIRST, PAGE]),
    ("12 SlotCount in the bottom", &[FIRST, PAGE]),
    ("12 Order between", &[SLOT, BOTH]),
    ("12 Order in the bottom", &[SLOT, BOTH]),
    ("12 Tag between", &[FIRST, SLOT, PAGE, BOTH]),
    ("12 Tag in the bottom", &[FIRST, SLOT, PAGE, BOTH]),
    ("13 FirstSlot between", &[FIRST, PAGE]),
    ("13 Words in the head, a used slot", &[SLOT]),
    ("13 Words in the head, an unused slot", &[SLOT]),
    ("13 Words between, a used slot", &[FIRST, SLOT, PAGE, BOTH]),
    ("13 Words between, an unused slot", &[SLOT, BOTH]),
    ("13 Words between, an unused page", &[PAGE, BOTH]),
    ("13 Words in the bottom, a used slot", &[FIRST, PAGE]),
    (
        "13 Words in the bottom, an unused slot",
        &[FIRST, SLOT, BOTH],
    ),
    ("13 Words in the bottom, an unused page", &[PAGE, BOTH]),
    ("13 Pages between", &[PAGE]),
    ("13 Capacity between", &[SLOT, BOTH]),
    ("13 Capacity in the bottom", &[SLOT, BOTH]),
    ("13 Ascent between", &[BOTH]),
    ("13 Ascent in the bottom", &[PAGE]),
    ("14 Kinds in the head", &[SLOT]),
    ("14 Kinds between", &[SLOT, BOTH]),
    ("14 Filter in the head", &[SLOT]),
    ("14 Filter between", &[SLOT, BOTH]),
    ("14 Filter in the bottom", &[FIRST, SLOT, PAGE, BOTH]),
    ("14 Live in the head", &[FIRST]),
];

#[test]
fn damage_meets_every_kind_of_fault_at_every_kind_of_place() {
    let met = kinds_met(20_000);
    for (kind, times) in &met {
        println!("{times:6} {kind}");
    }
    let all = KINDS.iter().flat_map(|(kind, ends)| {
        let ends = ends.iter();
        ends.map(move |end| format!("{kind}{end}"))
    });
    let wanted: BTreeSet<String> = all.collect();
    let given: BTreeSet<String> = met.into_keys().collect();
    assert_eq!(given, wanted);
}
