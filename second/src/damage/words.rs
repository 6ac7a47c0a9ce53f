//! Damage to a store's words.

use super::Named;
use crate::geometry::{
    Geometry, HEAD_COUNT, HEAD_SLOTS, LIVE, ONES, PAGE_COUNTS, PAGE_SLOTS, PAGE_WORDS, SLOT_WORDS,
    ZERO_WORD,
};
use crate::layout::{fences_to, lay_head, lay_level};
use crate::random::Random;
use crate::reading;
use crate::slot::{Entry, Pair};
use crate::variant::Variant;
use crate::writing::{head_words, level_words};

/// Damages the words of a store.
pub type Spoil = fn(&mut Random, Geometry, &mut [u32]);

/// Every kind of damage to words.
pub const KINDS: &[Named<Spoil>] = &[
    ("any", any),
    ("geometry", geometry),
    ("live", live),
    ("page count", page_count),
    ("word 7", zero_word),
    ("head's slot count", head_count),
    ("page's slot count", slot_count),
    ("badge", badge),
    ("floor", floor),
    ("kind", kind),
    ("page number", page_number),
    ("first fence", first_fence),
    ("unused head slot", unused_head_slot),
    ("unused slot of a page", unused_slot),
    ("unused page", unused_page),
    ("last page no longer counted", uncount_last_page),
    ("two of any", two),
    ("all random but the geometry", all_random),
    ("all small after the directory", all_small),
];

/// Changes any word.
fn any(random: &mut Random, _: Geometry, words: &mut [u32]) {
    let at = random.below(words.len());
    change(random, words, at);
}

/// Changes any two words.
fn two(random: &mut Random, geometry: Geometry, words: &mut [u32]) {
    any(random, geometry, words);
    any(random, geometry, words);
}

/// Changes H, k or l.
fn geometry(random: &mut Random, _: Geometry, words: &mut [u32]) {
    let at = random.below(3);
    words[at] = *random.pick(&[0, 1, 2, 3, 4, 5, 8, 9, 64, 65, 1 << 31, ONES]);
}

/// Changes live by little or much.
fn live(random: &mut Random, geometry: Geometry, words: &mut [u32]) {
    let most = geometry.most() as u32;
    let (more, less) = (words[LIVE].wrapping_add(1), words[LIVE].wrapping_sub(1));
    words[LIVE] = *random.pick(&[0, 1, more, less, most, most + 1, ONES]);
}

/// Changes a page count, also of a level that does not exist.
fn page_count(random: &mut Random, geometry: Geometry, words: &mut [u32]) {
    let level = 1 + random.below(3);
    let room = geometry.page_room(level) as u32;
    let at = PAGE_COUNTS + level - 1;
    let (more, less) = (words[at].wrapping_add(1), words[at].wrapping_sub(1));
    words[at] = *random.pick(&[0, 1, more, less, room, room + 1, ONES]);
}

/// Changes word 7.
fn zero_word(random: &mut Random, _: Geometry, words: &mut [u32]) {
    words[ZERO_WORD] = *random.pick(&[1, 2, 3, 256, ONES]);
}

/// Changes the head's slot count.
fn head_count(random: &mut Random, geometry: Geometry, words: &mut [u32]) {
    let room = geometry.head_room() as u32;
    let (more, less) = (words[HEAD_COUNT] + 1, words[HEAD_COUNT].wrapping_sub(1));
    words[HEAD_COUNT] = *random.pick(&[0, 1, more, less, room, room + 1, ONES]);
}

/// Changes the slot count of a page.
fn slot_count(random: &mut Random, geometry: Geometry, words: &mut [u32]) {
    let at = any_page(random, geometry, words);
    let (more, less) = (words[at].wrapping_add(1), words[at].wrapping_sub(1));
    words[at] = *random.pick(&[0, 1, more, less, 21, 22, 64, ONES]);
}

/// Changes the badge of a used slot.
fn badge(random: &mut Random, geometry: Geometry, words: &mut [u32]) {
    let at = any_used_slot(random, geometry, words);
    change(random, words, at);
}

/// Changes the floor of a used slot.
fn floor(random: &mut Random, geometry: Geometry, words: &mut [u32]) {
    let at = any_used_slot(random, geometry, words) + 1;
    change(random, words, at);
}

/// Changes the kind of a used slot.
fn kind(random: &mut Random, geometry: Geometry, words: &mut [u32]) {
    let at = any_used_slot(random, geometry, words) + 2;
    words[at] = words[at] / 4 * 4 + random.below(4) as u32;
}

/// Changes the page number in the tag of a used slot.
fn page_number(random: &mut Random, geometry: Geometry, words: &mut [u32]) {
    let at = any_used_slot(random, geometry, words) + 2;
    words[at] = words[at] % 4 + 4 * *random.pick(&[0, 1, 2, 3, 256, (1 << 30) - 1]);
}

/// Changes the pair of the first slot in the head or in a page.
fn first_fence(random: &mut Random, geometry: Geometry, words: &mut [u32]) {
    let start = any_run(random, geometry, words);
    words[start + 1 + random.below(2)] = *random.pick(&[0, 1, 2, 5, ONES]);
}

/// Changes an unused slot of the head, where it has one.
fn unused_head_slot(random: &mut Random, geometry: Geometry, words: &mut [u32]) {
    let used = HEAD_SLOTS + SLOT_WORDS * words[HEAD_COUNT] as usize;
    let end = geometry.page_start(1, 0);
    if used < end {
        words[used + random.below(end - used)] = *random.pick(&[0, 1, ONES - 1]);
    }
}

/// Changes an unused slot of a page, where it has one.
fn unused_slot(random: &mut Random, geometry: Geometry, words: &mut [u32]) {
    let at = any_page(random, geometry, words);
    let used = at + 1 + SLOT_WORDS * (words[at] as usize).min(PAGE_SLOTS);
    let end = at + PAGE_WORDS;
    if used < end {
        words[used + random.below(end - used)] = *random.pick(&[0, 1, ONES - 1]);
    }
}

/// Changes a word of an unused page, often its slot count, where a level has one.
fn unused_page(random: &mut Random, geometry: Geometry, words: &mut [u32]) {
    let level = 1 + random.below(geometry.bottom());
    let used = reading::page_count(words, level) as usize;
    let room = geometry.page_room(level);
    if used < room {
        let page = used + random.below(room - used);
        let word = if random.one_in(4) {
            0
        } else {
            random.below(PAGE_WORDS)
        };
        let at = geometry.page_start(level, page) + word;
        words[at] = *random.pick(&[0, 1, 21, ONES - 1]);
    }
}

/// Counts a level's last page no more, and writes the levels above for that.
///
/// Above the bottom the level is first given entries that leave one fence in the last page.
fn uncount_last_page(random: &mut Random, geometry: Geometry, words: &mut [u32]) {
    let level = 1 + random.below(geometry.bottom());
    let tree = reading::tree(geometry, words);
    if level < geometry.bottom() {
        let fences = reading::page_count(words, level + 1);
        let low = |floor: u32| Entry {
            pair: Pair { badge: 0, floor },
            filter: false,
        };
        let entries: Vec<Entry> = (fences..22).map(low).collect();
        write_level(geometry, words, level, &entries);
    }
    let count = PAGE_COUNTS + level - 1;
    words[count] = (words[count] - 1).max(1);
    for above in (0..level).rev() {
        write_level(geometry, words, above, &tree.levels[above]);
    }
}

/// Writes the head or a level above the bottom anew, over the first slots below.
fn write_level(geometry: Geometry, words: &mut [u32], level: usize, entries: &[Entry]) {
    let first_pairs = reading::first_pairs(geometry, words, level + 1);
    let fences = fences_to(&first_pairs, Variant::Right);
    let (start, run) = if level == 0 {
        let slots = lay_head(entries, &fences);
        (HEAD_COUNT, head_words(geometry, &slots))
    } else {
        let pages = lay_level(entries, &fences, Variant::Right);
        words[PAGE_COUNTS + level - 1] = pages.len() as u32;
        let run = level_words(geometry, level, &pages);
        (geometry.page_start(level, 0), run)
    };
    words[start..start + run.len()].copy_from_slice(&run);
}

/// Makes all words but the geometry random.
fn all_random(random: &mut Random, _: Geometry, words: &mut [u32]) {
    for word in &mut words[LIVE..] {
        *word = random.word();
    }
}

/// Makes all words after the directory small random numbers.
fn all_small(random: &mut Random, _: Geometry, words: &mut [u32]) {
    for word in &mut words[HEAD_COUNT..] {
        *word = random.below(4) as u32;
    }
}

/// Changes a word by little or much.
fn change(random: &mut Random, words: &mut [u32], at: usize) {
    let word = words[at];
    let other = random.below(words.len());
    words[at] = match random.below(6) {
        0 => word.wrapping_add(1),
        1 => word.wrapping_sub(1),
        2 => word ^ (1 << random.below(32)),
        3 => random.word(),
        4 => *random.pick(&[0, 1, 2, 21, 22, ONES]),
        _ => words[other],
    };
}

/// The place of the slot count of a page that its level has.
fn any_page(random: &mut Random, geometry: Geometry, words: &[u32]) -> usize {
    let level = 1 + random.below(geometry.bottom());
    let pages = reading::page_numbers(geometry, words, level).len();
    geometry.page_start(level, random.below(pages))
}

/// The place of the slot count of the head or of a page.
fn any_run(random: &mut Random, geometry: Geometry, words: &[u32]) -> usize {
    if random.one_in(3) {
        HEAD_COUNT
    } else {
        any_page(random, geometry, words)
    }
}

/// The place of the badge of a used slot, or of a first slot where none is used.
fn any_used_slot(random: &mut Random, geometry: Geometry, words: &[u32]) -> usize {
    let start = any_run(random, geometry, words);
    let room = if start == HEAD_COUNT {
        geometry.head_room()
    } else {
        PAGE_SLOTS
    };
    let used = (words[start] as usize).min(room);
    start + 1 + SLOT_WORDS * random.below(used)
}
