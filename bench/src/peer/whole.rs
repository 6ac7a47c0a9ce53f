//! The whole-store test: the directory, the head and each level from the top, each in one pass,
//! then kinds, alternation and live across levels. Only a store that fails it is looked at again, for
//! the first fault.

use super::entries::Merged;
use super::fault::first_fault;
use super::plan::{
    fence_key, is_fence, slot_key, slots, Plan, HEAD_COUNT, HEAD_SLOTS, LIVE, ONES, PAGE_COUNTS,
    PAGE_SLOTS, PAGE_WORDS, SLOT_WORDS,
};
use super::walk::directory_right;
use super::{refuse, Key, Refusal, DIRECTORY};

/// The index entries of each level of a sound store; the error is the first fault.
pub fn test(store: &[u32], plan: &Plan) -> Result<[u32; 4], Refusal> {
    if !directory_right(store, plan) {
        return Err(refuse(DIRECTORY));
    }
    let counts = sound_entries(store, plan).filter(|_| across_right(store, plan));
    counts.ok_or_else(|| first_fault(store, plan))
}

/// The index entries of each level of a store whose levels are sound by themselves.
fn sound_entries(store: &[u32], plan: &Plan) -> Option<[u32; 4]> {
    let mut counts = [0; 4];
    for (level, entries) in counts.iter_mut().enumerate().take(plan.levels) {
        *entries = match level {
            0 => head_entries(store, plan)?,
            _ if level < plan.bottom() => level_entries(store, plan, level)?,
            _ => bottom_entries(store, plan)?,
        };
    }
    Some(counts)
}

/// The entries of a head that is sound by itself.
fn head_entries(store: &[u32], plan: &Plan) -> Option<u32> {
    let head = plan.head(store);
    let mut writing = Writing::over(plan.level(store, 1));
    for slot in head.chunks_exact(SLOT_WORDS) {
        if !writing.goes_on(slot) {
            return None;
        }
    }
    let right = store[HEAD_COUNT] as usize <= plan.head_room
        && writing.ended()
        && writing.entries < plan.capacities[0]
        && unused(&store[HEAD_SLOTS + head.len()..plan.starts[1]]);
    right.then_some(writing.entries)
}

/// The entries of a level between head and bottom that is sound by itself.
fn level_entries(store: &[u32], plan: &Plan, level: usize) -> Option<u32> {
    if !pages_filled(store, plan, level) {
        return None;
    }
    let mut writing = Writing::over(plan.level(store, level + 1));
    for page in plan.level(store, level).chunks_exact(PAGE_WORDS) {
        let run = slots(page);
        if !writing.opens_page(run) {
            return None;
        }
        for slot in run.chunks_exact(SLOT_WORDS).skip(1) {
            if !writing.goes_on(slot) {
                return None;
            }
        }
    }
    let right = writing.ended() && writing.entries < plan.capacities[level];
    right.then_some(writing.entries)
}

/// The entries of a bottom that is sound by itself: ascending index entries and nothing else.
fn bottom_entries(store: &[u32], plan: &Plan) -> Option<u32> {
    let bottom = plan.bottom();
    if !pages_filled(store, plan, bottom) {
        return None;
    }
    let (mut entries, mut next) = (0, Some(0));
    for page in plan.level(store, bottom).chunks_exact(PAGE_WORDS) {
        for slot in slots(page).chunks_exact(SLOT_WORDS) {
            let pair = slot_key(slot);
            if slot[2] > 1 || next.is_none_or(|next| pair < next) {
                return None;
            }
            next = pair.checked_add(1);
            entries += 1;
        }
    }
    (entries <= plan.most()).then_some(entries)
}

/// Whether a level's pages are filled left to right, and all words behind them are unused. A last
/// page without slots is left to the level's own test, but for the bottom's only one.
fn pages_filled(store: &[u32], plan: &Plan, level: usize) -> bool {
    let pages = store[PAGE_COUNTS + level] as usize;
    let words = plan.pages(store, level, plan.rooms[level]);
    let (full, rest) = words.split_at(PAGE_WORDS * (pages - 1));
    let last = rest[0] as usize;
    full.chunks_exact(PAGE_WORDS)
        .all(|page| page[0] as usize == PAGE_SLOTS)
        && last <= PAGE_SLOTS
        && (last >= 1 || pages == 1 && level == plan.bottom())
        && unused(&rest[1 + SLOT_WORDS * last..])
}

/// Whether all words are unused.
fn unused(words: &[u32]) -> bool {
    words
        .chunks(PAGE_WORDS)
        .all(|some| some.iter().fold(ONES, |all, word| all & word) == ONES)
}

/// Whether kinds alternate for each pair, and live is the number of held pairs, which is then that
/// of normal entries less that of filters.
fn across_right(store: &[u32], plan: &Plan) -> bool {
    let mut live = 0;
    for seen in Merged::of_store(store, plan) {
        if !seen.alternate {
            return false;
        }
        live += u32::from(seen.held);
    }
    live == store[LIVE]
}

/// How far a run of slots has been followed as the writing of its own entries over the pages below.
struct Writing<'a> {
    below: &'a [u32],
    pages: usize,
    /// The page of the next fence and its pair.
    page: usize,
    fence: Key,
    /// The least pair that a fence here may have, and the next entry; none is left after the
    /// greatest entry.
    fence_from: Key,
    entry_from: Option<Key>,
    entries: u32,
}

impl Writing<'_> {
    /// The beginning of a run over these pages.
    fn over(below: &[u32]) -> Writing<'_> {
        Writing {
            below,
            pages: below.len() / PAGE_WORDS,
            page: 0,
            fence: 0,
            fence_from: 0,
            entry_from: Some(0),
            entries: 0,
        }
    }

    /// Whether the slot that opens a page is right: a fence, an internal one before an entry.
    fn opens_page(&mut self, run: &[u32]) -> bool {
        let Some(slot) = run.chunks_exact(SLOT_WORDS).next() else {
            return false;
        };
        self.fence_from = 0;
        if slot[2] & 1 == 0 {
            return is_fence(slot[2]) && self.goes_on(slot);
        }
        let Some(entry) = run.chunks_exact(SLOT_WORDS).nth(1) else {
            return false;
        };
        self.page > 0
            && slot[2] as usize == 4 * (self.page - 1) + 3
            && !is_fence(entry[2])
            && slot_key(slot) == slot_key(entry)
    }

    /// Whether an external fence or an index entry is the slot that comes next.
    fn goes_on(&mut self, slot: &[u32]) -> bool {
        let (pair, tag) = (slot_key(slot), slot[2]);
        let fence_left = self.page < self.pages;
        if is_fence(tag) {
            let right = fence_left
                && tag as usize == 4 * self.page + 2
                && pair == self.fence
                && pair >= self.fence_from;
            self.fence_from = pair;
            self.entry_from = self.entry_from.map(|from| from.max(pair));
            self.page += 1;
            if self.page < self.pages {
                self.fence = fence_key(self.below, self.page);
            }
            return right;
        }
        let right = tag < 2
            && self.entry_from.is_some_and(|from| pair >= from)
            && !(fence_left && pair >= self.fence);
        self.entry_from = pair.checked_add(1);
        self.entries += 1;
        right
    }

    /// Whether every fence has been met.
    fn ended(&self) -> bool {
        self.page == self.pages
    }
}
