//! Merging: a level joined with the next through the work area, the levels above rebuilt with
//! fences alone, and so on as long as a level holds its capacity.

use std::cmp::Ordering;

use super::entries::{Entries, Entry};
use super::plan::{
    fence_key, Plan, HEAD_COUNT, HEAD_SLOTS, LIVE, ONES, PAGE_COUNTS, PAGE_SLOTS, PAGE_WORDS,
    SLOT_WORDS, ZERO_WORD,
};
use super::Key;

/// Settles the head, which holds its capacity, and every level down to the first that does not;
/// gives the deepest level merged into and the pages written. The counts are kept true.
pub fn settle(store: &mut [u32], work: &mut [u32], plan: &Plan, counts: &mut [u32; 4]) -> [u32; 2] {
    let (mut level, mut pages) = (0, 0);
    counts[0] = plan.capacities[0];
    while level < plan.bottom() && counts[level] >= plan.capacities[level] {
        counts[level + 1] = join(store, work, plan, level);
        counts[level] = 0;
        rebuild_above(store, plan, level);
        let written = &store[PAGE_COUNTS + 1..=PAGE_COUNTS + level + 1];
        pages += written.iter().sum::<u32>();
        level += 1;
    }
    work.fill(ONES);
    [level as u32, pages]
}

/// Makes the store of the empty set.
pub fn write_empty(store: &mut [u32], plan: &Plan, geometry: [u32; 3]) {
    store.fill(ONES);
    store[..3].copy_from_slice(&geometry);
    store[LIVE] = 0;
    for level in 1..4 {
        store[PAGE_COUNTS + level] = u32::from(level < plan.levels);
    }
    store[ZERO_WORD] = 0;
    store[plan.starts[plan.bottom()]] = 0;
    rebuild_above(store, plan, plan.bottom() - 1);
}

/// Writes the next level anew from a level's entries and its own; gives their number.
fn join(store: &mut [u32], work: &mut [u32], plan: &Plan, level: usize) -> u32 {
    let target = level + 1;
    let mut pen = Pen::new(work, plan.level(store, target + 1));
    let mut upper = Entries::of_level(store, plan, level);
    let mut lower = Entries::of_level(store, plan, target);
    let (mut above, mut below) = (upper.next(), lower.next());
    loop {
        let order = match (above, below) {
            (Some(above), Some(below)) => above.pair.cmp(&below.pair),
            (Some(_), None) => Ordering::Less,
            (None, Some(_)) => Ordering::Greater,
            (None, None) => break,
        };
        match order {
            Ordering::Less => pen.add(above.take()),
            Ordering::Greater => pen.add(below.take()),
            Ordering::Equal => {}
        }
        if order.is_le() {
            above = upper.next();
        }
        if order.is_ge() {
            below = lower.next();
        }
    }
    let (pages, entries) = pen.finish();
    put_level(store, plan, target, pages, &work[..PAGE_WORDS * pages]);
    entries
}

/// Copies a level's new pages to their place, and erases what it had beyond them.
fn put_level(store: &mut [u32], plan: &Plan, level: usize, pages: usize, words: &[u32]) {
    let before = store[PAGE_COUNTS + level] as usize;
    let room = &mut store[plan.starts[level]..][..PAGE_WORDS * pages.max(before)];
    room[..words.len()].copy_from_slice(words);
    room[words.len()..].fill(ONES);
    store[PAGE_COUNTS + level] = pages as u32;
}

/// Rebuilds a level and those above it, the head last, with fences alone.
fn rebuild_above(store: &mut [u32], plan: &Plan, level: usize) {
    for level in (1..=level).rev() {
        rebuild_level(store, plan, level);
    }
    let pages = store[PAGE_COUNTS + 1] as usize;
    let (upper, level_1) = store.split_at_mut(plan.starts[1]);
    let (fences, rest) = upper[HEAD_SLOTS..].split_at_mut(SLOT_WORDS * pages);
    write_fences(fences, level_1, 0);
    rest.fill(ONES);
    store[HEAD_COUNT] = pages as u32;
}

/// Rebuilds a level between head and bottom with fences alone.
fn rebuild_level(store: &mut [u32], plan: &Plan, level: usize) {
    let before = store[PAGE_COUNTS + level] as usize;
    let fences = store[PAGE_COUNTS + level + 1] as usize;
    let pages = fences.div_ceil(PAGE_SLOTS);
    let (upper, below) = store.split_at_mut(plan.starts[level + 1]);
    let room = &mut upper[plan.starts[level]..][..PAGE_WORDS * pages.max(before)];
    for (number, page) in room.chunks_exact_mut(PAGE_WORDS).enumerate() {
        let first = PAGE_SLOTS * number;
        let count = fences.saturating_sub(first).min(PAGE_SLOTS);
        page[0] = if count == 0 { ONES } else { count as u32 };
        let (slots, rest) = page[1..].split_at_mut(SLOT_WORDS * count);
        write_fences(slots, below, first);
        rest.fill(ONES);
    }
    store[PAGE_COUNTS + level] = pages as u32;
}

/// Fills slots with the fences of these pages, from a page on.
fn write_fences(slots: &mut [u32], pages: &[u32], first: usize) {
    for (at, slot) in slots.chunks_exact_mut(SLOT_WORDS).enumerate() {
        let page = first + at;
        write_slot(slot, fence_key(pages, page), 4 * page as u32 + 2);
    }
}

/// Writes a slot's three words.
fn write_slot(slot: &mut [u32], pair: Key, tag: u32) {
    slot[0] = (pair >> 32) as u32;
    slot[1] = pair as u32;
    slot[2] = tag;
}

/// The writing of a level, slot by slot into the work area.
struct Pen<'a> {
    work: &'a mut [u32],
    below: &'a [u32],
    /// The pages below, the next fence's page and its pair.
    pages: usize,
    fence: usize,
    fence_pair: Key,
    /// The place of the page being written, and its slots so far.
    page: usize,
    slots: usize,
    entries: u32,
}

impl<'a> Pen<'a> {
    /// The beginning of a level over these pages.
    fn new(work: &'a mut [u32], below: &'a [u32]) -> Pen<'a> {
        Pen {
            work,
            below,
            pages: below.len() / PAGE_WORDS,
            fence: 0,
            fence_pair: 0,
            page: 0,
            slots: 0,
            entries: 0,
        }
    }

    /// Adds an entry, with the fences that come before it.
    fn add(&mut self, entry: Option<Entry>) {
        let Some(Entry { pair, normal }) = entry else {
            return;
        };
        while self.fence < self.pages && self.fence_pair <= pair {
            self.add_fence();
        }
        if self.slots == PAGE_SLOTS {
            self.turn_page();
        }
        if self.slots == 0 && self.pages > 0 {
            self.write(pair, 4 * (self.fence as u32 - 1) + 3);
        }
        self.write(pair, u32::from(!normal));
        self.entries += 1;
    }

    /// Adds the next fence.
    fn add_fence(&mut self) {
        if self.slots == PAGE_SLOTS {
            self.turn_page();
        }
        self.write(self.fence_pair, 4 * self.fence as u32 + 2);
        self.fence += 1;
        if self.fence < self.pages {
            self.fence_pair = fence_key(self.below, self.fence);
        }
    }

    /// Writes a slot in the page, which has room for it.
    fn write(&mut self, pair: Key, tag: u32) {
        let at = self.page + 1 + SLOT_WORDS * self.slots;
        write_slot(&mut self.work[at..at + SLOT_WORDS], pair, tag);
        self.slots += 1;
    }

    /// Closes a full page.
    fn turn_page(&mut self) {
        self.work[self.page] = PAGE_SLOTS as u32;
        self.page += PAGE_WORDS;
        self.slots = 0;
    }

    /// Adds the fences that are left, and closes the last page; gives the pages and the entries.
    fn finish(mut self) -> (usize, u32) {
        while self.fence < self.pages {
            self.add_fence();
        }
        self.work[self.page] = self.slots as u32;
        let used = self.page + 1 + SLOT_WORDS * self.slots;
        let end = self.page + PAGE_WORDS;
        self.work[used..end].fill(ONES);
        (end / PAGE_WORDS, self.entries)
    }
}
