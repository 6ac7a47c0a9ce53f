//! Every number that follows from H, k and l, and the words of slots and pages.

use super::{key, refuse, Key, Refusal, LENGTH, RANGE};

pub const LIVE: usize = 3;
/// Level i's page count stands at `PAGE_COUNTS + i`, for i from 1 to 3.
pub const PAGE_COUNTS: usize = 3;
pub const ZERO_WORD: usize = 7;
pub const HEAD_COUNT: usize = 8;
pub const HEAD_SLOTS: usize = 9;
pub const SLOT_WORDS: usize = 3;
pub const PAGE_WORDS: usize = 64;
pub const PAGE_SLOTS: usize = 21;
pub const ONES: u32 = u32::MAX;

/// What a geometry fixes, for each level from the head down.
pub struct Plan {
    pub levels: usize,
    pub capacities: [u32; 4],
    pub rooms: [usize; 4],
    pub starts: [usize; 4],
    pub head_room: usize,
    pub store_words: usize,
    pub work_words: usize,
}

impl Plan {
    /// The plan of a geometry, or none outside the ranges.
    pub fn new(head: u32, ratio: u32, levels: u32) -> Option<Plan> {
        let inside =
            (1..=64).contains(&head) && (2..=8).contains(&ratio) && (2..=4).contains(&levels);
        if !inside {
            return None;
        }
        let levels = levels as usize;
        let (mut capacities, mut totals) = ([0; 4], [0; 4]);
        let (mut capacity, mut total) = (head, 0);
        for level in 0..levels {
            total += capacity;
            capacities[level] = capacity;
            totals[level] = total;
            capacity *= ratio;
        }
        let mut rooms = [0; 4];
        rooms[levels - 1] = (capacities[levels - 1] as usize).div_ceil(PAGE_SLOTS);
        for level in (1..levels - 1).rev() {
            rooms[level] = (totals[level] as usize + rooms[level + 1]).div_ceil(PAGE_SLOTS - 1);
        }
        let head_room = head as usize + rooms[1];
        let mut starts = [HEAD_SLOTS; 4];
        let mut end = HEAD_SLOTS + SLOT_WORDS * head_room;
        for level in 1..4 {
            starts[level] = end;
            end += PAGE_WORDS * rooms[level];
        }
        Some(Plan {
            levels,
            capacities,
            rooms,
            starts,
            head_room,
            store_words: end,
            work_words: PAGE_WORDS * rooms[1].max(rooms[2]).max(rooms[3]),
        })
    }

    /// The plan of a store that passes the tests of replies 5 and 1.
    pub fn open(store: &[u32]) -> Result<Plan, Refusal> {
        if store.len() < HEAD_SLOTS {
            return Err(refuse(LENGTH));
        }
        let plan = Plan::new(store[0], store[1], store[2]).ok_or(refuse(RANGE))?;
        if store.len() != plan.store_words {
            return Err(refuse(LENGTH));
        }
        Ok(plan)
    }

    /// M, the most live pairs.
    pub fn most(&self) -> u32 {
        self.capacities[self.levels - 1]
    }

    /// The number of the bottom level.
    pub fn bottom(&self) -> usize {
        self.levels - 1
    }

    /// The words of a level's first pages, so many.
    pub fn pages<'a>(&self, store: &'a [u32], level: usize, pages: usize) -> &'a [u32] {
        &store[self.starts[level]..][..PAGE_WORDS * pages]
    }

    /// The words of a page.
    pub fn page<'a>(&self, store: &'a [u32], level: usize, page: usize) -> &'a [u32] {
        &store[self.starts[level] + PAGE_WORDS * page..][..PAGE_WORDS]
    }

    /// The words of all pages that the directory gives a level, of which there are none below the
    /// bottom; page counts have been tested.
    pub fn level<'a>(&self, store: &'a [u32], level: usize) -> &'a [u32] {
        if level < self.levels {
            self.pages(store, level, store[PAGE_COUNTS + level] as usize)
        } else {
            &[]
        }
    }

    /// The words of the head's slots, at most as many as it has room for.
    pub fn head<'a>(&self, store: &'a [u32]) -> &'a [u32] {
        let slots = (store[HEAD_COUNT] as usize).min(self.head_room);
        &store[HEAD_SLOTS..][..SLOT_WORDS * slots]
    }
}

/// The words of a page's slots, whose count is read as at most 21.
pub fn slots(page: &[u32]) -> &[u32] {
    let count = (page[0] as usize).min(PAGE_SLOTS);
    &page[1..1 + SLOT_WORDS * count]
}

/// The key of a slot's pair.
pub fn slot_key(slot: &[u32]) -> Key {
    key(slot[0], slot[1])
}

/// Whether a tag is a fence's.
pub fn is_fence(tag: u32) -> bool {
    tag & 2 != 0
}

/// The key of the fence of a page of these pages: of page 0 the least pair.
pub fn fence_key(pages: &[u32], page: usize) -> Key {
    if page == 0 {
        0
    } else {
        slot_key(&pages[PAGE_WORDS * page + 1..])
    }
}
