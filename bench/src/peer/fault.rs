//! The first fault of a store that is not sound: its number and its place.
//!
//! The number decides first: the head, the form of every page, the writing of each level, then kinds
//! and live.

use std::iter::Peekable;

use super::entries::{Entries, Entry};
use super::plan::{
    fence_key, is_fence, slots, Plan, HEAD_COUNT, ONES, PAGE_COUNTS, PAGE_SLOTS, PAGE_WORDS,
    SLOT_WORDS,
};
use super::walk::{read_head, read_page};
use super::{fault, refuse, Key, Refusal, KINDS, LEVEL};

/// A page of a level and a slot in it; the head is page 0 of its level.
type Place = (usize, usize);

/// The first fault of a store that is not sound and whose directory is right.
#[cold]
pub fn first_fault(store: &[u32], plan: &Plan) -> Refusal {
    let written = |level| {
        let (page, slot) = writing_fault(store, plan, level)?;
        Some(fault(LEVEL, level, page, slot))
    };
    read_head(store, plan, 0)
        .err()
        .or_else(|| form_fault(store, plan))
        .or_else(|| (0..plan.levels).find_map(written))
        .or_else(|| kinds_fault(store, plan))
        .unwrap_or(refuse(KINDS))
}

/// The first page without page form.
fn form_fault(store: &[u32], plan: &Plan) -> Option<Refusal> {
    (1..plan.levels).find_map(|level| {
        let pages = store[PAGE_COUNTS + level] as usize;
        (0..pages).find_map(|page| read_page(store, plan, level, page, 0).err())
    })
}

/// Where a level first leaves the writing of its own entries, or has one too many or not above the
/// last.
fn writing_fault(store: &[u32], plan: &Plan, level: usize) -> Option<Place> {
    let words = words_fault(store, plan, level);
    let entries = entries_fault(store, plan, level);
    words.into_iter().chain(entries).min()
}

/// Where the words of a level first are other than the writing of its own entries, or else the first
/// page past its count if the writing has other pages.
fn words_fault(store: &[u32], plan: &Plan, level: usize) -> Option<Place> {
    let mut row = Row::of_level(store, plan, level);
    if level == 0 {
        return row.leaves(0, &store[HEAD_COUNT..plan.starts[1]]);
    }
    let room = plan.pages(store, level, plan.rooms[level]);
    let mut pages = room.chunks_exact(PAGE_WORDS).enumerate();
    let left = pages.find_map(|(page, words)| row.leaves(page, words));
    let count = store[PAGE_COUNTS + level] as usize;
    let other = row.slots.div_ceil(PAGE_SLOTS).max(1) != count;
    left.or(other.then_some((count, 0)))
}

/// The first entry of a level that is one too many, or not above the last.
fn entries_fault(store: &[u32], plan: &Plan, level: usize) -> Option<Place> {
    let room = plan.capacities[level] as usize - usize::from(level < plan.bottom());
    let mut last = None;
    let mut placed = placed(store, plan, level).enumerate();
    let wrong = placed.find(|(number, (_, entry))| {
        let above = last.is_none_or(|last| last < entry.pair);
        last = Some(entry.pair);
        *number == room || !above
    });
    wrong.map(|(_, (place, _))| place)
}

/// The first entry, level by level, whose next entry below is of its own kind, or which is a filter with
/// none below.
fn kinds_fault(store: &[u32], plan: &Plan) -> Option<Refusal> {
    (0..plan.levels).find_map(|level| {
        let below = |down| Entries::of_level(store, plan, level + down).peekable();
        let mut lower = [1, 2, 3].map(below);
        let mut placed = placed(store, plan, level);
        let wrong = placed.find(|(_, entry)| {
            let next = lower.iter_mut().find_map(|run| entry_of(run, entry.pair));
            next.map_or(!entry.normal, |next| next.normal == entry.normal)
        });
        wrong.map(|((page, slot), _)| fault(KINDS, level, page, slot))
    })
}

/// The entry of a pair in a run of ascending entries that has not gone past it.
fn entry_of(run: &mut Peekable<Entries>, pair: Key) -> Option<Entry> {
    while run.next_if(|entry| entry.pair < pair).is_some() {}
    run.peek().copied().filter(|entry| entry.pair == pair)
}

/// The index entries of a level in order, each with its place.
fn placed<'a>(
    store: &'a [u32],
    plan: &Plan,
    level: usize,
) -> impl Iterator<Item = (Place, Entry)> + 'a {
    let head = (level == 0).then(|| plan.head(store));
    let pages = if level == 0 {
        &[]
    } else {
        plan.level(store, level)
    };
    let runs = head
        .into_iter()
        .chain(pages.chunks_exact(PAGE_WORDS).map(slots));
    runs.enumerate().flat_map(|(page, run)| {
        let entries = run.chunks_exact(SLOT_WORDS).enumerate();
        let entries = entries.filter(|(_, words)| !is_fence(words[2]));
        entries.map(move |(slot, words)| ((page, slot), Entry::of_slot(words)))
    })
}

/// The slots of the writing of a level's own entries, in the order in which they stand.
struct Row<'a> {
    entries: Peekable<Entries<'a>>,
    below: &'a [u32],
    /// Whether an entry that is first in a page has an internal fence before it.
    fenced: bool,
    /// The page of the next fence, and the slots so far.
    page: usize,
    slots: usize,
}

impl<'a> Row<'a> {
    /// The row of a level.
    fn of_level(store: &'a [u32], plan: &Plan, level: usize) -> Row<'a> {
        Row {
            entries: Entries::of_level(store, plan, level).peekable(),
            below: plan.level(store, level + 1),
            fenced: 0 < level && level < plan.bottom(),
            page: 0,
            slots: 0,
        }
    }

    /// Where the words of the next page, or of the head, first are not those of the row. The count comes
    /// before all slots.
    fn leaves(&mut self, page: usize, words: &[u32]) -> Option<Place> {
        let before = self.slots;
        let mut first = None;
        for (at, slot) in words[1..].chunks_exact(SLOT_WORDS).enumerate() {
            if slot != self.next().unwrap_or([ONES; SLOT_WORDS]) {
                first = first.or(Some(at));
            }
        }
        let count = match self.slots - before {
            0 if page > 0 => ONES,
            slots => slots as u32,
        };
        let first = if words[0] == count { first } else { Some(0) };
        first.map(|slot| (page, slot))
    }
}

impl Iterator for Row<'_> {
    type Item = [u32; SLOT_WORDS];

    /// The next slot: a fence, or an entry that the next fence is above.
    fn next(&mut self) -> Option<[u32; SLOT_WORDS]> {
        let fence_left = self.page < self.below.len() / PAGE_WORDS;
        let fence = fence_left.then(|| fence_key(self.below, self.page));
        let entry = self.entries.peek().copied();
        let entry = entry.filter(|entry| fence.is_none_or(|fence| entry.pair < fence));
        let (pair, tag) = match entry {
            Some(entry) if self.fenced && self.slots.is_multiple_of(PAGE_SLOTS) => {
                (entry.pair, 4 * (self.page as u32 - 1) + 3)
            }
            Some(entry) => {
                self.entries.next();
                (entry.pair, u32::from(!entry.normal))
            }
            None => {
                let fence = fence?;
                self.page += 1;
                (fence, 4 * (self.page as u32 - 1) + 2)
            }
        };
        self.slots += 1;
        Some([(pair >> 32) as u32, pair as u32, tag])
    }
}
