//! Finding: the head, then one page of each lower level, each tested in the pass that reads it.

use super::plan::{
    is_fence, slot_key, slots, Plan, HEAD_COUNT, LIVE, PAGE_COUNTS, PAGE_SLOTS, SLOT_WORDS,
    ZERO_WORD,
};
use super::{fault, refuse, Key, Refusal, DIRECTORY, HEAD, LEVEL, PAGE};

/// What a walk finds, and what the pass over the head told on the way.
pub struct Found {
    pub held: bool,
    pub level: u32,
    /// The head's slots whose pair is at most the pair asked, and its index entries.
    pub reach: usize,
    pub entries: u32,
}

/// What a pass over a run of slots tells.
pub struct Scan {
    /// Whether each slot is right, and how many stand before the first that is not.
    right: bool,
    before: usize,
    fences: u32,
    entries: u32,
    /// The slots whose pair is at most the pair asked.
    reach: usize,
}

/// What a run of slots says of a pair.
enum Told {
    Decided(bool),
    Follow(usize),
    Nothing,
}

/// Walks to a pair; the error is the first fault met.
pub fn find(store: &[u32], plan: &Plan, asked: Key) -> Result<Found, Refusal> {
    if !directory_right(store, plan) {
        return Err(refuse(DIRECTORY));
    }
    let head = read_head(store, plan, asked)?;
    let mut found = Found {
        held: false,
        level: plan.levels as u32,
        reach: head.reach,
        entries: head.entries,
    };
    let mut told = tell(plan.head(store), head.reach, asked);
    for level in 1..=plan.levels {
        match told {
            Told::Decided(held) => {
                found.held = held;
                found.level = level as u32 - 1;
                break;
            }
            Told::Follow(page) if level < plan.levels => {
                told = tell_page(store, plan, level, page, asked)?;
            }
            _ => break,
        }
    }
    Ok(found)
}

/// Whether live is at most M, every page count is in its range, and word 7 is 0.
pub fn directory_right(store: &[u32], plan: &Plan) -> bool {
    let pages_right = |level: usize| {
        let pages = store[PAGE_COUNTS + level] as usize;
        let least = usize::from(level < plan.levels);
        least <= pages && pages <= plan.rooms[level]
    };
    store[LIVE] <= plan.most() && (1..4).all(pages_right) && store[ZERO_WORD] == 0
}

/// A pass over the head; the error is its first fault. It is made in line with the walk, although
/// `first_fault` makes it too.
#[inline(always)]
pub fn read_head(store: &[u32], plan: &Plan, asked: Key) -> Result<Scan, Refusal> {
    let (head, below) = (plan.head(store), store[PAGE_COUNTS + 1]);
    let scan = scan(head, asked, |tag, so_far| {
        if is_fence(tag) {
            (tag == 4 * so_far.fences + 2) & (so_far.fences < below)
        } else {
            (tag < 2) & (so_far.entries + 1 < plan.capacities[0])
        }
    });
    let opens_right = !head.is_empty() && is_fence(head[2]) && slot_key(head) == 0;
    if store[HEAD_COUNT] as usize > plan.head_room || !opens_right {
        Err(fault(HEAD, 0, 0, 0))
    } else if !scan.right {
        Err(fault(HEAD, 0, 0, scan.before))
    } else if scan.fences < below {
        Err(fault(HEAD, 0, 0, 0))
    } else {
        Ok(scan)
    }
}

/// A pass over a page of a lower level: its slots at most the pair asked; the error is the first fault
/// of its form. It is made in line, as that over the head.
#[inline(always)]
pub fn read_page(
    store: &[u32],
    plan: &Plan,
    level: usize,
    page: usize,
    asked: Key,
) -> Result<usize, Refusal> {
    let words = plan.page(store, level, page);
    let bottom = level == plan.bottom();
    let below = if bottom {
        0
    } else {
        store[PAGE_COUNTS + level + 1]
    };
    let scan = scan(slots(words), asked, |tag, _| {
        tag / 4 < if is_fence(tag) { below } else { 1 }
    });
    let count = words[0] as usize;
    let may_be_empty = bottom && store[PAGE_COUNTS + level] == 1;
    if count > PAGE_SLOTS || count == 0 && !may_be_empty {
        Err(fault(PAGE, level, page, 0))
    } else if !scan.right {
        Err(fault(PAGE, level, page, scan.before))
    } else {
        Ok(scan.reach)
    }
}

/// What a page says of a pair; the error is the first fault of its form, or its first slot.
fn tell_page(
    store: &[u32],
    plan: &Plan,
    level: usize,
    page: usize,
    asked: Key,
) -> Result<Told, Refusal> {
    let reach = read_page(store, plan, level, page, asked)?;
    let run = slots(plan.page(store, level, page));
    if level < plan.bottom() && !(is_fence(run[2]) && slot_key(run) <= asked) {
        return Err(fault(LEVEL, level, page, 0));
    }
    Ok(tell(run, reach, asked))
}

/// A pass over slots, whose tags are to be allowed: slot order, the slots before the first wrong one, and
/// those at most the pair asked.
fn scan(run: &[u32], asked: Key, allowed: impl Fn(u32, &Scan) -> bool) -> Scan {
    let mut scan = Scan {
        right: true,
        before: 0,
        fences: 0,
        entries: 0,
        reach: 0,
    };
    let (mut last, mut last_fence) = (0, true);
    for slot in run.chunks_exact(SLOT_WORDS) {
        let (pair, tag) = (slot_key(slot), slot[2]);
        let fence = is_fence(tag);
        let in_order = (last < pair) | (last == pair) & last_fence;
        scan.right &= allowed(tag, &scan) & in_order;
        scan.before += usize::from(scan.right);
        scan.fences += u32::from(fence);
        scan.entries += u32::from(!fence);
        scan.reach += usize::from(pair <= asked);
        (last, last_fence) = (pair, fence);
    }
    scan
}

/// What a run of slots says of a pair, its first slots, so many, being at most the pair.
fn tell(run: &[u32], reach: usize, asked: Key) -> Told {
    let upto = &run[..SLOT_WORDS * reach];
    let Some(last) = upto.rchunks_exact(SLOT_WORDS).next() else {
        return Told::Nothing;
    };
    if !is_fence(last[2]) && slot_key(last) == asked {
        return Told::Decided(last[2] & 1 == 0);
    }
    let mut back = upto.rchunks_exact(SLOT_WORDS);
    match back.find(|slot| is_fence(slot[2])) {
        Some(fence) => Told::Follow((fence[2] / 4) as usize),
        None => Told::Nothing,
    }
}
