//! Finding: the head, then one page of each lower level, each tested as it is met.

use crate::fault::{Fault, Place, Rule, WRITING};
use crate::form::{directory_fault, head_fault, page_fault};
use crate::geometry::Geometry;
use crate::reading;
use crate::slot::{Entry, Pair, Slot};

/// What a walk finds: whether the pair is held, and the deciding level, or l.
#[derive(Clone, Copy, Debug, PartialEq, Eq)]
pub struct Answer {
    pub held: bool,
    pub level: usize,
}

/// What a walk meets in one level.
#[derive(Clone, Copy, Debug, PartialEq, Eq)]
pub struct Step {
    /// The page read; the head's is 0.
    pub page: usize,
    /// The last slot at most the pair, counted from 0. Only a bottom page may have none.
    pub slot: Option<usize>,
    /// The index entry in that slot, if it is one of just that pair. It decides.
    pub entry: Option<Entry>,
    /// The fence followed to the next level, where the walk goes on.
    pub fence: Option<Fence>,
}

/// A fence on a walk: its slot, and the page that it names.
#[derive(Clone, Copy, Debug, PartialEq, Eq)]
pub struct Fence {
    pub slot: usize,
    pub page: usize,
}

/// Walks to a pair; the error is the first fault met.
pub fn walk(geometry: Geometry, store: &[u32], asked: Pair) -> Result<Answer, Fault> {
    let trail = trail(geometry, store, asked)?;
    Ok(Answer::of(geometry, &trail))
}

/// The steps of the walk to a pair, one for each level read, from the head down; the error is the
/// first fault met. Each page is tested before the next one is read.
pub fn trail(geometry: Geometry, store: &[u32], asked: Pair) -> Result<Vec<Step>, Fault> {
    let above = directory_fault(geometry, store).or_else(|| head_fault(geometry, store));
    above.map_or(Ok(()), Err)?;
    let mut trail = vec![Step::on(0, &reading::head(geometry, store), asked)];
    for level in 1..geometry.levels() {
        let Some(fence) = trail[level - 1].fence else {
            break;
        };
        let slots = walked_page(geometry, store, level, fence.page, asked)?;
        trail.push(Step::on(fence.page, &slots, asked));
    }
    Ok(trail)
}

impl Answer {
    /// What a trail comes to: its last step decides, or none does.
    pub fn of(geometry: Geometry, trail: &[Step]) -> Answer {
        match trail.last().and_then(|step| step.entry) {
            Some(entry) => Answer {
                held: !entry.filter,
                level: trail.len() - 1,
            },
            None => Answer {
                held: false,
                level: geometry.levels(),
            },
        }
    }
}

impl Step {
    /// The step on the used slots of the head or of a page.
    fn on(page: usize, slots: &[Slot], asked: Pair) -> Step {
        let slot = slots.iter().rposition(|slot| slot.pair <= asked);
        let entry = slot
            .and_then(|at| Entry::of_slot(&slots[at]))
            .filter(|entry| entry.pair == asked);
        let fence = slot
            .filter(|_| entry.is_none())
            .and_then(|last| Fence::back_from(last, slots));
        Step {
            page,
            slot,
            entry,
            fence,
        }
    }
}

impl Fence {
    /// The first fence met stepping back from a slot.
    fn back_from(last: usize, slots: &[Slot]) -> Option<Fence> {
        let slot = slots[..=last].iter().rposition(Slot::is_fence)?;
        Some(Fence {
            slot,
            page: slots[slot].page as usize,
        })
    }
}

/// The slots of a page on the walk, once it has passed the tests of a walked page: its form, and above
/// the bottom its first slot.
fn walked_page(
    geometry: Geometry,
    store: &[u32],
    level: usize,
    page: usize,
    asked: Pair,
) -> Result<Vec<Slot>, Fault> {
    page_fault(geometry, store, level, page).map_or(Ok(()), Err)?;
    let slots = reading::page(geometry, store, level, page);
    let opens_well = slots
        .first()
        .is_some_and(|first| first.is_fence() && first.pair <= asked);
    if level < geometry.bottom() && !opens_well {
        let slot = 0;
        let place = Place { level, page, slot };
        return Err(Fault::new(WRITING, Rule::FirstSlot, place));
    }
    Ok(slots)
}
