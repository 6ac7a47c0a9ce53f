//! What is wrong with a store: the number that tells it, the rule that is broken, and the place.

use crate::variant::Variant;

/// Reply 10: the directory is wrong.
pub const DIRECTORY: u32 = 10;
/// Reply 11: the head is wrong, in what ask tests of it.
pub const HEAD: u32 = 11;
/// Reply 12: a page has no page form.
pub const PAGE_FORM: u32 = 12;
/// Reply 13: a level is not its writing, or holds more than its capacity.
pub const WRITING: u32 = 13;
/// Reply 14: kinds, alternation or live.
pub const ACROSS: u32 = 14;

/// The five numbers, in the order of their tests.
pub const NUMBERS: [u32; 5] = [DIRECTORY, HEAD, PAGE_FORM, WRITING, ACROSS];

/// A place in a store. Pages and slots count from 0, the head is page 0 of level 0, and a number that
/// has no meaning is 0. Places are ordered from the top, left to right.
#[derive(Clone, Copy, Debug, Default, PartialEq, Eq, PartialOrd, Ord)]
pub struct Place {
    pub level: usize,
    pub page: usize,
    pub slot: usize,
}

/// A rule that a store can break.
#[derive(Clone, Copy, Debug, PartialEq, Eq, PartialOrd, Ord)]
pub enum Rule {
    /// Live is at most M.
    MostLive,
    /// Page counts are 1 to the room, or 0 without the level.
    PageCounts,
    /// Word 7 is 0.
    ZeroWord,
    /// A slot count is in its range.
    SlotCount,
    /// Slots stand in order.
    Order,
    /// Tags are legal.
    Tag,
    /// The head's fences name pages 0, 1, ... in turn.
    Turn,
    /// The head's first slot is the least fence.
    LeastFence,
    /// The head has fewer than H index entries.
    HeadRoom,
    /// The head has a fence for each page of level 1.
    Fences,
    /// A walked page above the bottom opens with a fence not above the pair asked.
    FirstSlot,
    /// A level's words are the writing of its entries.
    Words,
    /// A level's page count is that of the writing.
    Pages,
    /// A level has no more entries than its capacity allows.
    Capacity,
    /// A level's entries ascend.
    Ascent,
    /// An entry's next one below is of the other kind.
    Kinds,
    /// A filter has an entry below it.
    Filter,
    /// Live is the number of normal entries less that of filters.
    Live,
}

/// A broken rule.
#[derive(Clone, Copy, Debug, PartialEq, Eq)]
pub struct Fault {
    pub number: u32,
    pub rule: Rule,
    pub place: Place,
}

impl Place {
    /// The place of a slot in the head.
    pub fn in_head(slot: usize) -> Place {
        Place {
            level: 0,
            page: 0,
            slot,
        }
    }

    /// Its three numbers, as a reply has them.
    pub fn values(&self) -> [u32; 3] {
        [self.level, self.page, self.slot].map(|number| number as u32)
    }
}

impl Fault {
    /// The fault that this number tells.
    pub fn new(number: u32, rule: Rule, place: Place) -> Fault {
        Fault {
            number,
            rule,
            place,
        }
    }

    /// This fault as a build tells it; the right one tells it as it is.
    pub fn told_by(self, variant: Variant) -> Fault {
        let mut told = self;
        let has_place = self.place != Place::default() || [HEAD, PAGE_FORM].contains(&self.number);
        match variant {
            Variant::HeadToldAsDirectory if self.number == HEAD => {
                told = Fault::new(DIRECTORY, self.rule, Place::default());
            }
            Variant::SlotFromOne if has_place => told.place.slot += 1,
            Variant::LeftOfTwo if self.rule == Rule::Order => told.place.slot -= 1,
            Variant::InternalFenceForEntry if self.rule == Rule::Ascent => {
                told.place.slot = self.place.slot.saturating_sub(1);
            }
            _ => {}
        }
        told
    }
}
