//! One slot: a pair and a tag, and the order of pairs.

/// A pair, ordered by badge, then floor.
#[derive(Clone, Copy, Debug, PartialEq, Eq, PartialOrd, Ord)]
pub struct Pair {
    pub badge: u32,
    pub floor: u32,
}

/// The least pair, which the fence of page 0 carries.
pub const LEAST: Pair = Pair { badge: 0, floor: 0 };
/// The greatest pair.
pub const GREATEST: Pair = Pair {
    badge: u32::MAX,
    floor: u32::MAX,
};

/// The kind of a slot, which is its tag's remainder by 4.
#[derive(Clone, Copy, Debug, PartialEq, Eq)]
pub enum Kind {
    Normal,
    Filter,
    External,
    Internal,
}

/// A slot taken apart; every three words are a slot.
#[derive(Clone, Copy, Debug, PartialEq, Eq)]
pub struct Slot {
    pub pair: Pair,
    pub kind: Kind,
    pub page: u32,
}

impl Slot {
    /// The slot of these three words.
    pub fn of_words(badge: u32, floor: u32, tag: u32) -> Slot {
        let kind = match tag % 4 {
            0 => Kind::Normal,
            1 => Kind::Filter,
            2 => Kind::External,
            _ => Kind::Internal,
        };
        Slot {
            pair: Pair { badge, floor },
            kind,
            page: tag / 4,
        }
    }

    /// The three words of this slot; a page number keeps the 30 bits that a tag has for it.
    pub fn words(&self) -> [u32; 3] {
        let kind = match self.kind {
            Kind::Normal => 0,
            Kind::Filter => 1,
            Kind::External => 2,
            Kind::Internal => 3,
        };
        let tag = 4 * (self.page % (1 << 30)) + kind;
        [self.pair.badge, self.pair.floor, tag]
    }

    /// Whether this is a fence, external or internal.
    pub fn is_fence(&self) -> bool {
        matches!(self.kind, Kind::External | Kind::Internal)
    }

    /// Whether this is an index entry, normal or filter.
    pub fn is_entry(&self) -> bool {
        !self.is_fence()
    }
}

/// An index entry: a pair that is there (normal) or taken away (filter).
#[derive(Clone, Copy, Debug, PartialEq, Eq)]
pub struct Entry {
    pub pair: Pair,
    pub filter: bool,
}

impl Entry {
    /// The slot that holds this entry: its kind, and page number 0.
    pub fn slot(&self) -> Slot {
        Slot {
            pair: self.pair,
            kind: if self.filter {
                Kind::Filter
            } else {
                Kind::Normal
            },
            page: 0,
        }
    }

    /// The entry in a slot, or none if it holds a fence.
    pub fn of_slot(slot: &Slot) -> Option<Entry> {
        slot.is_entry().then_some(Entry {
            pair: slot.pair,
            filter: slot.kind == Kind::Filter,
        })
    }
}
