//! The right build and the false builds, each of which a check must find.

/// Which build of the program answers.
#[derive(Clone, Copy, Debug, PartialEq, Eq)]
pub enum Variant {
    /// The paper's rules.
    Right,
    /// A fence's page number is cut to a byte.
    PageByte,
    /// A merge cancels only where the filter is above.
    CancelOnlyFilterAbove,
    /// A merge throws an unmatched filter away before the bottom.
    DropUnmatchedFilter,
    /// The fence of page 0 carries that page's own first pair.
    FirstFenceOwnPair,
    /// An internal fence names its own page.
    InternalFenceOwnPage,
    /// Put tests full before held.
    FullBeforeHeld,
    /// Every call is refused.
    RefusesAll,
    /// Ask says held to everything.
    SaysHeld,
    /// Calls answer, but no lent word changes.
    WritesNothing,
    /// List is right for its first pair only.
    ListFirstOnly,
    /// Put and drop report no pages written.
    PagesZero,
    /// Put and drop report one page too many for a merge.
    PagesOneMore,
    /// Why tells the slot of the fence followed, not the last slot at most the pair.
    WhySlotOfFence,
    /// Why tells slot 0 of a bottom page that has no slot at most the pair.
    WhyFirstSlot,
    /// Why tells a filter as a normal entry.
    WhyFilterNormal,
    /// Why leaves out the last level read.
    WhyLastLevelOut,
    /// A head that is not its writing is told before a page below without page form.
    HeadWritingBeforePages,
    /// Of two slots out of order the left one is told.
    LeftOfTwo,
    /// The slot of a fault is counted from 1.
    SlotFromOne,
    /// An entry not above the last one is told by the internal fence before it.
    InternalFenceForEntry,
    /// A wrong live is told with the place of the first entry.
    LiveAtEntry,
    /// A fault of the head is told as one of the directory.
    HeadToldAsDirectory,
}

/// Every false build.
pub const FALSE_BUILDS: [Variant; 22] = [
    Variant::PageByte,
    Variant::CancelOnlyFilterAbove,
    Variant::DropUnmatchedFilter,
    Variant::FirstFenceOwnPair,
    Variant::InternalFenceOwnPage,
    Variant::FullBeforeHeld,
    Variant::RefusesAll,
    Variant::SaysHeld,
    Variant::WritesNothing,
    Variant::ListFirstOnly,
    Variant::PagesZero,
    Variant::PagesOneMore,
    Variant::WhySlotOfFence,
    Variant::WhyFirstSlot,
    Variant::WhyFilterNormal,
    Variant::WhyLastLevelOut,
    Variant::HeadWritingBeforePages,
    Variant::LeftOfTwo,
    Variant::SlotFromOne,
    Variant::InternalFenceForEntry,
    Variant::LiveAtEntry,
    Variant::HeadToldAsDirectory,
];

impl std::str::FromStr for Variant {
    type Err = String;

    /// The build of this name.
    fn from_str(name: &str) -> Result<Variant, String> {
        [Variant::Right]
            .into_iter()
            .chain(FALSE_BUILDS)
            .find(|build| format!("{build:?}") == name)
            .ok_or(format!("{name}: no build of that name"))
    }
}
