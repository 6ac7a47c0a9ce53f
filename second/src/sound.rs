//! Sound stores: the whole-store test, by writing every level again and comparing words.
//!
//! The number decides first: a fault of a lower number anywhere is told before one of a higher number.

use crate::fault::{Fault, Place, Rule, ACROSS, WRITING};
use crate::form::{directory_fault, head_fault, page_fault};
use crate::geometry::{Geometry, HEAD_COUNT, PAGE_WORDS, SLOT_WORDS};
use crate::layout::{fences_to, lay_bottom, lay_head, lay_level};
use crate::reading;
use crate::slot::{Entry, Slot};
use crate::variant::Variant;
use crate::writing::{head_words, level_words};

/// The first fault of a store of the right length, or none if it is sound.
pub fn fault(geometry: Geometry, store: &[u32], variant: Variant) -> Option<Fault> {
    let written = |level| writing_fault(geometry, store, level, variant);
    let head_early = || match variant {
        Variant::HeadWritingBeforePages => written(0),
        _ => None,
    };
    directory_fault(geometry, store)
        .or_else(|| head_fault(geometry, store))
        .or_else(head_early)
        .or_else(|| any_page_fault(geometry, store))
        .or_else(|| (0..geometry.levels()).find_map(written))
        .or_else(|| kinds_fault(geometry, store))
        .or_else(|| live_fault(geometry, store, variant))
}

/// The first page without page form, of all that the directory gives, from the top, left to right.
fn any_page_fault(geometry: Geometry, store: &[u32]) -> Option<Fault> {
    (1..geometry.levels()).find_map(|level| {
        reading::page_numbers(geometry, store, level)
            .find_map(|page| page_fault(geometry, store, level, page))
    })
}

/// The leftmost place where a level is not the writing of ascending entries that it has room for. Its
/// pages have page form.
fn writing_fault(
    geometry: Geometry,
    store: &[u32],
    level: usize,
    variant: Variant,
) -> Option<Fault> {
    let placed = reading::placed_entries(geometry, store, level);
    let entries: Vec<Entry> = placed.iter().map(|(_, entry)| *entry).collect();
    let faults = [
        words_fault(geometry, store, level, &entries, variant),
        too_many(geometry, level, &placed),
        not_above(&placed),
    ];
    faults.into_iter().flatten().min_by_key(|fault| fault.place)
}

/// Where the words of a level first leave the writing of its entries, in the order in which they stand;
/// where they never do, but the directory's page count is another, the first page past that.
fn words_fault(
    geometry: Geometry,
    store: &[u32],
    level: usize,
    entries: &[Entry],
    variant: Variant,
) -> Option<Fault> {
    if level == 0 {
        let slots = lay_head(entries, &fences_below(geometry, store, 0, variant));
        let words = head_words(geometry, &slots);
        return leaves(0, &words, &store[HEAD_COUNT..], words.len());
    }
    let pages = if level == geometry.bottom() {
        lay_bottom(entries)
    } else {
        let fences = fences_below(geometry, store, level, variant);
        lay_level(entries, &fences, variant)
    };
    let words = level_words(geometry, level, &pages);
    let start = geometry.page_start(level, 0);
    let page = reading::page_count(store, level) as usize;
    let slot = 0;
    let past = Fault::new(WRITING, Rule::Pages, Place { level, page, slot });
    leaves(level, &words, &store[start..], PAGE_WORDS)
        .or_else(|| (pages.len() != page).then_some(past))
}

/// The first place where words are other than the writing, in pages of so many words. A slot count is
/// told as slot 0.
fn leaves(level: usize, writing: &[u32], words: &[u32], page_words: usize) -> Option<Fault> {
    let at = writing
        .iter()
        .zip(words)
        .position(|(one, two)| one != two)?;
    let place = Place {
        level,
        page: at / page_words,
        slot: (at % page_words).saturating_sub(1) / SLOT_WORDS,
    };
    Some(Fault::new(WRITING, Rule::Words, place))
}

/// The entry that is one too many: the cap(i)th above the bottom, the (M + 1)th in it.
fn too_many(geometry: Geometry, level: usize, placed: &[(Place, Entry)]) -> Option<Fault> {
    let allowed = if level == geometry.bottom() {
        geometry.most()
    } else {
        geometry.capacity(level) - 1
    };
    let (place, _) = placed.get(allowed)?;
    Some(Fault::new(WRITING, Rule::Capacity, *place))
}

/// The first entry that is not above the last one.
fn not_above(placed: &[(Place, Entry)]) -> Option<Fault> {
    let falls = |two: &&[(Place, Entry)]| two[0].1.pair >= two[1].1.pair;
    let two = placed.windows(2).find(falls)?;
    Some(Fault::new(WRITING, Rule::Ascent, two[1].0))
}

/// The fences to the pages below a level, over their first slots as they stand.
fn fences_below(geometry: Geometry, store: &[u32], level: usize, variant: Variant) -> Vec<Slot> {
    fences_to(&reading::first_pairs(geometry, store, level + 1), variant)
}

/// The first entry, level by level from the top, whose next entry below is of its own kind, or which is
/// a filter with none below. Each level's entries ascend.
fn kinds_fault(geometry: Geometry, store: &[u32]) -> Option<Fault> {
    let tree = reading::tree(geometry, store);
    let next_below = |level: usize, entry: &Entry| {
        let own = |lower: &Vec<Entry>| {
            let found = lower.binary_search_by_key(&entry.pair, |other| other.pair);
            found.ok().map(|at| lower[at])
        };
        tree.levels[level + 1..].iter().find_map(own)
    };
    (0..geometry.levels()).find_map(|level| {
        let mut placed = reading::placed_entries(geometry, store, level).into_iter();
        placed.find_map(|(place, entry)| {
            let rule = match next_below(level, &entry) {
                Some(next) if next.filter == entry.filter => Rule::Kinds,
                None if entry.filter => Rule::Filter,
                _ => return None,
            };
            Some(Fault::new(ACROSS, rule, place))
        })
    })
}

/// Live that is not the number of normal entries less that of filters; it has no place.
fn live_fault(geometry: Geometry, store: &[u32], variant: Variant) -> Option<Fault> {
    let placed: Vec<(Place, Entry)> = (0..geometry.levels())
        .flat_map(|level| reading::placed_entries(geometry, store, level))
        .collect();
    let filters = placed.iter().filter(|(_, entry)| entry.filter).count();
    let normals = placed.len() - filters;
    let place = match (variant, placed.first()) {
        (Variant::LiveAtEntry, Some((place, _))) => *place,
        _ => Place::default(),
    };
    let adds_up = normals == filters + reading::live(store) as usize;
    (!adds_up).then(|| Fault::new(ACROSS, Rule::Live, place))
}
