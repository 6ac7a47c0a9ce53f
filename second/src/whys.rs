//! Inputs for the program `why`, and how the program `whys` is given them.
//!
//! What `whys` reads is one input after another. An input is three lengths, each a 32-bit number with
//! the lowest byte first, and then the bytes that they count: those of the first argument, of the
//! second, and of the chip.
//!
//! What it prints is, for each input, a line `why N out` or `why N err`, where N counts the inputs
//! from 1 and the last word says which stream the text is for, and then the text.

use crate::call::Call;
use crate::chips::bytes;
use crate::damage::damaged;
use crate::generate::formatted;
use crate::geometry::{
    Geometry, HEAD_COUNT, HEAD_SLOTS, LIVE, PAGE_COUNTS, PAGE_SLOTS, SLOT_WORDS, ZERO_WORD,
};
use crate::random::Random;
use crate::slot::{Entry, Pair, GREATEST, LEAST};
use crate::tree::Tree;
use crate::variant::Variant;
use crate::why;
use crate::writing::write_tree;

/// What the program is given: its two arguments, and the chip.
#[derive(Clone, Debug)]
pub struct Input {
    pub badge: Vec<u8>,
    pub floor: Vec<u8>,
    pub chip: Vec<u8>,
}

/// The geometries of most chips. The last has several pages in level 1 and in the bottom.
const GEOMETRIES: [[u32; 3]; 5] = [[1, 2, 2], [8, 2, 2], [2, 2, 3], [2, 2, 4], [8, 3, 3]];

/// H, k and l that are no geometry: each number below and above its range.
const NO_GEOMETRIES: [[u32; 3]; 7] = [
    [0, 2, 2],
    [65, 2, 2],
    [1, 1, 2],
    [1, 9, 2],
    [1, 2, 1],
    [1, 2, 5],
    [u32::MAX; 3],
];

/// Arguments that are no numbers from 0 to 4294967295. Modulo 2^32 or 2^64 some would be 7.
const NO_NUMBERS: [&[u8]; 24] = [
    b"",
    b"a",
    b"7a",
    b"a7",
    b"0x7",
    b"00",
    b"07",
    b"-1",
    b"-",
    b"+7",
    b" ",
    b" 7",
    b"7 ",
    b"7 7",
    b"7\n",
    b"7\0",
    b"7/",
    b"7:",
    b"4294967296",
    b"4294967303",
    b"10000000000",
    b"18446744073709551623",
    b"99999999999999999999999999",
    b"\xff7",
];

/// The seed and the number of random damaged stores, and the longest of them that are taken.
const RANDOM: (u64, usize, usize) = (3, 300, 110);

/// What `whys` reads, and what it prints.
pub fn script() -> (Vec<u8>, Vec<u8>) {
    let (mut read, mut printed) = (Vec::new(), Vec::new());
    for (number, input) in inputs().iter().enumerate() {
        let fields = [&input.badge, &input.floor, &input.chip];
        read.extend(bytes(&fields.map(|field| field.len() as u32)));
        read.extend(fields.into_iter().flatten());
        let told = input.told();
        let stream = if told.wrong { "err" } else { "out" };
        printed.extend(format!("why {} {stream}\n{}", number + 1, told.text).into_bytes());
    }
    (read, printed)
}

/// Every input.
pub fn inputs() -> Vec<Input> {
    let mut inputs = Vec::new();
    for [head, ratio, levels] in GEOMETRIES {
        let geometry = Geometry::new(head, ratio, levels).expect("a geometry in its ranges");
        inputs.extend(answers(geometry));
        inputs.extend(faults(geometry));
        inputs.extend(first_slots(geometry));
    }
    inputs.extend(no_geometries());
    inputs.extend(lengths());
    inputs.extend(random());
    inputs.extend(numbers());
    inputs
}

impl Input {
    /// A pair asked for on a store.
    fn of(pair: Pair, store: &[u32]) -> Input {
        let Pair { badge, floor } = pair;
        Input {
            badge: badge.to_string().into_bytes(),
            floor: floor.to_string().into_bytes(),
            chip: bytes(store),
        }
    }

    /// What the program tells.
    pub fn told(&self) -> why::Told {
        why::run(&[&self.badge, &self.floor], &self.chip)
    }
}

/// A pair that is held, removed and not there, in each level.
fn answers(geometry: Geometry) -> Vec<Input> {
    let pair = asked(geometry);
    let entry = |filter| Entry { pair, filter };
    let mut inputs = vec![Input::of(pair, &formatted(geometry))];
    for pair in [LEAST, pair, GREATEST] {
        inputs.push(Input::of(pair, &store(geometry, &[])));
    }
    let bottom = geometry.bottom();
    for level in 0..=bottom {
        let held = store(geometry, &[(level, entry(false))]);
        let mut entries = vec![(level, entry(true))];
        if level < bottom {
            entries.push((bottom, entry(false)));
        }
        let removed = store(geometry, &entries);
        inputs.extend([held, removed].map(|store| Input::of(pair, &store)));
    }
    inputs
}

/// Stores with a fault in the directory, in the head, and in every page of a level.
fn faults(geometry: Geometry) -> Vec<Input> {
    let in_head = [LIVE, PAGE_COUNTS, ZERO_WORD, HEAD_COUNT, HEAD_SLOTS];
    let mut faults: Vec<Vec<usize>> = in_head.map(|at| vec![at]).into();
    for level in 1..=geometry.bottom() {
        let pages = 0..geometry.page_room(level);
        faults.push(pages.map(|page| geometry.page_start(level, page)).collect());
    }
    let spoilt = |places: Vec<usize>| {
        let mut store = store(geometry, &[]);
        for at in places {
            store[at] = store[at].wrapping_add(PAGE_SLOTS as u32 + 1);
        }
        Input::of(asked(geometry), &store)
    };
    faults.into_iter().map(spoilt).collect()
}

/// Stores in which every page of a level between head and bottom opens with an entry, one floor below
/// the fence that it was where that can be.
fn first_slots(geometry: Geometry) -> Vec<Input> {
    let spoilt = |level: usize| {
        let mut store = store(geometry, &[]);
        for page in 0..geometry.page_room(level) {
            let first = geometry.page_start(level, page) + 1;
            store[first + 1] = store[first + 1].saturating_sub(1);
            store[first + SLOT_WORDS - 1] = 0;
        }
        Input::of(asked(geometry), &store)
    };
    (1..geometry.bottom()).map(spoilt).collect()
}

/// Chips whose first three words are no geometry.
fn no_geometries() -> Vec<Input> {
    let chip = |words: [u32; 3]| {
        let mut store = small();
        store[..3].copy_from_slice(&words);
        Input::of(LEAST, &store)
    };
    NO_GEOMETRIES.map(chip).into()
}

/// Chips of other lengths than their geometry's, some of them no whole number of words.
fn lengths() -> Vec<Input> {
    let whole = bytes(&small());
    let right = whole.len();
    let longer = [whole, vec![0; 8]].concat();
    let lengths = [0, 1, 2, 3, 4, 5, 8, 32, 35, 36, 37, 40];
    let about_right = (right - 5)..=(right + 5);
    let cut = |length: usize| Input {
        chip: longer[..length].to_vec(),
        ..Input::of(LEAST, &[])
    };
    lengths.into_iter().chain(about_right).map(cut).collect()
}

/// Random damaged stores with the pairs that their calls are about.
fn random() -> Vec<Input> {
    let (seed, cases, longest) = RANDOM;
    let mut random = Random::new(seed);
    let mut inputs = Vec::new();
    for number in 0..cases {
        let case = damaged(&mut random, number);
        let pair = case.calls.iter().find_map(|call| match call {
            Call::Ask(pair) | Call::Why(pair) => Some(*pair),
            _ => None,
        });
        if let Some(pair) = pair.filter(|_| case.store.len() <= longest) {
            inputs.push(Input::of(pair, &case.store));
        }
    }
    inputs
}

/// Arguments that are no numbers, those at the edge of the range, and wrong arguments with a wrong
/// chip, of which the first wrong one is told.
fn numbers() -> Vec<Input> {
    let input = |badge: &[u8], floor: &[u8], chip: &[u8]| Input {
        badge: badge.to_vec(),
        floor: floor.to_vec(),
        chip: chip.to_vec(),
    };
    let short = bytes(&small()[..HEAD_SLOTS]);
    let mut inputs = Vec::new();
    for number in NO_NUMBERS {
        inputs.push(input(number, b"7", &short));
        inputs.push(input(b"7", number, &short));
    }
    let chip = bytes(&small());
    for number in [&b"0"[..], b"9", b"10", b"999999999", b"4294967295"] {
        inputs.push(input(number, b"0", &chip));
        inputs.push(input(b"4294967295", number, &chip));
    }
    inputs.push(input(b"x", b"y", &chip));
    inputs.push(input(b"x", b"7", b"chip."));
    inputs.push(input(b"7", b"y", b"chip."));
    inputs
}

/// The smallest store.
fn small() -> Vec<u32> {
    let smallest = Geometry::new(1, 2, 2).expect("a geometry in its ranges");
    formatted(smallest)
}

/// A pair that stands among the entries of a filled store, where its bottom has more pages than one
/// in the second.
fn asked(geometry: Geometry) -> Pair {
    let badge = filling(geometry, geometry.bottom()) as u32 / 2 + 4;
    Pair { badge, floor: 7 }
}

/// The store of a tree whose levels hold badges from 1 on, the level's number as their floor, and
/// these entries besides.
fn store(geometry: Geometry, besides: &[(usize, Entry)]) -> Vec<u32> {
    let mut tree = Tree::empty(geometry);
    for (level, entries) in tree.levels.iter_mut().enumerate() {
        let floor = level as u32;
        let badges = 1..=filling(geometry, level) as u32;
        entries.extend(badges.map(|badge| Entry {
            pair: Pair { badge, floor },
            filter: false,
        }));
        let own = besides.iter().filter(|(at, _)| *at == level);
        entries.extend(own.map(|(_, entry)| *entry));
        entries.sort_by_key(|entry| entry.pair);
    }
    let live = tree.held().len() as u32;
    write_tree(&tree, live, Variant::Right)
}

/// The badges that a level holds: few in the head, and two less than fill another level; the bottom
/// has so many that one pair more can be live.
fn filling(geometry: Geometry, level: usize) -> usize {
    let above = |level: usize| match level {
        0 => (geometry.capacity(0) - 1) / 2,
        _ => geometry.capacity(level) - 2,
    };
    if level == geometry.bottom() {
        let levels_above: usize = (0..level).map(above).sum();
        return geometry.most() - levels_above - 1;
    }
    above(level)
}
