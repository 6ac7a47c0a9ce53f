//! Geometry: every number that depends on H, k and l alone.

/// The words of a page: its slot count, then its slots.
pub const PAGE_WORDS: usize = 64;
/// The slots of a page.
pub const PAGE_SLOTS: usize = 21;
/// The words of a slot: badge, floor, tag.
pub const SLOT_WORDS: usize = 3;
/// The most levels that a geometry may have.
pub const MOST_LEVELS: usize = 4;

/// The place of the live pairs in the directory.
pub const LIVE: usize = 3;
/// The place of level 1's page count in the directory; levels 2 and 3 follow.
pub const PAGE_COUNTS: usize = 4;
/// The place of the directory's word that is zero.
pub const ZERO_WORD: usize = 7;
/// The place of the head's slot count.
pub const HEAD_COUNT: usize = 8;
/// The place of the head's first slot; a store with fewer words has no geometry.
pub const HEAD_SLOTS: usize = 9;
/// What every word of an unused slot or page holds.
pub const ONES: u32 = u32::MAX;

/// Head capacity H, ratio k and levels l, each inside its range.
#[derive(Clone, Copy, Debug, PartialEq, Eq)]
pub struct Geometry {
    head: u32,
    ratio: u32,
    levels: u32,
}

impl Geometry {
    /// The geometry of these three numbers, or none if one is outside its range.
    pub fn new(head: u32, ratio: u32, levels: u32) -> Option<Geometry> {
        let inside =
            (1..=64).contains(&head) && (2..=8).contains(&ratio) && (2..=4).contains(&levels);
        inside.then_some(Geometry {
            head,
            ratio,
            levels,
        })
    }

    /// The three numbers as words 0 to 2 hold them.
    pub fn words(&self) -> [u32; 3] {
        [self.head, self.ratio, self.levels]
    }

    /// The number of levels l.
    pub fn levels(&self) -> usize {
        self.levels as usize
    }

    /// The number of the bottom level, l - 1.
    pub fn bottom(&self) -> usize {
        self.levels() - 1
    }

    /// cap(i) = H * k^i, counted in index entries.
    pub fn capacity(&self, level: usize) -> usize {
        let mut capacity = self.head as usize;
        for _ in 0..level {
            capacity *= self.ratio as usize;
        }
        capacity
    }

    /// M, the most live pairs: the bottom's capacity.
    pub fn most(&self) -> usize {
        self.capacity(self.bottom())
    }

    /// T(i) = cap(0) + ... + cap(i).
    pub fn total(&self, level: usize) -> usize {
        (0..=level).map(|i| self.capacity(i)).sum()
    }

    /// Pg(i), the page room of a level; 0 for the head and for a level that does not exist.
    pub fn page_room(&self, level: usize) -> usize {
        if level == 0 || level > self.bottom() {
            0
        } else if level == self.bottom() {
            self.most().div_ceil(PAGE_SLOTS)
        } else {
            (self.total(level) + self.page_room(level + 1)).div_ceil(PAGE_SLOTS - 1)
        }
    }

    /// The head's room in slots: H + Pg(1).
    pub fn head_room(&self) -> usize {
        self.capacity(0) + self.page_room(1)
    }

    /// The place of a page's slot count in the store.
    pub fn page_start(&self, level: usize, page: usize) -> usize {
        let pages_above: usize = (1..level).map(|i| self.page_room(i)).sum();
        HEAD_SLOTS + SLOT_WORDS * self.head_room() + PAGE_WORDS * (pages_above + page)
    }

    /// The exact length of a store in words.
    pub fn store_words(&self) -> usize {
        self.page_start(self.levels(), 0)
    }

    /// The exact length of a work area in words: 64 times the greatest page room.
    pub fn work_words(&self) -> usize {
        let rooms = (1..self.levels()).map(|i| self.page_room(i));
        PAGE_WORDS * rooms.max().unwrap_or(0)
    }

    /// Condition 3's allowance: the most pages that n accepted puts and drops may write.
    pub fn pages_allowed(&self, accepted: usize) -> usize {
        let mut allowed = 0;
        for level in 1..self.levels() {
            let merges = accepted / self.capacity(level - 1);
            let pages: usize = (1..=level).map(|i| self.page_room(i)).sum();
            allowed += merges * pages;
        }
        allowed
    }
}

impl std::fmt::Display for Geometry {
    /// Prints the geometry as `H,k,l`.
    fn fmt(&self, f: &mut std::fmt::Formatter<'_>) -> std::fmt::Result {
        write!(f, "{},{},{}", self.head, self.ratio, self.levels)
    }
}

impl std::str::FromStr for Geometry {
    type Err = String;

    /// Reads a geometry written as `H,k,l`.
    fn from_str(text: &str) -> Result<Geometry, String> {
        let numbers: Vec<u32> = text.split(',').filter_map(|n| n.parse().ok()).collect();
        match numbers[..] {
            [h, k, l] => Geometry::new(h, k, l).ok_or(format!("{text}: outside the ranges")),
            _ => Err(format!("{text}: not of the form H,k,l")),
        }
    }
}
