//! The bench table: its eleven cases run, compared with what the table says, and told in lines that
//! crates/cases prints as well.

use std::fmt::Debug;
use std::ops::RangeInclusive;

use crate::call::numbered;
use crate::calls::{self, Reply, FULL, HELD};
use crate::fault::{Place, PAGE_FORM};
use crate::generate::formatted;
use crate::geometry::{Geometry, HEAD_SLOTS};
use crate::layout::fences_to;
use crate::reading;
use crate::slot::{Kind, Pair, Slot, GREATEST, LEAST};
use crate::variant::Variant;

/// A case that was run: what the table says in short, the lines that tell the run, and where it
/// differs from the table.
pub struct Ran {
    pub number: usize,
    pub says: &'static str,
    pub lines: Vec<String>,
    pub differences: Vec<String>,
}

/// A case of the table: what it says in short, and its run.
type Row = (&'static str, fn(&mut Bench));

/// The table.
const TABLE: [Row; 11] = [
    (
        "4,2,3: the fourth put merges into level 1, one page",
        case_1,
    ),
    ("a drop and a put of 2 meet in the head", case_2),
    ("drops of all that was merged cancel, one page", case_3),
    ("puts 1..8: pages 4, allowed 4", case_4),
    (
        "puts 1..16: pages 8, allowed 8; then full, held, room again",
        case_5,
    ),
    (
        "21,2,2: pages 1, then 2; head fences (0,0) and (22,0)",
        case_6,
    ),
    ("asks of 21, 22 and 43 read pages 0, 1 and 1", case_7),
    (
        "10,4,3: page 1 opens with internal fence (21,5) to page 0",
        case_8,
    ),
    ("a fence to page 300 has tag 1202 and reads back", case_9),
    (
        "fewer than H puts write no page; the greatest pair",
        case_10,
    ),
    ("list of case 6 into 5 words: two pairs, mark 1", case_11),
];

/// Runs the table.
pub fn run(variant: Variant) -> Vec<Ran> {
    let mut ran = Vec::new();
    for (at, (says, case)) in TABLE.iter().enumerate() {
        let mut bench = Bench::new(variant);
        case(&mut bench);
        ran.push(Ran {
            number: at + 1,
            says,
            lines: bench.lines,
            differences: bench.differences,
        });
    }
    ran
}

/// A store on the bench, the pages written so far, the lines told and the differences found.
struct Bench {
    variant: Variant,
    geometry: Geometry,
    store: Vec<u32>,
    accepted: usize,
    pages: u32,
    lines: Vec<String>,
    differences: Vec<String>,
}

/// Put or drop.
type Edit = fn(Variant, &mut [u32], &mut [u32], Pair) -> Reply;

impl Bench {
    /// A bench with the store of most cases, told by none of them yet.
    fn new(variant: Variant) -> Bench {
        let geometry = Geometry::new(4, 2, 3).expect("a geometry of the table");
        Bench {
            variant,
            geometry,
            store: formatted(geometry),
            accepted: 0,
            pages: 0,
            lines: Vec::new(),
            differences: Vec::new(),
        }
    }

    /// Puts a formatted store on the bench, also under a false build that formats nothing; the
    /// table's geometries are all inside the ranges.
    fn take(&mut self, head: u32, ratio: u32, levels: u32) {
        let geometry = Geometry::new(head, ratio, levels).expect("a geometry of the table");
        self.geometry = geometry;
        self.store = formatted(geometry);
        let reply = calls::format(self.variant, &mut self.store, head, ratio, levels);
        self.tell(format!("format {geometry}: reply {}", reply.number));
    }

    /// Puts a pair.
    fn put(&mut self, badge: u32, floor: u32) -> Reply {
        self.put_all(badge..=badge, floor)
    }

    /// Puts these badges with one floor, and gives the last reply.
    fn put_all(&mut self, badges: RangeInclusive<u32>, floor: u32) -> Reply {
        self.edit_all("put", calls::put, badges, floor)
    }

    /// Drops a pair.
    fn drop(&mut self, badge: u32, floor: u32) -> Reply {
        self.drop_all(badge..=badge, floor)
    }

    /// Drops these badges with one floor, and gives the last reply.
    fn drop_all(&mut self, badges: RangeInclusive<u32>, floor: u32) -> Reply {
        self.edit_all("drop", calls::drop, badges, floor)
    }

    /// Puts or drops these badges with one floor, tells the pages written and the last reply, and
    /// gives it.
    fn edit_all(
        &mut self,
        name: &str,
        edit: Edit,
        badges: RangeInclusive<u32>,
        floor: u32,
    ) -> Reply {
        let written = self.pages;
        let (first, last) = (*badges.start(), *badges.end());
        let replies = badges.map(|badge| self.edit(edit, Pair { badge, floor }));
        let reply = replies.last().expect("a range that is not empty");
        let wrote = self.pages - written;
        self.tell(format!(
            "{name} {first} to {last} at {floor} wrote {wrote}: {}",
            changed(&reply)
        ));
        reply
    }

    /// Puts or drops a pair, and takes note of it if it was accepted.
    fn edit(&mut self, edit: Edit, pair: Pair) -> Reply {
        let mut work = numbered(0, self.geometry.work_words());
        let reply = edit(self.variant, &mut self.store, &mut work, pair);
        if reply.number == 0 {
            self.accepted += 1;
            self.pages += reply.values[2];
        }
        reply
    }

    /// Asks for a pair.
    fn ask(&mut self, badge: u32, floor: u32) -> Reply {
        self.ask_under("", badge, floor)
    }

    /// Asks for a pair, and tells it after some words.
    fn ask_under(&mut self, words: &str, badge: u32, floor: u32) -> Reply {
        let reply = calls::ask(self.variant, &self.store, Pair { badge, floor });
        let told = with_names(&reply, &["held", "level"]);
        self.tell(format!("{words}ask {badge} at {floor}: {told}"));
        reply
    }

    /// Tells a slot by its words.
    fn tell_slot(&mut self, name: &str, slot: &Slot) {
        let [badge, floor, tag] = slot.words();
        self.tell(format!("{name}: {badge} {floor} {tag}"));
    }

    /// Adds a line.
    fn tell(&mut self, line: String) {
        self.lines.push(line);
    }

    /// Compares what was given with what the table wants.
    fn wants<T: PartialEq + Debug>(&mut self, what: &str, given: T, wanted: T) {
        if given != wanted {
            let difference = format!("{what}: given {given:?}, wanted {wanted:?}");
            self.differences.push(difference);
        }
    }

    /// Compares pages written in all, and condition 3's allowance, with the table's.
    fn wants_pages(&mut self, pages: u32, allowed: usize) {
        self.wants("pages", self.pages, pages);
        let given = self.geometry.pages_allowed(self.accepted);
        self.wants("allowed", given, allowed);
    }
}

/// An accepted reply with its values named, or a refusal with its place.
fn with_names(reply: &Reply, names: &[&str]) -> String {
    let names = match reply.number {
        0 => names,
        _ => &["level", "page", "slot"],
    };
    let values = names.iter().zip(&reply.values);
    let named: String = values
        .map(|(name, value)| format!(" {name} {value}"))
        .collect();
    format!("reply {}{named}", reply.number)
}

/// The reply of a put or drop.
fn changed(reply: &Reply) -> String {
    let named = with_names(reply, &["live", "deepest", "pages"]);
    let entries: String = reply
        .values
        .iter()
        .skip(3)
        .map(|n| format!(" {n}"))
        .collect();
    if reply.number == 0 {
        format!("{named} entries{entries}")
    } else {
        named
    }
}

/// The reply of an accepted call.
fn done(values: &[u32]) -> Reply {
    let values = values.to_vec();
    Reply { number: 0, values }
}

/// The reply of a refusal with zeros.
fn refused(number: u32) -> Reply {
    refused_at(number, Place::default())
}

/// The reply of a refusal with this place.
fn refused_at(number: u32, place: Place) -> Reply {
    let values = place.values().to_vec();
    Reply { number, values }
}

/// Case 1.
fn case_1(bench: &mut Bench) {
    bench.take(4, 2, 3);
    let third = bench.put_all(1..=3, 0);
    bench.wants("third put", third, done(&[3, 0, 0, 3, 0, 0, 0]));
    let fourth = bench.put(4, 0);
    bench.wants("fourth put", fourth, done(&[4, 1, 1, 0, 4, 0, 0]));
}

/// Case 2.
fn case_2(bench: &mut Bench) {
    bench.take(4, 2, 3);
    bench.put_all(1..=4, 0);
    let drop = bench.drop(2, 0);
    bench.wants("drop 2", drop, done(&[3, 0, 0, 1, 4, 0, 0]));
    let put = bench.put(2, 0);
    bench.wants("put 2", put, done(&[4, 0, 0, 0, 4, 0, 0]));
}

/// Case 3.
fn case_3(bench: &mut Bench) {
    bench.take(4, 2, 3);
    bench.put_all(1..=4, 0);
    bench.pages = 0;
    let last = bench.drop_all(1..=4, 0);
    bench.wants("last drop", last, done(&[0, 1, 1, 0, 0, 0, 0]));
    bench.wants("pages", bench.pages, 1);
}

/// Case 4.
fn case_4(bench: &mut Bench) {
    bench.take(4, 2, 3);
    bench.put_all(1..=8, 0);
    bench.wants_pages(4, 4);
}

/// Case 5.
fn case_5(bench: &mut Bench) {
    bench.take(4, 2, 3);
    bench.put_all(1..=16, 0);
    bench.wants_pages(8, 8);
    let full = bench.put(17, 0);
    bench.wants("put 17", full, refused(FULL));
    let held = bench.put(16, 0);
    bench.wants("put 16", held, refused(HELD));
    let drop = bench.drop(1, 0);
    bench.wants("drop 1", drop.number, 0);
    let put = bench.put(17, 0);
    bench.wants("put 17 again", put.number, 0);
}

/// The store of case 6.
fn take_case_6(bench: &mut Bench) {
    bench.take(21, 2, 2);
    bench.put_all(1..=42, 0);
}

/// Case 6.
fn case_6(bench: &mut Bench) {
    bench.take(21, 2, 2);
    let first = bench.put_all(1..=21, 0);
    bench.wants("put 21", first, done(&[21, 1, 1, 0, 21, 0, 0]));
    let second = bench.put_all(22..=42, 0);
    bench.wants("put 42", second, done(&[42, 1, 2, 0, 42, 0, 0]));
    bench.wants_pages(3, 4);
    let fence = |badge: u32, page: u32| Slot {
        pair: Pair { badge, floor: 0 },
        kind: Kind::External,
        page,
    };
    let head = reading::head(bench.geometry, &bench.store);
    for (number, slot) in head.iter().enumerate() {
        bench.tell_slot(&format!("head slot {number}"), slot);
    }
    bench.wants("head", head, vec![fence(0, 0), fence(22, 1)]);
}

/// Case 7: a page is read exactly if damage to its slot count is told.
fn case_7(bench: &mut Bench) {
    take_case_6(bench);
    let sound = bench.store.clone();
    for (badge, page, held) in [(21, 0, 1), (22, 1, 1), (43, 1, 0)] {
        let answer = bench.ask(badge, 0);
        bench.wants("ask", answer.values[0], held);
        for damaged in [0, 1] {
            let start = bench.geometry.page_start(1, damaged);
            bench.store[start] = 22;
            let told = bench.ask_under(&format!("page {damaged} damaged: "), badge, 0);
            let wanted = if damaged == page {
                let (level, slot) = (1, 0);
                refused_at(PAGE_FORM, Place { level, page, slot })
            } else {
                answer.clone()
            };
            bench.wants("ask, damaged", told, wanted);
            bench.store = sound.clone();
        }
    }
}

/// Case 8.
fn case_8(bench: &mut Bench) {
    bench.take(10, 4, 3);
    bench.put_all(1..=30, 5);
    bench.wants_pages(4, 9);
    let pages = reading::page_count(&bench.store, 1);
    bench.tell(format!("level 1 has pages {pages}"));
    bench.wants("pages of level 1", pages, 2);
    let fence = Slot {
        pair: Pair {
            badge: 21,
            floor: 5,
        },
        kind: Kind::Internal,
        page: 0,
    };
    let first = reading::page(bench.geometry, &bench.store, 1, 1)[0];
    bench.tell_slot("level 1 page 1 slot 0", &first);
    bench.wants("first slot of page 1", first, fence);
}

/// Case 9: the fence to the last of 301 pages.
fn case_9(bench: &mut Bench) {
    let fences = fences_to(&[LEAST; 301], bench.variant);
    let words = fences[300].words();
    bench.wants("tag", words[2], 1202);
    let read_back = Slot::of_words(words[0], words[1], words[2]);
    bench.wants("page read back", read_back.page, 300);
    bench.tell(format!("tag {}", words[2]));
    bench.tell(format!("page {}", read_back.page));
}

/// Case 10.
fn case_10(bench: &mut Bench) {
    bench.take(4, 2, 3);
    bench.put_all(1..=2, 0);
    let Pair { badge, floor } = GREATEST;
    let put = bench.put(badge, floor);
    bench.wants("put", put, done(&[3, 0, 0, 3, 0, 0, 0]));
    let answer = bench.ask(badge, floor);
    bench.wants("ask", answer, done(&[1, 0]));
    let drop = bench.drop(badge, floor);
    bench.wants("drop", drop, done(&[2, 0, 0, 2, 0, 0, 0]));
    let answer = bench.ask(badge, floor);
    bench.wants("ask again", answer, done(&[0, 3]));
    bench.wants("pages", bench.pages, 0);
    bench.wants("first slot unused", bench.store[HEAD_SLOTS + 9], u32::MAX);
}

/// Case 11.
fn case_11(bench: &mut Bench) {
    take_case_6(bench);
    let mut slice = numbered(1000, 5);
    let pair = |badge: u32| Pair { badge, floor: 0 };
    let reply = calls::list(bench.variant, &bench.store, pair(1), pair(42), &mut slice);
    let told = with_names(&reply, &["pairs", "mark"]);
    bench.tell(format!("list 1 to 42: {told}"));
    let words: String = slice.iter().map(|word| format!(" {word}")).collect();
    bench.tell(format!("words{words}"));
    bench.wants("reply", reply, done(&[2, 1]));
    bench.wants("slice", slice, vec![1, 0, 2, 0, 1004]);
}
