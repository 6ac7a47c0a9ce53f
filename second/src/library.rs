//! The proved implementation through its C interface, include/landing.h, behind safe functions.
//!
//! Each gives the reply number and fills `out`, whose first three words are the place of a fault. A slice
//! goes over as a pointer and a length.

use crate::beside::{out_words, Numbers, Program, Told};
use crate::call::{numbered, Call};
use crate::calls::WHY_VALUES;
use crate::geometry::ONES;
use crate::slot::Pair;

mod c {
    extern "C" {
        pub fn landing_format(store: *mut u32, n: usize, h: u32, k: u32, l: u32) -> u32;
        pub fn landing_put(
            store: *mut u32,
            n: usize,
            work: *mut u32,
            m: usize,
            badge: u32,
            floor: u32,
            out: *mut [u32; 7],
        ) -> u32;
        pub fn landing_drop(
            store: *mut u32,
            n: usize,
            work: *mut u32,
            m: usize,
            badge: u32,
            floor: u32,
            out: *mut [u32; 7],
        ) -> u32;
        pub fn landing_ask(
            store: *const u32,
            n: usize,
            badge: u32,
            floor: u32,
            out: *mut [u32; 3],
        ) -> u32;
        pub fn landing_why(
            store: *const u32,
            n: usize,
            badge: u32,
            floor: u32,
            out: *mut [u32; 22],
        ) -> u32;
        pub fn landing_list(
            store: *const u32,
            n: usize,
            badge1: u32,
            floor1: u32,
            badge2: u32,
            floor2: u32,
            list: *mut u32,
            m: usize,
            out: *mut [u32; 3],
        ) -> u32;
        pub fn landing_check(store: *const u32, n: usize, out: *mut [u32; 3]) -> u32;
        pub fn landing_store_words(h: u32, k: u32, l: u32) -> u32;
        pub fn landing_work_words(h: u32, k: u32, l: u32) -> u32;
    }
}

// Safety, of every call below: the pointers and lengths are those of slices that the caller lends
// for the call, the mutable ones alone; the interface asks for nothing else.

/// Makes the store of the empty set.
pub fn format(store: &mut [u32], head: u32, ratio: u32, levels: u32) -> u32 {
    unsafe { c::landing_format(store.as_mut_ptr(), store.len(), head, ratio, levels) }
}

/// Puts a pair: live pairs, the deepest level, pages written, and the entries of four levels.
pub fn put(store: &mut [u32], work: &mut [u32], badge: u32, floor: u32, out: &mut [u32; 7]) -> u32 {
    let (n, m) = (store.len(), work.len());
    unsafe {
        c::landing_put(
            store.as_mut_ptr(),
            n,
            work.as_mut_ptr(),
            m,
            badge,
            floor,
            out,
        )
    }
}

/// Drops a pair, with the values of a put.
pub fn drop(
    store: &mut [u32],
    work: &mut [u32],
    badge: u32,
    floor: u32,
    out: &mut [u32; 7],
) -> u32 {
    let (n, m) = (store.len(), work.len());
    unsafe {
        c::landing_drop(
            store.as_mut_ptr(),
            n,
            work.as_mut_ptr(),
            m,
            badge,
            floor,
            out,
        )
    }
}

/// Asks for a pair: held or not, and the deciding level.
pub fn ask(store: &[u32], badge: u32, floor: u32, out: &mut [u32; 3]) -> u32 {
    unsafe { c::landing_ask(store.as_ptr(), store.len(), badge, floor, out) }
}

/// Tells why a pair is held or not: what ask answers, then five words for each of four levels.
pub fn why(store: &[u32], badge: u32, floor: u32, out: &mut [u32; 22]) -> u32 {
    unsafe { c::landing_why(store.as_ptr(), store.len(), badge, floor, out) }
}

/// Lists the held pairs from the first to the last: the pairs written, and the mark.
pub fn list(
    store: &[u32],
    first: (u32, u32),
    last: (u32, u32),
    slice: &mut [u32],
    out: &mut [u32; 3],
) -> u32 {
    let m = slice.len();
    unsafe {
        c::landing_list(
            store.as_ptr(),
            store.len(),
            first.0,
            first.1,
            last.0,
            last.1,
            slice.as_mut_ptr(),
            m,
            out,
        )
    }
}

/// Tests the whole store.
pub fn check(store: &[u32], out: &mut [u32; 3]) -> u32 {
    unsafe { c::landing_check(store.as_ptr(), store.len(), out) }
}

/// The words of a store, or 0 outside the ranges.
pub fn store_words(head: u32, ratio: u32, levels: u32) -> u32 {
    unsafe { c::landing_store_words(head, ratio, levels) }
}

/// The words of a work area, or 0 outside the ranges.
pub fn work_words(head: u32, ratio: u32, levels: u32) -> u32 {
    unsafe { c::landing_work_words(head, ratio, levels) }
}

/// The proved library as a program to compare.
pub struct Library;

impl Program for Library {
    /// Formats by the library.
    fn format(&self, store: &mut [u32], [head, ratio, levels]: Numbers) -> u32 {
        format(store, head, ratio, levels)
    }

    /// Makes a call by the library, with every word of `out` set to ones before.
    fn perform(&self, store: &mut [u32], call: Call) -> Told {
        let (mut work, mut slice) = (Vec::new(), Vec::new());
        let (mut three, mut seven) = ([ONES; 3], [ONES; 7]);
        let mut trail = [ONES; WHY_VALUES];
        let number = match call {
            Call::Ask(Pair { badge, floor }) => ask(store, badge, floor, &mut three),
            Call::Why(Pair { badge, floor }) => why(store, badge, floor, &mut trail),
            Call::Put(Pair { badge, floor }, length) => {
                work = numbered(0, length);
                put(store, &mut work, badge, floor, &mut seven)
            }
            Call::Drop(Pair { badge, floor }, length) => {
                work = numbered(0, length);
                drop(store, &mut work, badge, floor, &mut seven)
            }
            Call::List(first, last, length) => {
                slice = numbered(1000, length);
                let (first, last) = ((first.badge, first.floor), (last.badge, last.floor));
                list(store, first, last, &mut slice, &mut three)
            }
            Call::Check => check(store, &mut three),
        };
        let out = match out_words(call) {
            WHY_VALUES => trail.to_vec(),
            7 => seven.to_vec(),
            _ => three.to_vec(),
        };
        Told {
            number,
            out,
            work,
            slice,
        }
    }

    /// The library's own words.
    fn words(&self, [head, ratio, levels]: Numbers) -> [u32; 2] {
        [
            store_words(head, ratio, levels),
            work_words(head, ratio, levels),
        ]
    }
}
