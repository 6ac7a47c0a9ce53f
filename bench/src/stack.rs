//! The deepest stack of each call, measured by painting.
//!
//! A call is made on a stack of its own, every word of which was painted before; afterwards the
//! lowest word that lost its paint tells how deep the calls went. The depth counts from where the
//! call is entered, and so has a few words of the small function that passes on its arguments.

use std::arch::asm;

use second::geometry::Geometry;
use second::library;

use crate::index::{Lent, Pair};
use crate::peer;
use crate::trace::Update;

/// The words of a painted stack: 256 KiB.
const WORDS: usize = 1 << 15;
/// What an unused word holds.
const PAINT: u64 = 0x5AA5_C33C_0FF0_9669;

/// The calls that are measured. The peer has no why, which stands last.
pub const CALLS: [&str; 7] = ["format", "put", "drop", "ask", "list", "check", "why"];

/// The deepest stack of each call in bytes. What the peer does not have is 0.
#[derive(Default)]
pub struct Depths {
    pub ours: [usize; 7],
    pub peers: [usize; 7],
}

impl Depths {
    /// Takes the deeper of these and others.
    pub fn deepen(&mut self, others: &Depths) {
        for at in 0..CALLS.len() {
            self.ours[at] = self.ours[at].max(others.ours[at]);
            self.peers[at] = self.peers[at].max(others.peers[at]);
        }
    }
}

/// A stack that calls are made on.
struct Painted {
    words: Vec<u64>,
}

/// What a call is lent and asked.
struct Request {
    lent: Lent,
    slice: Vec<u32>,
    geometry: [u32; 3],
    pair: Pair,
    out: [u32; 7],
}

/// A call with what it is lent, by the C convention.
type Entry = unsafe extern "C" fn(*mut Request);

impl Painted {
    /// A stack without a trace of use.
    fn new() -> Painted {
        Painted {
            words: vec![PAINT; WORDS],
        }
    }

    /// Makes a call on this stack.
    fn call(&mut self, entry: Entry, request: &mut Request) {
        let top = self.words.as_mut_ptr_range().end;
        // Safety: the entry runs on memory of ours that nothing else uses, from its top, which is
        // aligned down to 16 bytes, and comes back with the stack pointer that r12 kept.
        unsafe {
            asm!(
                "and r12, -16",
                "xchg rsp, r12",
                "call {entry}",
                "mov rsp, r12",
                entry = in(reg) entry,
                inout("r12") top => _,
                in("rdi") request,
                clobber_abi("C"),
            );
        }
    }

    /// The bytes below the top that lost their paint.
    fn depth(&self) -> usize {
        let unused = self.words.iter().take_while(|word| **word == PAINT);
        8 * (WORDS - unused.count())
    }
}

/// The deepest stacks over a trace: every update, an ask of its pair, and around every merge a list
/// and a check.
pub fn measure(geometry: Geometry, trace: &[Update]) -> Depths {
    Depths {
        ours: depths(geometry, trace, OURS, Some(our_why)),
        peers: depths(geometry, trace, PEERS, None),
    }
}

/// The deepest stack of each of six entries, and of a why if there is one.
fn depths(
    geometry: Geometry,
    trace: &[Update],
    entries: [Entry; 6],
    why: Option<Entry>,
) -> [usize; 7] {
    let [format, put, drop, ask, list, check] = entries;
    let mut stacks = CALLS.map(|_| Painted::new());
    let mut request = Request {
        lent: Lent::formatted(geometry),
        slice: vec![0; 2 * geometry.most()],
        geometry: geometry.words(),
        pair: (0, 0),
        out: [0; 7],
    };
    stacks[0].call(format, &mut request);
    for update in trace {
        request.pair = update.pair();
        match update {
            Update::Put(_) => stacks[1].call(put, &mut request),
            Update::Drop(_) => stacks[2].call(drop, &mut request),
        }
        if request.out[1] > 0 {
            stacks[4].call(list, &mut request);
            stacks[5].call(check, &mut request);
        }
        stacks[3].call(ask, &mut request);
        if let Some(why) = why {
            stacks[6].call(why, &mut request);
        }
    }
    stacks.each_ref().map(Painted::depth)
}

/// The library's calls.
const OURS: [Entry; 6] = [our_format, our_put, our_drop, our_ask, our_list, our_check];

/// The peer's calls.
const PEERS: [Entry; 6] = [
    peer_format,
    peer_put,
    peer_drop,
    peer_ask,
    peer_list,
    peer_check,
];

/// The least and the greatest pair.
const ALL: (Pair, Pair) = ((0, 0), (u32::MAX, u32::MAX));

/// Defines the six entries over an implementation's functions.
macro_rules! entries {
    ($index:ident: $format:ident $put:ident $drop:ident $ask:ident $list:ident $check:ident) => {
        unsafe extern "C" fn $format(request: *mut Request) {
            let request = &mut *request;
            let [head, ratio, levels] = request.geometry;
            $index::format(&mut request.lent.store, head, ratio, levels);
        }

        unsafe extern "C" fn $put(request: *mut Request) {
            let Request {
                lent, pair, out, ..
            } = &mut *request;
            $index::put(&mut lent.store, &mut lent.work, pair.0, pair.1, out);
        }

        unsafe extern "C" fn $drop(request: *mut Request) {
            let Request {
                lent, pair, out, ..
            } = &mut *request;
            $index::drop(&mut lent.store, &mut lent.work, pair.0, pair.1, out);
        }

        unsafe extern "C" fn $ask(request: *mut Request) {
            let Request { lent, pair, .. } = &mut *request;
            $index::ask(&lent.store, pair.0, pair.1, &mut [0; 3]);
        }

        unsafe extern "C" fn $list(request: *mut Request) {
            let Request { lent, slice, .. } = &mut *request;
            $index::list(&lent.store, ALL.0, ALL.1, slice, &mut [0; 3]);
        }

        unsafe extern "C" fn $check(request: *mut Request) {
            let request = &mut *request;
            $index::check(&request.lent.store, &mut [0; 3]);
        }
    };
}

unsafe extern "C" fn our_why(request: *mut Request) {
    let Request { lent, pair, .. } = &mut *request;
    library::why(&lent.store, pair.0, pair.1, &mut [0; 22]);
}

entries!(library: our_format our_put our_drop our_ask our_list our_check);
entries!(peer: peer_format peer_put peer_drop peer_ask peer_list peer_check);
