//! The times of calls that do not merge: ask, put and drop, check, list.

use std::collections::BTreeSet;
use std::hint::black_box;
use std::iter::Cycle;
use std::slice::Iter;

use crate::clock::{fastest, side_by_side, Times};
use crate::index::{Index, Library, Pair, Peer};
use crate::trace::Filled;

/// An ask beside a `BTreeSet` and a sorted `Vec` of the same pairs.
#[derive(Clone, Copy)]
pub struct AskTimes {
    pub times: Times,
    pub set: f64,
    pub vec: f64,
}

/// The times on a filled store.
pub struct CallTimes {
    pub held: AskTimes,
    pub not_held: AskTimes,
    /// A put or a drop without a merge: a new pair is put, and dropped again.
    pub edit: Times,
    pub check: Times,
    /// A list of all pairs, for each pair.
    pub list: Times,
}

/// Times every call on a filled store.
pub fn measure(filled: &Filled) -> CallTimes {
    CallTimes {
        held: asks(filled, &filled.held, true),
        not_held: asks(filled, &filled.absent, false),
        edit: edits(filled),
        check: checks(filled),
        list: lists(filled),
    }
}

/// Asks for pairs that are all held, or all not.
fn asks(filled: &Filled, asked: &[Pair], held: bool) -> AskTimes {
    let store = &filled.lent.store;
    let set: BTreeSet<Pair> = filled.held.iter().copied().collect();
    let vec: Vec<Pair> = set.iter().copied().collect();
    for pair in asked {
        let (mut ours, mut peers) = ([0; 3], [0; 3]);
        Library.ask(store, *pair, &mut ours);
        Peer.ask(store, *pair, &mut peers);
        let same = ours == peers && ours[0] == u32::from(held) && set.contains(pair) == held;
        assert!(same, "{}: an ask", filled.geometry);
    }
    let next = |pairs: &mut Cycle<Iter<Pair>>| *pairs.next().expect("a pair");
    let [mut one, mut two, mut three, mut four] = [(); 4].map(|()| asked.iter().cycle());
    let (mut out, mut same) = ([0; 3], [0; 3]);
    let [ours, peers, set, vec] = fastest([
        &mut || {
            black_box(Library.ask(store, next(&mut one), &mut out));
        },
        &mut || {
            black_box(Peer.ask(store, next(&mut two), &mut same));
        },
        &mut || {
            black_box(set.contains(&next(&mut three)));
        },
        &mut || {
            let _ = black_box(vec.binary_search(&next(&mut four)));
        },
    ]);
    AskTimes {
        times: Times { ours, peers },
        set,
        vec,
    }
}

/// A put of a new pair, and its drop; half the time of both.
fn edits(filled: &Filled) -> Times {
    let (mut ours, mut peers) = (filled.lent.clone(), filled.lent.clone());
    let mut new = [(); 2].map(|()| filled.absent.iter().cycle());
    let [one, two] = new.each_mut();
    let (mut out, mut same) = ([0; 7], [0; 7]);
    let times = side_by_side(
        || {
            let pair = *one.next().expect("a pair");
            Library.put(&mut ours.store, &mut ours.work, pair, &mut out);
            Library.drop(&mut ours.store, &mut ours.work, pair, &mut out);
        },
        || {
            let pair = *two.next().expect("a pair");
            Peer.put(&mut peers.store, &mut peers.work, pair, &mut same);
            Peer.drop(&mut peers.store, &mut peers.work, pair, &mut same);
        },
    );
    let unchanged = ours.store == filled.lent.store && peers.store == filled.lent.store;
    assert!(unchanged && out == same, "{}: an edit", filled.geometry);
    Times {
        ours: times.ours / 2.0,
        peers: times.peers / 2.0,
    }
}

/// A check of the whole store.
fn checks(filled: &Filled) -> Times {
    let store = &filled.lent.store;
    let (mut ours, mut peers) = ([0; 3], [0; 3]);
    let times = side_by_side(
        || assert_eq!(Library.check(store, &mut ours), 0),
        || assert_eq!(Peer.check(store, &mut peers), 0),
    );
    assert_eq!(ours, peers);
    times
}

/// A list of all pairs, for each pair.
fn lists(filled: &Filled) -> Times {
    let store = &filled.lent.store;
    let (first, last) = ((0, 0), (u32::MAX, u32::MAX));
    let mut ours = vec![0; 2 * filled.held.len()];
    let mut peers = ours.clone();
    let mut out = [0; 3];
    let mut same = [0; 3];
    let times = side_by_side(
        || assert_eq!(Library.list(store, first, last, &mut ours, &mut out), 0),
        || assert_eq!(Peer.list(store, first, last, &mut peers, &mut same), 0),
    );
    assert!(ours == peers && out == same, "{}: a list", filled.geometry);
    let pairs = filled.held.len() as f64;
    Times {
        ours: times.ours / pairs,
        peers: times.peers / pairs,
    }
}
