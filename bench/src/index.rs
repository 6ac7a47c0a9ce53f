//! The six calls as the library and as the peer answer them, so that one text measures both.

use second::geometry::Geometry;
use second::library;

use crate::peer;

/// A pair as a call takes it: badge, floor.
pub type Pair = (u32, u32);

/// An implementation of the contract. Each call gives the reply number and fills `out`.
pub trait Index {
    fn put(&self, store: &mut [u32], work: &mut [u32], pair: Pair, out: &mut [u32; 7]) -> u32;
    fn drop(&self, store: &mut [u32], work: &mut [u32], pair: Pair, out: &mut [u32; 7]) -> u32;
    fn ask(&self, store: &[u32], pair: Pair, out: &mut [u32; 3]) -> u32;
    fn list(
        &self,
        store: &[u32],
        first: Pair,
        last: Pair,
        slice: &mut [u32],
        out: &mut [u32; 3],
    ) -> u32;
    fn check(&self, store: &[u32], out: &mut [u32; 3]) -> u32;
}

/// The proved library, through its C interface.
pub struct Library;

/// The peer in safe Rust.
pub struct Peer;

impl Index for Library {
    fn put(&self, store: &mut [u32], work: &mut [u32], pair: Pair, out: &mut [u32; 7]) -> u32 {
        library::put(store, work, pair.0, pair.1, out)
    }

    fn drop(&self, store: &mut [u32], work: &mut [u32], pair: Pair, out: &mut [u32; 7]) -> u32 {
        library::drop(store, work, pair.0, pair.1, out)
    }

    fn ask(&self, store: &[u32], pair: Pair, out: &mut [u32; 3]) -> u32 {
        library::ask(store, pair.0, pair.1, out)
    }

    fn list(
        &self,
        store: &[u32],
        first: Pair,
        last: Pair,
        slice: &mut [u32],
        out: &mut [u32; 3],
    ) -> u32 {
        library::list(store, first, last, slice, out)
    }

    fn check(&self, store: &[u32], out: &mut [u32; 3]) -> u32 {
        library::check(store, out)
    }
}

impl Index for Peer {
    fn put(&self, store: &mut [u32], work: &mut [u32], pair: Pair, out: &mut [u32; 7]) -> u32 {
        peer::put(store, work, pair.0, pair.1, out)
    }

    fn drop(&self, store: &mut [u32], work: &mut [u32], pair: Pair, out: &mut [u32; 7]) -> u32 {
        peer::drop(store, work, pair.0, pair.1, out)
    }

    fn ask(&self, store: &[u32], pair: Pair, out: &mut [u32; 3]) -> u32 {
        peer::ask(store, pair.0, pair.1, out)
    }

    fn list(
        &self,
        store: &[u32],
        first: Pair,
        last: Pair,
        slice: &mut [u32],
        out: &mut [u32; 3],
    ) -> u32 {
        peer::list(store, first, last, slice, out)
    }

    fn check(&self, store: &[u32], out: &mut [u32; 3]) -> u32 {
        peer::check(store, out)
    }
}

/// A store and a work area, as one implementation is lent them.
#[derive(Clone)]
pub struct Lent {
    pub store: Vec<u32>,
    pub work: Vec<u32>,
}

impl Lent {
    /// The store of the empty set, as the library makes it; the peer makes the same.
    pub fn formatted(geometry: Geometry) -> Lent {
        let [head, ratio, levels] = geometry.words();
        let mut store = vec![0; geometry.store_words()];
        let mut same = store.clone();
        let ours = library::format(&mut store, head, ratio, levels);
        let peers = peer::format(&mut same, head, ratio, levels);
        assert!(
            ours == 0 && peers == 0 && store == same,
            "{geometry}: format"
        );
        let work = vec![0; geometry.work_words()];
        Lent { store, work }
    }
}
