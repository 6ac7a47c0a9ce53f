//! The peer keeps the whole contract: it is compared with the second program, word by word.

use bench::peer;
use second::call::{numbered, perform, Call};
use second::damage::damaged;
use second::generate::{formatted, sequence};
use second::geometry::Geometry;
use second::random::Random;
use second::variant::Variant;
use second::vectors::Case;

/// What the peer answers to a call, with every lent word afterwards.
fn peer_answer(store: &mut [u32], call: Call) -> (u32, Vec<u32>, Vec<u32>, Vec<u32>) {
    let (mut work, mut slice) = (Vec::new(), Vec::new());
    let mut out = vec![7; 7];
    let number = match call {
        // The peer has no why. Its ask gives the number, the place of a refusal, and the first two
        // values of an accepted one.
        Call::Ask(pair) | Call::Why(pair) => {
            out.truncate(3);
            let three = out.first_chunk_mut().expect("three");
            let number = peer::ask(store, pair.badge, pair.floor, three);
            if number == 0 && matches!(call, Call::Why(_)) {
                out.truncate(2);
            }
            number
        }
        Call::Put(pair, length) => {
            work = numbered(0, length);
            let out = out.first_chunk_mut().expect("seven");
            peer::put(store, &mut work, pair.badge, pair.floor, out)
        }
        Call::Drop(pair, length) => {
            work = numbered(0, length);
            let out = out.first_chunk_mut().expect("seven");
            peer::drop(store, &mut work, pair.badge, pair.floor, out)
        }
        Call::List(first, last, length) => {
            out.truncate(3);
            slice = numbered(1000, length);
            let out = out.first_chunk_mut().expect("three");
            let two = |pair: second::slot::Pair| (pair.badge, pair.floor);
            peer::list(store, two(first), two(last), &mut slice, out)
        }
        Call::Check => {
            out.truncate(3);
            peer::check(store, out.first_chunk_mut().expect("three"))
        }
    };
    (number, out, work, slice)
}

/// Makes a case's calls by the peer and by the second program, and compares every word.
fn compare(case: &Case) {
    let (mut ours, mut theirs) = (case.store.clone(), case.store.clone());
    for call in &case.calls {
        let (number, out, work, slice) = peer_answer(&mut ours, *call);
        let outcome = perform(Variant::Right, &mut theirs, *call);
        let mut values = outcome.reply.values.clone();
        values.resize(out.len(), 0);
        let said = (number, out, work, slice);
        let wanted = (outcome.reply.number, values, outcome.work, outcome.slice);
        assert_eq!(said, wanted, "{}: {call:?}", case.title);
        assert!(ours == theirs, "{}: {call:?}: other words", case.title);
    }
}

#[test]
fn on_sequences() {
    let geometries = [
        "1,2,2", "1,2,4", "4,2,3", "21,2,2", "10,4,3", "16,4,3", "2,3,4",
    ];
    for (number, text) in geometries.iter().enumerate() {
        let geometry: Geometry = text.parse().expect("a geometry");
        for seed in 0..6 {
            compare(&sequence(seed, number, geometry, 4000));
        }
    }
}

#[test]
fn on_damaged_stores() {
    let mut random = Random::new(11);
    for number in 0..30_000 {
        compare(&damaged(&mut random, number));
    }
}

#[test]
fn on_formatting() {
    for head in 0..=65 {
        for (ratio, levels) in [(1, 2), (2, 2), (8, 4), (9, 2), (3, 1), (3, 3), (3, 5)] {
            let geometry = Geometry::new(head, ratio, levels);
            let length = geometry.map_or(100, |geometry| geometry.store_words());
            let mut store = numbered(0, length);
            let number = peer::format(&mut store, head, ratio, levels);
            assert_eq!(number, u32::from(geometry.is_none()));
            assert!(store == geometry.map_or(numbered(0, length), formatted));
        }
    }
}
