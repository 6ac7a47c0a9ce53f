//! Scripts for the replay program: stores and calls as 32-bit numbers, and the lines that it
//! must print.
//!
//! ```text
//! 1 n (count word) ..            a store, as n runs of one word each
//! 2 badge floor                  ask
//! 3                              check
//! 4 badge floor badge floor n    list into n words, of which word j is 1000 + j
//! 5 badge floor n                put, with a work area of n words, of which word j is j
//! 6 badge floor n                drop, likewise
//! 7 H k l                        format
//! 8 badge floor                  why
//! ```
//!
//! Each call prints a line: the reply's number and its values, as many as the C interface has (seven
//! after a put or drop, 22 after a why, three after an ask, list or check, none after a format; zeros
//! for those that the reply does not give; the first three of a refusal are its place), after a list
//! its words, and after a put, drop or format the words that it changed: ` 8=2 12=0*3` says that word
//! 8 is 2 now, and that words 12 to 14 are 0.

use crate::beside::out_words;
use crate::call::{numbered, perform, Call};
use crate::calls;
use crate::damage::damaged;
use crate::generate::formatted;
use crate::random::Random;
use crate::reading;
use crate::slot::Pair;
use crate::variant::Variant;
use crate::vectors::{self, Case};

/// The words that the replay program has for a store, a work area or a list.
pub const MOST_WORDS: usize = 4096;

/// The longest damaged store that a script has beside those of the vectors, which keeps it small.
const SHORT_STORE: usize = 260;

/// The word of a store before it is formatted.
const UNFORMATTED: u32 = 7;

/// A script's numbers, and the lines that a build prints.
#[derive(Clone, Debug)]
pub struct Script {
    variant: Variant,
    pub numbers: Vec<u32>,
    pub lines: Vec<String>,
}

impl Script {
    /// The script of these vectors, those left out that lend more words than the replay program has,
    /// and of `cases` damaged cases from a seed, those with a long store left out.
    pub fn of(variant: Variant, texts: &[String], seed: u64, cases: usize) -> Script {
        let mut script = Script {
            variant,
            numbers: Vec::new(),
            lines: Vec::new(),
        };
        let cases_of_vectors = texts.iter().flat_map(|text| vectors::cases(text));
        for case in cases_of_vectors.filter(|case| most_lent(case) <= MOST_WORDS) {
            script.add(&case);
        }
        let mut random = Random::new(seed);
        for number in 0..cases {
            let case = damaged(&mut random, number);
            if case.store.len() <= SHORT_STORE {
                script.add_with_format(&case);
            }
        }
        script
    }

    /// Adds a case, and at its end a format of its store by the numbers that stand there.
    fn add_with_format(&mut self, case: &Case) {
        let mut store = self.add(case);
        let numbers = [0, 1, 2].map(|at| store.get(at).copied().unwrap_or(0));
        self.format(&mut store, numbers);
    }

    /// Adds a case: its store, made by a format if that gives it, and its calls. Gives the store
    /// after them.
    fn add(&mut self, case: &Case) -> Vec<u32> {
        let mut store = case.store.clone();
        match reading::geometry(&store).filter(|g| formatted(*g) == store) {
            Some(geometry) => {
                store.fill(UNFORMATTED);
                self.store(&store);
                self.format(&mut store, geometry.words());
            }
            None => self.store(&store),
        }
        for call in &case.calls {
            self.call(&mut store, *call);
        }
        store
    }

    /// Adds a store.
    fn store(&mut self, words: &[u32]) {
        assert!(
            words.len() <= MOST_WORDS,
            "a store of {} words",
            words.len()
        );
        let runs: Vec<&[u32]> = words.chunk_by(|left, right| left == right).collect();
        self.numbers.extend([1, runs.len() as u32]);
        for run in runs {
            self.numbers.extend([run.len() as u32, run[0]]);
        }
    }

    /// Adds a call on this store.
    fn call(&mut self, store: &mut [u32], call: Call) {
        self.numbers.extend(numbers(call));
        let before = store.to_vec();
        let outcome = perform(self.variant, store, call);
        let edits = matches!(call, Call::Put(..) | Call::Drop(..));
        let mut told = vec![outcome.reply.number];
        told.extend(outcome.reply.values);
        told.resize(1 + out_words(call), 0);
        told.extend(outcome.slice);
        let items: Vec<String> = told.iter().map(u32::to_string).collect();
        let mut line = items.join(" ");
        if edits {
            let fresh = numbered(0, outcome.work.len());
            line += &format!(" store{}", changes(&before, store));
            line += &format!(" work{}", changes(&fresh, &outcome.work));
        }
        self.lines.push(line);
    }

    /// Adds a format of this store.
    fn format(&mut self, store: &mut [u32], [head, ratio, levels]: [u32; 3]) {
        self.numbers.extend([7, head, ratio, levels]);
        let before = store.to_vec();
        let reply = calls::format(self.variant, store, head, ratio, levels);
        let changed = changes(&before, store);
        self.lines.push(format!("{} store{changed}", reply.number));
    }
}

/// The most words that a case lends for one thing: its store, a work area or a list.
fn most_lent(case: &Case) -> usize {
    let beside_the_store = case.calls.iter().map(|call| match call {
        Call::Put(_, length) | Call::Drop(_, length) | Call::List(_, _, length) => *length,
        Call::Ask(_) | Call::Why(_) | Call::Check => 0,
    });
    beside_the_store.fold(case.store.len(), usize::max)
}

/// The numbers of a call.
fn numbers(call: Call) -> Vec<u32> {
    let words = |length: usize| {
        assert!(length <= MOST_WORDS, "{call:?}");
        length as u32
    };
    let two = |pair: Pair| [pair.badge, pair.floor];
    match call {
        Call::Ask(pair) => [&[2][..], &two(pair)].concat(),
        Call::Why(pair) => [&[8][..], &two(pair)].concat(),
        Call::Check => vec![3],
        Call::List(first, last, length) => {
            [&[4][..], &two(first), &two(last), &[words(length)]].concat()
        }
        Call::Put(pair, length) => [&[5][..], &two(pair), &[words(length)]].concat(),
        Call::Drop(pair, length) => [&[6][..], &two(pair), &[words(length)]].concat(),
    }
}

/// The words that are other than before, a run of one word as ` 12=0*3`.
fn changes(before: &[u32], after: &[u32]) -> String {
    let changed: Vec<usize> = (0..after.len())
        .filter(|at| before[*at] != after[*at])
        .collect();
    let runs = changed.chunk_by(|at, next| at + 1 == *next && after[*at] == after[*next]);
    runs.map(|run| match run.len() {
        1 => format!(" {}={}", run[0], after[run[0]]),
        count => format!(" {}={}*{count}", run[0], after[run[0]]),
    })
    .collect()
}
