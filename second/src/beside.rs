//! Another program beside the right build: the same calls on the same words, and every word of
//! store, work area, list and `out` compared after every call.

use std::collections::BTreeMap;

use crate::call::{numbered, perform, Call};
use crate::calls::{self, Reply, WHY_VALUES};
use crate::damage::damaged;
use crate::generate::Caller;
use crate::geometry::{Geometry, HEAD_SLOTS, ONES};
use crate::random::Random;
use crate::slot::Pair;
use crate::variant::Variant;
use crate::vectors::Case;

/// The H, k and l of a geometry, in range or not.
pub type Numbers = [u32; 3];

/// What a call tells, as the C interface has it, and what it leaves in the work area and the list.
#[derive(Clone, Debug, PartialEq, Eq)]
pub struct Told {
    pub number: u32,
    pub out: Vec<u32>,
    pub work: Vec<u32>,
    pub slice: Vec<u32>,
}

/// A program that answers calls. Before a call, word j of a work area is j, and of a list 1000 + j.
pub trait Program {
    /// Makes the store of the empty set, and gives the reply number.
    fn format(&self, store: &mut [u32], numbers: Numbers) -> u32;

    /// Makes a call.
    fn perform(&self, store: &mut [u32], call: Call) -> Told;

    /// The words of a store and of a work area, zeros outside the ranges.
    fn words(&self, numbers: Numbers) -> [u32; 2];
}

impl Program for Variant {
    /// Formats by this build's rules.
    fn format(&self, store: &mut [u32], [head, ratio, levels]: Numbers) -> u32 {
        calls::format(*self, store, head, ratio, levels).number
    }

    /// Makes a call by this build's rules.
    fn perform(&self, store: &mut [u32], call: Call) -> Told {
        let outcome = perform(*self, store, call);
        let mut out = outcome.reply.values;
        out.resize(out_words(call), 0);
        Told {
            number: outcome.reply.number,
            out,
            work: outcome.work,
            slice: outcome.slice,
        }
    }

    /// The geometry's own words.
    fn words(&self, [head, ratio, levels]: Numbers) -> [u32; 2] {
        Geometry::new(head, ratio, levels).map_or([0; 2], |geometry| {
            [geometry.store_words() as u32, geometry.work_words() as u32]
        })
    }
}

/// The words of a call's `out` in the C interface.
pub fn out_words(call: Call) -> usize {
    match call {
        Call::Put(..) | Call::Drop(..) => 7,
        Call::Why(_) => WHY_VALUES,
        Call::Ask(_) | Call::List(..) | Call::Check => 3,
    }
}

/// Where another program differs: the call that shows it, and what is other than wanted.
#[derive(Clone, Debug)]
pub struct Difference {
    pub shown_by: String,
    pub what: String,
}

/// A program beside the right build, with the calls compared so far, the whys among them, and how often
/// each reply number was met but by a format.
pub struct Beside<'a, P> {
    program: &'a P,
    pub calls: usize,
    pub whys: usize,
    pub replies: BTreeMap<u32, usize>,
}

impl<'a, P: Program> Beside<'a, P> {
    /// A comparison that has not begun.
    pub fn new(program: &'a P) -> Beside<'a, P> {
        Beside {
            program,
            calls: 0,
            whys: 0,
            replies: BTreeMap::new(),
        }
    }

    /// Compares formats and lengths for geometries in and around the ranges, on stores of right
    /// and wrong lengths.
    pub fn formats(&mut self) -> Result<(), Difference> {
        for head in (0..=66).chain([1 << 31, ONES]) {
            for ratio in (0..=9).chain([1 << 31, ONES]) {
                for levels in (0..=5).chain([1 << 31, ONES]) {
                    self.format_words([head, ratio, levels])?;
                }
            }
        }
        Ok(())
    }

    /// Compares one geometry's lengths, and formats of about that length.
    fn format_words(&mut self, numbers: Numbers) -> Result<(), Difference> {
        let words = self.program.words(numbers);
        let wanted = Variant::Right.words(numbers);
        self.calls += 2;
        if words != wanted {
            return Err(Difference {
                shown_by: format!("the words of {numbers:?}"),
                what: format!("given {words:?}, wanted {wanted:?}"),
            });
        }
        let length = wanted[0] as usize;
        let lengths = [length, length + 1, length.saturating_sub(1), 0, HEAD_SLOTS];
        for length in lengths {
            self.format(&mut numbered(7, length), numbers)?;
        }
        Ok(())
    }

    /// Compares a format of this store.
    fn format(&mut self, store: &mut [u32], numbers: Numbers) -> Result<(), Difference> {
        let mut right = store.to_vec();
        let number = self.program.format(store, numbers);
        let wanted = Variant::Right.format(&mut right, numbers);
        self.calls += 1;
        let what = if number == wanted {
            first_other("the store", store, &right)
        } else {
            Some(format!("reply {number}, wanted {wanted}"))
        };
        what.map_or(Ok(()), |what| {
            let shown_by = format!("format of {} words by {numbers:?}", store.len());
            Err(Difference { shown_by, what })
        })
    }

    /// Compares so many random calls on a store that is formatted first.
    pub fn sequence(
        &mut self,
        seed: u64,
        geometry: Geometry,
        calls: usize,
    ) -> Result<(), Difference> {
        let mut store = numbered(7, geometry.store_words());
        self.format(&mut store, geometry.words())?;
        let mut right = store.clone();
        let mut caller = Caller::new(seed, geometry);
        for number in 1..=calls {
            let call = caller.next_call();
            let title = || format!("call {number} of {geometry}, seed {seed}");
            let told = self.call_and_why(&mut store, &mut right, call, title)?;
            caller.learn(
                call,
                &Reply {
                    number: told.number,
                    values: told.out,
                },
            );
        }
        Ok(())
    }

    /// Compares the calls of so many damaged cases.
    pub fn damaged(&mut self, seed: u64, cases: usize) -> Result<(), Difference> {
        let mut random = Random::new(seed);
        for number in 0..cases {
            self.case(&damaged(&mut random, number), seed)?;
        }
        Ok(())
    }

    /// Compares the calls of a case.
    fn case(&mut self, case: &Case, seed: u64) -> Result<(), Difference> {
        let (mut store, mut right) = (case.store.clone(), case.store.clone());
        for (number, call) in case.calls.iter().enumerate() {
            let title = || format!("call {} of {}, seed {seed}", number + 1, case.title);
            self.call_and_why(&mut store, &mut right, *call, title)?;
        }
        Ok(())
    }

    /// Compares a call, and behind an ask, a put or a drop a why of its pair; gives what is right for
    /// the call.
    fn call_and_why(
        &mut self,
        store: &mut [u32],
        right: &mut [u32],
        call: Call,
        title: impl Fn() -> String,
    ) -> Result<Told, Difference> {
        let told = self.call(store, right, call, &title)?;
        if let Call::Ask(pair) | Call::Put(pair, _) | Call::Drop(pair, _) = call {
            let title = || format!("behind {}", title());
            self.call(store, right, Call::Why(pair), title)?;
        }
        Ok(told)
    }

    /// Makes a call on both stores, and compares all that it tells and leaves; gives what is right.
    fn call(
        &mut self,
        store: &mut [u32],
        right: &mut [u32],
        call: Call,
        title: impl Fn() -> String,
    ) -> Result<Told, Difference> {
        let told = self.program.perform(store, call);
        let wanted = Variant::Right.perform(right, call);
        self.calls += 1;
        self.whys += usize::from(matches!(call, Call::Why(_)));
        *self.replies.entry(wanted.number).or_default() += 1;
        match other(&told, &wanted).or_else(|| first_other("the store", store, right)) {
            None => Ok(wanted),
            Some(what) => Err(Difference {
                shown_by: format!("{}, {}", title(), shown(call)),
                what,
            }),
        }
    }
}

/// What differs in what a call tells and leaves, if anything does.
fn other(told: &Told, wanted: &Told) -> Option<String> {
    if told.number != wanted.number {
        let (given, wanted) = (told.number, wanted.number);
        return Some(format!("reply {given}, wanted {wanted}"));
    }
    first_other("out", &told.out, &wanted.out)
        .or_else(|| first_other("the work area", &told.work, &wanted.work))
        .or_else(|| first_other("the list", &told.slice, &wanted.slice))
}

/// The first word that differs, if one does.
fn first_other(name: &str, given: &[u32], wanted: &[u32]) -> Option<String> {
    if given == wanted {
        return None;
    }
    let at = given.iter().zip(wanted).position(|(one, two)| one != two);
    Some(match at {
        Some(at) => format!(
            "word {at} of {name} is {}, wanted {}",
            given[at], wanted[at]
        ),
        None => format!("{name} has another length"),
    })
}

/// A call in words.
fn shown(call: Call) -> String {
    let two = |pair: Pair| format!("({}, {})", pair.badge, pair.floor);
    match call {
        Call::Ask(pair) => format!("ask {}", two(pair)),
        Call::Why(pair) => format!("why {}", two(pair)),
        Call::Put(pair, _) => format!("put {}", two(pair)),
        Call::Drop(pair, _) => format!("drop {}", two(pair)),
        Call::List(first, last, _) => format!("list {} to {}", two(first), two(last)),
        Call::Check => "check".to_string(),
    }
}
