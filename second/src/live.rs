//! The live comparison: the proved library beside this program, millions of calls; and every false
//! build in the library's place, each of which must be found.
//!
//! ```text
//! live               the library, then every false build
//! live library       the library alone
//! live builds        every false build in its place
//! live build NAME    one build in its place; Right has no difference
//! ```
//!
//! The first two need the feature `library`; without it there is no library to compare.

use std::process::ExitCode;
use std::time::Instant;

use second::beside::{Beside, Difference, Program};
use second::fault::NUMBERS;
#[cfg(feature = "library")]
use second::library::Library;
use second::variant::{Variant, FALSE_BUILDS};

/// What is printed when a command line is not understood.
const USAGE: &str = "usage: live [library | builds | build NAME]";

/// The sequences: a geometry, how many there are of it, and the calls of each. The last two have more
/// pages in a level than a byte can count.
const SEQUENCES: [(&str, u64, usize); 10] = [
    ("1,2,2", 40, 5_000),
    ("1,2,4", 40, 5_000),
    ("2,3,4", 40, 5_000),
    ("4,2,3", 60, 5_000),
    ("21,2,2", 60, 5_000),
    ("10,4,3", 40, 6_000),
    ("16,4,3", 30, 6_000),
    ("64,8,3", 2, 10_000),
    ("11,8,4", 2, 12_000),
    ("64,8,4", 1, 12_000),
];
/// The rounds of damaged stores, each with a seed of its own, and their number in a round.
const DAMAGED: (u64, usize) = (16, 10_000);
/// The fewest calls that must be compared.
const LEAST_CALLS: usize = 3_000_000;
/// The fewest calls that must tell each number of a fault, 10 to 14.
const LEAST_FAULTS: usize = 10_000;

/// Runs the command; the exit code is 1 for a difference of the library, or a false build not found.
fn main() -> ExitCode {
    let arguments: Vec<String> = std::env::args().skip(1).collect();
    let words: Vec<&str> = arguments.iter().map(String::as_str).collect();
    let right = match words[..] {
        [] => library_is_right() & builds_are_found(),
        ["library"] => library_is_right(),
        ["builds"] => builds_are_found(),
        ["build", name] => match name.parse() {
            Ok(build) => is_right::<Variant>(name, &build),
            Err(message) => return fail(&message),
        },
        _ => return fail(USAGE),
    };
    if right {
        ExitCode::SUCCESS
    } else {
        ExitCode::from(1)
    }
}

/// Says what is wrong with a command line.
fn fail(message: &str) -> ExitCode {
    eprintln!("{message}");
    ExitCode::from(2)
}

/// Whether the library has no difference.
#[cfg(feature = "library")]
fn library_is_right() -> bool {
    is_right("library", &Library)
}

/// There is no library to compare.
#[cfg(not(feature = "library"))]
fn library_is_right() -> bool {
    println!("library: NOT COMPARED, as this program was built without it");
    false
}

/// Whether a program has no difference, in as much as the comparison must show; says so, or where it
/// has one.
fn is_right<P: Program>(name: &str, program: &P) -> bool {
    let start = Instant::now();
    let mut beside = Beside::new(program);
    if let Err(difference) = compare(&mut beside) {
        println!("{name}: {}", told(&difference, beside.calls));
        return false;
    }
    println!(
        "{name}: {} calls, {} of them whys, every word the same, in {} s",
        beside.calls,
        beside.whys,
        start.elapsed().as_secs()
    );
    for (number, met) in &beside.replies {
        println!("reply {number}: {met} calls");
    }
    let met = |number| beside.replies.get(number).copied().unwrap_or(0);
    let enough =
        beside.calls >= LEAST_CALLS && NUMBERS.iter().all(|number| met(number) >= LEAST_FAULTS);
    if !enough {
        println!("{name}: TOO LITTLE COMPARED");
    }
    enough
}

/// Whether every false build is found; says which call shows each.
fn builds_are_found() -> bool {
    let mut found = 0;
    for build in FALSE_BUILDS {
        let mut beside = Beside::new(&build);
        match compare(&mut beside) {
            Err(difference) => {
                println!("{build:?}: found, {}", told(&difference, beside.calls));
                found += 1;
            }
            Ok(()) => println!("{build:?}: NOT FOUND in {} calls", beside.calls),
        }
    }
    println!("{found} of {} false builds found", FALSE_BUILDS.len());
    found == FALSE_BUILDS.len()
}

/// A difference, after so many calls.
fn told(difference: &Difference, calls: usize) -> String {
    let Difference { shown_by, what } = difference;
    format!("after {calls} calls: {shown_by}: {what}")
}

/// Compares everything: a round of damaged stores, which soon finds what tells a fault wrongly, sequences
/// of all geometries in turn, the other rounds of damage, and formats.
fn compare<P: Program>(beside: &mut Beside<P>) -> Result<(), Difference> {
    let (rounds, cases) = DAMAGED;
    beside.damaged(1, cases)?;
    let most = SEQUENCES.iter().map(|(_, sequences, _)| *sequences).max();
    for seed in 1..=most.unwrap_or(0) {
        for (text, sequences, calls) in SEQUENCES {
            if seed <= sequences {
                let geometry = text.parse().expect("a geometry in its ranges");
                beside.sequence(seed, geometry, calls)?;
            }
        }
    }
    for seed in 2..=rounds {
        beside.damaged(seed, cases)?;
    }
    beside.formats()
}
