//! The stack gate: reads the painted figures on standard input, computes each call's deepest stack
//! from the static library, prints both, and fails if one is above its bound.
//!
//!   stack_gate LIBRARY [BOUND]
//!
//! BOUND takes the place of every call's own bound: a test of the gate itself.

use std::path::Path;
use std::process::ExitCode;

use stack_gate::computed::computed;
use stack_gate::gate::{faults, painted, table};

/// Runs the gate.
fn main() -> ExitCode {
    match run() {
        Ok(faults) if faults.is_empty() => ExitCode::SUCCESS,
        Ok(faults) => {
            faults.iter().for_each(|fault| eprintln!("stack: {fault}"));
            ExitCode::FAILURE
        }
        Err(message) => {
            eprintln!("stack: {message}");
            ExitCode::from(2)
        }
    }
}

/// Prints the figures and gives what is wrong with them.
fn run() -> Result<Vec<String>, String> {
    let arguments: Vec<String> = std::env::args().skip(1).collect();
    let (library, bound) = match &arguments[..] {
        [library] => (library, None),
        [library, bound] => (
            library,
            Some(bound.parse().map_err(|e| format!("{bound}: {e}"))?),
        ),
        _ => return Err("needs the static library, and perhaps a bound".to_string()),
    };
    let lines = std::io::read_to_string(std::io::stdin()).map_err(|e| e.to_string())?;
    let painted = painted(&lines)?;
    let computed = computed(Path::new(library))?;
    print!("{}", table(&computed, &painted));
    Ok(faults(&computed, &painted, bound))
}
