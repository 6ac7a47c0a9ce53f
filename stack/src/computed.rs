//! The deepest stack of each C call of a static library, computed from its machine code.

use std::path::Path as File;
use std::process::Command;

use crate::calls::{CALLS, PREFIX, RECURSION};
use crate::depth::{bytes, Frames, Path};
use crate::library::Library;

/// The deepest stack of a call.
pub struct Computed {
    pub name: &'static str,
    /// Below where the caller left the stack pointer, the return address included.
    pub bytes: u64,
    pub path: Path,
    /// The functions of the C library that the call may call. Their return addresses are counted, and
    /// nothing else of them.
    pub outside: Vec<String>,
}

/// The deepest stack of each call, from the archive of the static library.
pub fn computed(archive: &File) -> Result<Vec<Computed>, String> {
    let code = objdump(&["-d", "-r", "--no-show-raw-insn"], archive)?;
    let records = objdump(&["-r"], archive)?;
    depths(&Library::read(&code, &records)?)
}

/// The deepest stack of each call, from a library that has these calls and no others.
pub fn depths(library: &Library) -> Result<Vec<Computed>, String> {
    for function in &library.functions {
        let call = function.name.strip_prefix(PREFIX);
        if call.is_some_and(|call| CALLS.iter().all(|known| known.name != call)) {
            return Err(format!(
                "{} has no bound in stack/src/calls.rs",
                function.name
            ));
        }
    }
    let frames = Frames::new(library, RECURSION)?;
    let depth = |name: &'static str| {
        let function = library.function(&format!("{PREFIX}{name}"));
        let function = function.ok_or(format!("the library has no {PREFIX}{name}"))?;
        let path = frames.deepest(function)?;
        let outside = frames.outside(function);
        Ok(Computed {
            name,
            bytes: bytes(&path) as u64,
            path,
            outside: outside.into_iter().map(str::to_string).collect(),
        })
    };
    CALLS.iter().map(|call| depth(call.name)).collect()
}

/// What objdump prints of a file. One for x86-64 is needed; the environment's OBJDUMP may name it.
fn objdump(options: &[&str], archive: &File) -> Result<String, String> {
    let usual = match std::env::consts::ARCH {
        "x86_64" => "objdump",
        _ => "x86_64-linux-gnu-objdump",
    };
    let program = std::env::var("OBJDUMP").unwrap_or(usual.to_string());
    let run = Command::new(&program).args(options).arg(archive).output();
    let output = run.map_err(|e| format!("{program}: {e}"))?;
    if !output.status.success() {
        let said = String::from_utf8_lossy(&output.stderr);
        return Err(format!("{program}: {said}"));
    }
    String::from_utf8(output.stdout).map_err(|e| format!("{program}: {e}"))
}
