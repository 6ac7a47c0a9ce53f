//! Jump tables: the targets of a `jmp` through a register.
//!
//! Such a jump is taken for one inside its function only where the relocations prove it: the register
//! holds a table's start plus an entry of the same table, and every entry of that table leads to an
//! instruction of the function.

use crate::disassembly::{Function, Instruction};
use crate::library::Library;
use crate::registers::{Registers, Value};
use crate::relocation::{Place, Relocation};

/// The bytes of an entry.
const ENTRY: i64 = 4;

/// The offsets in the function's section that a jump through a register may go to.
pub fn targets(
    library: &Library,
    function: &Function,
    jump: &Instruction,
    known: &Registers,
) -> Result<Vec<i64>, String> {
    let through = jump
        .operands
        .first()
        .and_then(|first| first.strip_prefix('*'));
    let value = through.and_then(|register| known.value(register, 0));
    let Some(Value::Target(table)) = value else {
        return Err("an indirect jump that no table is known of".to_string());
    };
    let entries = library.relocations.get(&table.section);
    let end = end(library, &table);
    let mut found = Vec::new();
    for number in 0.. {
        let at = table.offset + ENTRY * number;
        let entry = entries.and_then(|entries| entries.get(&at));
        match entry.filter(|_| end.is_none_or(|end| at < end)) {
            Some(entry) => found.push(target(function, entry, ENTRY * number)?),
            None => break,
        }
    }
    if found.is_empty() {
        return Err(format!("the table in {} has no entries", table.section));
    }
    Ok(found)
}

/// Where an entry leads that stands this many bytes behind the start of its table. It holds the
/// distance of its target from itself, and is added to the table's start.
fn target(function: &Function, entry: &Relocation, behind: i64) -> Result<i64, String> {
    let place = Place {
        section: entry.symbol.clone(),
        offset: entry.addend - behind,
    };
    if entry.kind != "R_X86_64_PC32" || !function.holds(&place) {
        let Place { section, offset } = place;
        return Err(format!(
            "its table leads out of the function: {section} {offset:#x}"
        ));
    }
    Ok(place.offset)
}

/// Where the next thing after a table starts that some instruction names.
fn end(library: &Library, table: &Place) -> Option<i64> {
    let instructions = library.functions.iter().flat_map(|one| &one.instructions);
    let named = instructions
        .filter_map(|instruction| instruction.relocation.as_ref())
        .filter(|relocation| relocation.symbol == table.section)
        .filter_map(Relocation::distance);
    named.filter(|offset| *offset > table.offset).min()
}
