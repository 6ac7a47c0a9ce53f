//! What one instruction does to the stack pointer, and where it goes on.

use crate::disassembly::Instruction;
use crate::registers::{distance, named, STACK};
use crate::relocation::number;

/// Where an instruction goes on, and with which stack pointer.
#[derive(Debug, PartialEq, Eq)]
pub enum Effect {
    /// To the next instruction, with the stack pointer lower by these bytes.
    Lowers(i64),
    /// To a function, and then to the next instruction.
    Calls,
    /// To another place.
    Jumps,
    /// To another place or to the next instruction.
    Branches,
    /// Back to the caller.
    Returns,
    /// Nowhere.
    Traps,
}

/// The bytes that a push or a call puts on the stack.
pub const WORD: i64 = 8;

/// The jumps that depend on a condition.
const CONDITIONS: [&str; 18] = [
    "ja", "jae", "jb", "jbe", "je", "jne", "jg", "jge", "jl", "jle", "jo", "jno", "jp", "jnp",
    "js", "jns", "jrcxz", "jecxz",
];

/// The beginnings of the mnemonics that touch the stack pointer by their operands alone, if at all,
/// and go on to the next instruction.
const PLAIN: [&str; 41] = [
    "mov", "cmov", "set", "nop", "add", "sub", "adc", "sbb", "and", "or", "xor", "not", "neg",
    "inc", "dec", "shl", "shr", "sal", "sar", "rol", "ror", "imul", "mul", "idiv", "div", "cmp",
    "test", "xchg", "bt", "bs", "tzcnt", "lzcnt", "popcnt", "cltq", "cqto", "cltd", "cwtl", "stos",
    "unpck", "shuf", "endbr64",
];

/// What an instruction does to the stack pointer.
pub fn effect(instruction: &Instruction) -> Result<Effect, String> {
    let mnemonic = instruction.mnemonic.as_str();
    match mnemonic {
        "call" => return Ok(Effect::Calls),
        "jmp" => return Ok(Effect::Jumps),
        "ret" if instruction.operands.is_empty() => return Ok(Effect::Returns),
        "ud2" => return Ok(Effect::Traps),
        _ if CONDITIONS.contains(&mnemonic) => return Ok(Effect::Branches),
        _ => {}
    }
    if instruction.operands.iter().any(|operand| is_stack(operand)) {
        return moved(instruction);
    }
    match mnemonic {
        "push" if is_whole(instruction) => Ok(Effect::Lowers(WORD)),
        "pop" if is_whole(instruction) => Ok(Effect::Lowers(-WORD)),
        "lea" => Ok(Effect::Lowers(0)),
        _ if is_plain(mnemonic) => Ok(Effect::Lowers(0)),
        _ => Err("an unknown instruction".to_string()),
    }
}

/// Whether an instruction of this mnemonic is one that touches the stack pointer by its operands
/// alone. Those of the vector registers that begin with a p are.
fn is_plain(mnemonic: &str) -> bool {
    let stack = mnemonic.starts_with("push") || mnemonic.starts_with("pop");
    let known = PLAIN.iter().any(|start| mnemonic.starts_with(start));
    known || mnemonic.starts_with('p') && !stack
}

/// Whether an instruction pushes or pops a whole word: no operand of it is a part of a register.
fn is_whole(instruction: &Instruction) -> bool {
    let mut operands = instruction.operands.iter();
    operands.all(|operand| named(operand).is_none_or(|whole| whole == operand))
}

/// Whether an operand is the stack pointer itself, or a part of it.
fn is_stack(operand: &str) -> bool {
    named(operand) == Some(STACK)
}

/// What an instruction does that has the stack pointer itself as an operand.
fn moved(instruction: &Instruction) -> Result<Effect, String> {
    let unknown = || "uses the stack pointer in a way that is not known here".to_string();
    let [from, to] = &instruction.operands[..] else {
        return Err(unknown());
    };
    match instruction.mnemonic.as_str() {
        "sub" if to == STACK => Ok(Effect::Lowers(constant(from).ok_or_else(unknown)?)),
        "add" if to == STACK => Ok(Effect::Lowers(-constant(from).ok_or_else(unknown)?)),
        "lea" if to == STACK => match from.split_once('(') {
            Some((before, "%rsp)")) => Ok(Effect::Lowers(-distance(before).ok_or_else(unknown)?)),
            _ => Err(unknown()),
        },
        "mov" if from == STACK && !is_stack(to) => Ok(Effect::Lowers(0)),
        _ => Err(unknown()),
    }
}

/// The number of an operand that is a constant, such as `$0x8`.
fn constant(operand: &str) -> Option<i64> {
    number(operand.strip_prefix("$0x")?).ok()
}
