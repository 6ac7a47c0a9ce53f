//! What is known of the registers: those that hold a place on the stack, and those on the way through
//! a jump table.

use std::collections::BTreeMap;

use crate::disassembly::Instruction;
use crate::relocation::{number, Place};

/// The stack pointer.
pub const STACK: &str = "%rsp";

/// What a register holds.
#[derive(Clone, Debug, PartialEq, Eq)]
pub enum Value {
    /// A place on the stack, so many bytes below where the function's caller left it.
    Stack(i64),
    /// Where a table begins.
    Table(Place),
    /// An entry of a table: how far its target is from the table.
    Entry(Place),
    /// A target of a table.
    Target(Place),
}

/// The registers of which something is known.
#[derive(Clone, Debug, Default, PartialEq, Eq)]
pub struct Registers {
    values: BTreeMap<&'static str, Value>,
}

/// A register's names: the whole, then its parts.
const NAMES: [[&str; 5]; 16] = [
    ["%rax", "%eax", "%ax", "%al", "%ah"],
    ["%rbx", "%ebx", "%bx", "%bl", "%bh"],
    ["%rcx", "%ecx", "%cx", "%cl", "%ch"],
    ["%rdx", "%edx", "%dx", "%dl", "%dh"],
    ["%rsi", "%esi", "%si", "%sil", ""],
    ["%rdi", "%edi", "%di", "%dil", ""],
    ["%rbp", "%ebp", "%bp", "%bpl", ""],
    [STACK, "%esp", "%sp", "%spl", ""],
    ["%r8", "%r8d", "%r8w", "%r8b", ""],
    ["%r9", "%r9d", "%r9w", "%r9b", ""],
    ["%r10", "%r10d", "%r10w", "%r10b", ""],
    ["%r11", "%r11d", "%r11w", "%r11b", ""],
    ["%r12", "%r12d", "%r12w", "%r12b", ""],
    ["%r13", "%r13d", "%r13w", "%r13b", ""],
    ["%r14", "%r14d", "%r14w", "%r14b", ""],
    ["%r15", "%r15d", "%r15w", "%r15b", ""],
];

/// The registers that a call leaves as they were.
const KEPT: [&str; 6] = ["%rbx", "%rbp", "%r12", "%r13", "%r14", "%r15"];

/// The beginnings of the mnemonics that write more than their last operand.
const WIDE: [&str; 9] = [
    "xchg", "cmpxchg", "mul", "div", "idiv", "cltq", "cqto", "cltd", "cwtl",
];

/// The whole register that an operand is, or is a part of.
pub fn named(operand: &str) -> Option<&'static str> {
    let names = NAMES.iter().find(|names| names.contains(&operand));
    names.filter(|_| !operand.is_empty()).map(|names| names[0])
}

/// A distance that stands before a parenthesis, such as `-0x8`; nothing stands for 0.
pub fn distance(text: &str) -> Option<i64> {
    match text.strip_prefix('-') {
        _ if text.is_empty() => Some(0),
        Some(rest) => number(rest.strip_prefix("0x")?).ok().map(|far| -far),
        None => number(text.strip_prefix("0x")?).ok(),
    }
}

impl Registers {
    /// What is known of an operand that is a whole register, the stack pointer being this deep.
    pub fn value(&self, operand: &str, depth: i64) -> Option<Value> {
        if operand == STACK {
            return Some(Value::Stack(depth));
        }
        self.values.get(operand).cloned()
    }

    /// What is known after an instruction, the stack pointer before it being this deep.
    pub fn step(&mut self, instruction: &Instruction, depth: i64) {
        let made = self.made(instruction, depth);
        self.forget(instruction);
        let to = instruction.operands.last().and_then(|last| named(last));
        if let (Some(value), Some(to)) = (made, to) {
            self.values.insert(to, value);
        }
    }

    /// Keeps what others know too; tells whether anything was lost.
    pub fn meet(&mut self, others: &Registers) -> bool {
        let before = self.values.len();
        self.values
            .retain(|register, value| others.values.get(register) == Some(value));
        self.values.len() < before
    }

    /// What an instruction puts into its last operand.
    fn made(&self, instruction: &Instruction, depth: i64) -> Option<Value> {
        let [from, to] = &instruction.operands[..] else {
            return None;
        };
        match instruction.mnemonic.as_str() {
            "mov" => self.value(from, depth),
            "lea" => self.address(instruction, from, depth),
            "movslq" => {
                let (before, inside) = from.split_once('(')?;
                let base = inside.strip_suffix(",4)")?.split(',').next()?;
                match self.value(base, depth)? {
                    Value::Table(table) if before.is_empty() => Some(Value::Entry(table)),
                    _ => None,
                }
            }
            "add" => match (self.value(from, depth)?, self.value(to, depth)?) {
                (Value::Table(table), Value::Entry(of)) if table == of => Some(Value::Target(of)),
                (Value::Entry(of), Value::Table(table)) if table == of => Some(Value::Target(of)),
                _ => None,
            },
            _ => None,
        }
    }

    /// The address that a `lea` takes: of a place on the stack, or of what a relocation names.
    fn address(&self, instruction: &Instruction, from: &str, depth: i64) -> Option<Value> {
        let (before, inside) = from.split_once('(')?;
        let base = inside.strip_suffix(')')?;
        let far = distance(before)?;
        if base == "%rip" {
            let relocation = instruction.relocation.as_ref()?;
            return Some(Value::Table(Place {
                section: relocation.symbol.clone(),
                offset: relocation.distance()? + far,
            }));
        }
        match self.value(base, depth)? {
            Value::Stack(depth) => Some(Value::Stack(depth - far)),
            _ => None,
        }
    }

    /// Forgets what an instruction may write.
    fn forget(&mut self, instruction: &Instruction) {
        let mnemonic = instruction.mnemonic.as_str();
        let operands = &instruction.operands;
        let wide = WIDE.iter().any(|start| mnemonic.starts_with(start))
            || mnemonic.starts_with("imul") && operands.len() == 1
            || operands.iter().any(|operand| operand.contains("%es:"));
        if mnemonic == "call" {
            self.values.retain(|register, _| KEPT.contains(register));
        } else if wide {
            self.values.clear();
        } else if let Some(last) = operands.last().and_then(|last| named(last)) {
            self.values.remove(last);
        }
    }
}
