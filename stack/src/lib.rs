//! The deepest stack of each C call, computed from the machine code of the static library, and held
//! to its bound beside what was painted.
//!
//! Read `calls` (the calls, their bounds and how often a function may be entered again),
//! `disassembly` and `relocation` (what objdump prints), `effect` and `registers` (what one
//! instruction does), `library` (where it goes), `tables` (through which table), `flow` (a function's
//! frame), `depth` (the deepest path of calls) and `gate` (what is held to what).
//!
//! Whatever this does not know stops it with a message that names the function and the instruction:
//! a bound that rests on a guess is none.

pub mod calls;

pub mod disassembly;
pub mod relocation;

pub mod effect;
pub mod registers;

pub mod library;
pub mod tables;

pub mod flow;

pub mod depth;

pub mod computed;
pub mod gate;
