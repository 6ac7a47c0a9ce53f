//! Small libraries, as objdump prints them.

use stack_gate::library::Library;

/// A library of functions, each in a section of its own, that starts at offset 0. An instruction is
/// given by its text. Each is one byte long here, so that the offset of an instruction is its number,
/// and what is behind ` @ ` is its relocation.
pub fn library(functions: &[(&str, &[&str])]) -> Library {
    with_tables(functions, "")
}

/// Such a library with the relocations of its tables, as `objdump -r` prints them.
pub fn with_tables(functions: &[(&str, &[&str])], tables: &str) -> Library {
    let mut text = "In archive a.a:\n\na.o:     file format elf64-x86-64\n\n".to_string();
    for (name, instructions) in functions {
        text += &format!(
            "\nDisassembly of section .text.{name}:\n\n{:016x} <{name}>:\n",
            0
        );
        for (at, instruction) in instructions.iter().enumerate() {
            let (instruction, relocation) = match instruction.split_once(" @ ") {
                Some((instruction, value)) => (instruction, Some(value)),
                None => (*instruction, None),
            };
            text += &format!(" {at:3x}:\t{instruction}\n");
            if let Some(value) = relocation {
                text += &format!("\t\t\t{at:x}: R_X86_64_PLT32\t{value}\n");
            }
        }
    }
    Library::read(&text, tables).expect("a library")
}
