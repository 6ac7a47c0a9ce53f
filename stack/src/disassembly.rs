//! The text that `objdump -d -r` prints of a static library, read into functions and instructions.

use crate::relocation::{number, Relocation};

/// A function: its code's section, and its instructions in the order of their places.
#[derive(Debug)]
pub struct Function {
    pub name: String,
    pub section: String,
    pub start: i64,
    pub instructions: Vec<Instruction>,
}

/// An instruction as objdump prints it, in parts.
#[derive(Debug)]
pub struct Instruction {
    pub at: i64,
    pub text: String,
    pub mnemonic: String,
    pub operands: Vec<String>,
    pub relocation: Option<Relocation>,
}

/// What stands before a mnemonic without a change to what the instruction does to the stack.
const PREFIXES: [&str; 10] = [
    "data16", "cs", "ds", "es", "ss", "rep", "repz", "repnz", "lock", "notrack",
];

/// The mnemonics that older versions of objdump end with a q.
const ENDED: [&str; 5] = ["callq", "jmpq", "retq", "pushq", "popq"];

/// Reads the functions of a library that is one object for x86-64.
pub fn functions(text: &str) -> Result<Vec<Function>, String> {
    let mut reader = Reader::default();
    for line in text.lines().filter(|line| !line.trim().is_empty()) {
        reader.read(line)?;
    }
    Ok(reader.functions)
}

/// What was read so far.
#[derive(Default)]
struct Reader {
    objects: usize,
    section: String,
    functions: Vec<Function>,
}

impl Reader {
    /// Reads one line.
    fn read(&mut self, line: &str) -> Result<(), String> {
        if line.starts_with("In archive ") {
            Ok(())
        } else if let Some((_, format)) = line.split_once(":     file format ") {
            self.object(format)
        } else if let Some(section) = line.strip_prefix("Disassembly of section ") {
            self.section = section.trim_end_matches(':').to_string();
            Ok(())
        } else if line.ends_with(">:") {
            self.function(line)
        } else {
            self.part(line)
        }
    }

    /// Reads the line that an object begins with.
    fn object(&mut self, format: &str) -> Result<(), String> {
        self.objects += 1;
        if format != "elf64-x86-64" {
            return Err(format!("the library is {format}, not elf64-x86-64"));
        }
        if self.objects > 1 {
            return Err("the library has more than one object".to_string());
        }
        Ok(())
    }

    /// Reads the line that a function begins with: `0000000000000000 <name>:`.
    fn function(&mut self, line: &str) -> Result<(), String> {
        let (start, name) = line.split_once(" <").ok_or_else(|| unknown(line))?;
        self.functions.push(Function {
            name: name.trim_end_matches(">:").to_string(),
            section: self.section.clone(),
            start: number(start)?,
            instructions: Vec::new(),
        });
        Ok(())
    }

    /// Reads an instruction, `  a: sub $0x8,%rsp`, or the relocation of the one before,
    /// `  b: R_X86_64_PLT32 memset-0x4`.
    fn part(&mut self, line: &str) -> Result<(), String> {
        let (at, rest) = line.split_once(':').ok_or_else(|| unknown(line))?;
        let at = number(at.trim()).map_err(|_| unknown(line))?;
        let function = self.functions.last_mut().ok_or_else(|| unknown(line))?;
        let rest = rest.trim();
        if !rest.starts_with("R_X86_64_") {
            function.instructions.push(Instruction::read(at, rest));
            return Ok(());
        }
        let (kind, value) = rest
            .split_once(char::is_whitespace)
            .ok_or_else(|| unknown(line))?;
        let of = function.instructions.last_mut();
        of.ok_or_else(|| unknown(line))?.relocation = Some(Relocation::read(kind, value)?);
        Ok(())
    }
}

impl Instruction {
    /// An instruction from its text, without what objdump remarks behind a `#`.
    fn read(at: i64, text: &str) -> Instruction {
        let text = text.split(" #").next().unwrap_or(text).trim();
        let mut rest = text;
        while let Some((first, behind)) = rest.split_once(' ') {
            if !PREFIXES.contains(&first) {
                break;
            }
            rest = behind.trim_start();
        }
        let (mnemonic, operands) = rest.split_once(' ').unwrap_or((rest, ""));
        let ended = ENDED.contains(&mnemonic);
        let mnemonic = mnemonic
            .strip_suffix('q')
            .filter(|_| ended)
            .unwrap_or(mnemonic);
        Instruction {
            at,
            text: text.to_string(),
            mnemonic: mnemonic.to_string(),
            operands: split(operands.trim()),
            relocation: None,
        }
    }
}

/// The operands in a text: it is cut at each comma that is in no parenthesis.
fn split(text: &str) -> Vec<String> {
    let mut operands = Vec::new();
    let mut open = 0;
    let mut start = 0;
    for (at, letter) in text.char_indices() {
        match letter {
            '(' => open += 1,
            ')' => open -= 1,
            ',' if open == 0 => {
                operands.push(text[start..at].to_string());
                start = at + 1;
            }
            _ => {}
        }
    }
    if !text.is_empty() {
        operands.push(text[start..].to_string());
    }
    operands
}

/// The message of a line that is none of the known ones.
fn unknown(line: &str) -> String {
    format!("objdump printed a line that is not known here: {line}")
}
