//! What the linker fills in: a symbol and a number to add, at a place of a section.

use std::collections::BTreeMap;

/// A relocation, as objdump prints it.
#[derive(Clone, Debug, PartialEq, Eq)]
pub struct Relocation {
    pub kind: String,
    pub symbol: String,
    pub addend: i64,
}

/// A place: a section, and how many bytes after its start.
#[derive(Clone, Debug, PartialEq, Eq, PartialOrd, Ord)]
pub struct Place {
    pub section: String,
    pub offset: i64,
}

/// The relocations of each section, by their offsets.
pub type Relocations = BTreeMap<String, BTreeMap<i64, Relocation>>;

/// The bytes from the place of a relative number to the end of the instruction that it is in.
const NUMBER: i64 = 4;

impl Relocation {
    /// A relocation of a kind, from a value such as `memset-0x4`.
    pub fn read(kind: &str, value: &str) -> Result<Relocation, String> {
        let value = value.trim();
        let (symbol, addend) = match (value.rfind("+0x"), value.rfind("-0x")) {
            (Some(at), _) => (&value[..at], number(&value[at + 3..])?),
            (None, Some(at)) => (&value[..at], -number(&value[at + 3..])?),
            (None, None) => (value, 0),
        };
        Ok(Relocation {
            kind: kind.to_string(),
            symbol: symbol.to_string(),
            addend,
        })
    }

    /// How many bytes after its symbol the place is that an instruction names by its distance from
    /// the instruction's end; none if the relocation is of another kind.
    pub fn distance(&self) -> Option<i64> {
        let relative = ["R_X86_64_PLT32", "R_X86_64_PC32"].contains(&self.kind.as_str());
        relative.then_some(self.addend + NUMBER)
    }
}

/// Reads what `objdump -r` prints: for each section a heading, and a line for each relocation.
pub fn relocations(text: &str) -> Result<Relocations, String> {
    let mut all = Relocations::new();
    let mut section = "";
    for line in text.lines() {
        if let Some(rest) = line.strip_prefix("RELOCATION RECORDS FOR [") {
            section = rest.trim_end().trim_end_matches("]:");
        } else if let Some((offset, rest)) = line.split_once(" R_X86_64_") {
            let (kind, value) = rest.split_once(' ').ok_or(format!("not known: {line}"))?;
            let relocation = Relocation::read(&format!("R_X86_64_{kind}"), value)?;
            let section = all.entry(section.to_string()).or_default();
            section.insert(number(offset)?, relocation);
        }
    }
    Ok(all)
}

/// The number of some hexadecimal digits; 64 bits with the highest set are a negative one.
pub fn number(digits: &str) -> Result<i64, String> {
    let bits = u64::from_str_radix(digits, 16);
    bits.map(|bits| bits as i64)
        .map_err(|_| format!("{digits}: not a hexadecimal number"))
}
