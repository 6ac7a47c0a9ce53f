//! A static library as its machine code has it, and where its instructions go.

use crate::disassembly::{functions, Function, Instruction};
use crate::relocation::{relocations, Place, Relocations};

/// The functions of a library, and the relocations of its sections.
pub struct Library {
    pub functions: Vec<Function>,
    pub relocations: Relocations,
}

/// Where a call or a jump goes.
#[derive(Debug, PartialEq, Eq)]
pub enum Target {
    /// To an offset in the section of its own function, and inside that function.
    Inside(i64),
    /// To the start of one of the library's functions, by its number.
    Function(usize),
    /// To a function that the library does not have.
    Outside(String),
}

impl Library {
    /// A library from what `objdump -d -r` and `objdump -r` print of it.
    pub fn read(code: &str, records: &str) -> Result<Library, String> {
        Ok(Library {
            functions: functions(code)?,
            relocations: relocations(records)?,
        })
    }

    /// The number of the function of this name.
    pub fn function(&self, name: &str) -> Option<usize> {
        let mut names = self.functions.iter();
        names.position(|function| function.name == name)
    }

    /// Where a direct call goes.
    pub fn callee(&self, from: &Function, call: &Instruction) -> Result<Target, String> {
        match self.place(from, call)? {
            Ok(place) => self.start(&place),
            Err(outside) => Ok(Target::Outside(outside)),
        }
    }

    /// Where a direct jump goes.
    pub fn landing(&self, from: &Function, jump: &Instruction) -> Result<Target, String> {
        match self.place(from, jump)? {
            Ok(place) if from.holds(&place) => Ok(Target::Inside(place.offset)),
            Ok(place) => self.start(&place),
            Err(outside) => Ok(Target::Outside(outside)),
        }
    }

    /// The place that a direct call or jump goes to, or the name of what the library does not have.
    fn place(&self, from: &Function, at: &Instruction) -> Result<Result<Place, String>, String> {
        let Some(relocation) = &at.relocation else {
            let target = at
                .operands
                .first()
                .and_then(|first| first.split(' ').next());
            let offset = target.and_then(|digits| i64::from_str_radix(digits, 16).ok());
            let section = from.section.clone();
            return match offset {
                Some(offset) => Ok(Ok(Place { section, offset })),
                None => Err("its target is not known here".to_string()),
            };
        };
        let far = relocation.distance();
        let far = far.ok_or(format!("{} is not known here", relocation.kind))?;
        let symbol = &relocation.symbol;
        if let Some(at) = self.function(symbol) {
            let Function { section, start, .. } = &self.functions[at];
            let (section, offset) = (section.clone(), start + far);
            return Ok(Ok(Place { section, offset }));
        }
        if symbol.starts_with('.') {
            let (section, offset) = (symbol.clone(), far);
            return Ok(Ok(Place { section, offset }));
        }
        match far {
            0 => Ok(Err(symbol.clone())),
            _ => Err(format!("goes into the middle of {symbol}")),
        }
    }

    /// The function that starts at a place.
    fn start(&self, place: &Place) -> Result<Target, String> {
        let at = self.functions.iter().position(|function| {
            function.section == place.section && function.start == place.offset
        });
        at.map(Target::Function).ok_or(format!(
            "no function starts at {:#x} of {}",
            place.offset, place.section
        ))
    }
}

impl Function {
    /// Whether a place is one of this function's instructions.
    pub fn holds(&self, place: &Place) -> bool {
        place.section == self.section && self.number(place.offset).is_some()
    }

    /// The number of the instruction at an offset of the function's section.
    pub fn number(&self, offset: i64) -> Option<usize> {
        let at = self
            .instructions
            .binary_search_by_key(&offset, |instruction| instruction.at);
        at.ok()
    }
}
