//! The deepest path of calls from a function, and its bytes of stack.

use std::collections::BTreeSet;

use crate::calls::Entries;
use crate::effect::WORD;
use crate::flow::{frame, Frame};
use crate::library::{Library, Target};

/// The frames of all functions of a library, and what bounds those that call themselves.
pub struct Frames<'a> {
    library: &'a Library,
    frames: Vec<Frame>,
    recursion: &'a [Entries],
}

/// A path of calls: each function, and the bytes that it adds.
pub type Path = Vec<(String, i64)>;

impl<'a> Frames<'a> {
    /// The frames of a library.
    pub fn new(library: &'a Library, recursion: &'a [Entries]) -> Result<Frames<'a>, String> {
        let functions = library.functions.iter();
        let frames = functions.map(|function| frame(library, function));
        Ok(Frames {
            library,
            frames: frames.collect::<Result<_, _>>()?,
            recursion,
        })
    }

    /// The deepest path from a function. Of a function that the library does not have, it knows the
    /// return address alone.
    pub fn deepest(&self, function: usize) -> Result<Path, String> {
        let path = self.below(function, &mut Vec::new())?;
        path.ok_or("a call that may not be entered at all".to_string())
    }

    /// The functions that the library does not have and that a function calls, over others or itself.
    pub fn outside(&self, function: usize) -> BTreeSet<&str> {
        let mut reached = BTreeSet::from([function]);
        let mut waiting = vec![function];
        let mut outside = BTreeSet::new();
        while let Some(function) = waiting.pop() {
            for call in &self.frames[function].calls {
                match &call.callee {
                    Target::Outside(name) => drop(outside.insert(name.as_str())),
                    Target::Function(callee) if reached.insert(*callee) => waiting.push(*callee),
                    _ => {}
                }
            }
        }
        outside
    }

    /// The deepest path from a function that is called at the end of a path; none if it has been
    /// entered as often as it may be.
    fn below(&self, function: usize, path: &mut Vec<usize>) -> Result<Option<Path>, String> {
        let frame = &self.frames[function];
        let mut deepest = vec![(self.name(function), frame.own)];
        let entered = path.iter().filter(|on| **on == function).count();
        if entered > 0 {
            let known = self.entries(function, path)?;
            if entered >= known.most {
                return Ok(None);
            }
            if entered >= known.calling {
                return Ok(Some(deepest));
            }
        }
        path.push(function);
        for call in &frame.calls {
            let below = match &call.callee {
                Target::Function(callee) => self.below(*callee, path)?,
                Target::Outside(name) => Some(vec![(name.clone(), WORD)]),
                Target::Inside(_) => None,
            };
            let Some(below) = below else { continue };
            if call.above + bytes(&below) > bytes(&deepest) {
                deepest = vec![(self.name(function), call.above)];
                deepest.extend(below);
            }
        }
        path.pop();
        Ok(Some(deepest))
    }

    /// How often a function is entered that is called again at the end of a path.
    fn entries(&self, function: usize, path: &[usize]) -> Result<&Entries, String> {
        let name = self.name(function);
        let known = self.recursion.iter().find(|known| known.function == name);
        known.ok_or_else(|| {
            let names = path.iter().map(|on| self.name(*on));
            let names: Vec<String> = names.skip_while(|on| *on != name).collect();
            let cycle = names.join(" calls ");
            format!("{cycle} calls {name}: how often is not known here")
        })
    }

    /// A function's name.
    fn name(&self, function: usize) -> String {
        self.library.functions[function].name.clone()
    }
}

/// The bytes of a path.
pub fn bytes(path: &Path) -> i64 {
    path.iter().map(|(_, bytes)| bytes).sum()
}
