//! A function's frame: its deepest stack by itself, and how deep it is at each call.
//!
//! The depth of the stack pointer at each instruction follows from the entry along every way through
//! the function. Where two ways meet, both must have the same depth. A pointer that is computed from
//! the address of a variable is taken to stay in that variable.

use std::collections::BTreeMap;

use crate::disassembly::{Function, Instruction};
use crate::effect::{effect, Effect, WORD};
use crate::library::{Library, Target};
use crate::registers::{distance, Registers, Value, STACK};
use crate::tables;

/// A function's stack, in bytes below where its caller left the stack pointer.
#[derive(Debug, Default, PartialEq, Eq)]
pub struct Frame {
    /// The deepest of the function itself, its return address included.
    pub own: i64,
    pub calls: Vec<Made>,
}

/// A call that a function makes, and the bytes of stack above the callee's return address.
#[derive(Debug, PartialEq, Eq)]
pub struct Made {
    pub callee: Target,
    pub above: i64,
}

/// What is known before an instruction: how deep the stack pointer is, and the registers.
#[derive(Clone)]
struct State {
    depth: i64,
    registers: Registers,
}

/// The states of the instructions that are reached, by number.
type States = BTreeMap<usize, State>;

/// The bytes below the stack pointer that a function may use by the convention of x86-64, as long as
/// it calls nothing: the red zone.
const RED_ZONE: i64 = 128;

/// The frame of a function.
pub fn frame(library: &Library, function: &Function) -> Result<Frame, String> {
    let mut frame = Frame::default();
    for (number, state) in states(library, function)? {
        let at = &function.instructions[number];
        let refused = |why| refusal(function, at, why);
        // Whatever lowers the stack pointer has a next instruction, before which it is as deep.
        let deepest = state.depth.max(touched(at, &state));
        frame.own = frame.own.max(words(deepest));
        let made = made(library, function, at, &state).map_err(refused)?;
        frame.calls.extend(made);
    }
    Ok(frame)
}

/// The state before each instruction that is reached.
fn states(library: &Library, function: &Function) -> Result<States, String> {
    let entry = State {
        depth: WORD,
        registers: Registers::default(),
    };
    let mut states = States::from([(0, entry)]);
    let mut waiting = vec![0];
    while let Some(number) = waiting.pop() {
        let Some(at) = function.instructions.get(number) else {
            return Err(format!("{}: runs past its end", function.name));
        };
        let refused = |why| refusal(function, at, why);
        let state = states[&number].clone();
        let (after, next) = step(library, function, number, state).map_err(refused)?;
        for next in next {
            if arrive(&mut states, next, &after).map_err(refused)? {
                waiting.push(next);
            }
        }
    }
    Ok(states)
}

/// The state after an instruction, and the numbers of the instructions that may come next.
fn step(
    library: &Library,
    function: &Function,
    number: usize,
    mut state: State,
) -> Result<(State, Vec<usize>), String> {
    let at = &function.instructions[number];
    let effect = effect(at)?;
    let mut next = Vec::new();
    match effect {
        Effect::Returns if state.depth != WORD => {
            return Err(format!("returns with {} bytes on the stack", state.depth))
        }
        Effect::Returns | Effect::Traps => {}
        Effect::Jumps => next = inside(library, function, at, &state)?,
        Effect::Branches => {
            next = inside(library, function, at, &state)?;
            next.push(number + 1);
        }
        Effect::Calls | Effect::Lowers(_) => next.push(number + 1),
    }
    state.registers.step(at, state.depth);
    if let Effect::Lowers(by) = effect {
        state.depth += by;
    }
    Ok((state, next))
}

/// The numbers of the instructions of its own function that a jump may go to.
fn inside(
    library: &Library,
    function: &Function,
    jump: &Instruction,
    state: &State,
) -> Result<Vec<usize>, String> {
    let offsets = if is_indirect(jump) {
        tables::targets(library, function, jump, &state.registers)?
    } else if let Target::Inside(offset) = library.landing(function, jump)? {
        vec![offset]
    } else {
        Vec::new()
    };
    let numbers = offsets.iter().map(|offset| function.number(*offset));
    numbers
        .collect::<Option<Vec<usize>>>()
        .ok_or("jumps between two instructions".to_string())
}

/// Takes over the state on a way that arrives at an instruction; tells whether that is news.
fn arrive(states: &mut States, number: usize, state: &State) -> Result<bool, String> {
    let Some(known) = states.get_mut(&number) else {
        states.insert(number, state.clone());
        return Ok(true);
    };
    if known.depth != state.depth {
        return Err(format!(
            "goes on where the stack is {} bytes deep on another way, and {} on this one",
            known.depth, state.depth
        ));
    }
    Ok(known.registers.meet(&state.registers))
}

/// The call that an instruction makes, if it makes one. A jump to another function is a call that
/// leaves its own return address to the callee.
fn made(
    library: &Library,
    function: &Function,
    at: &Instruction,
    state: &State,
) -> Result<Option<Made>, String> {
    let (callee, above) = match effect(at)? {
        Effect::Calls if is_indirect(at) => {
            return Err("an indirect call: its target is not known".to_string())
        }
        Effect::Calls => (library.callee(function, at)?, state.depth),
        Effect::Jumps | Effect::Branches if !is_indirect(at) => {
            match library.landing(function, at)? {
                Target::Inside(_) => return Ok(None),
                other => (other, state.depth - WORD),
            }
        }
        _ => return Ok(None),
    };
    Ok(Some(Made { callee, above }))
}

/// How deep the stack is that an instruction reads, writes or takes the address of by an operand
/// in memory. Below the stack pointer this is the red zone, all of it where the operand alone does not
/// tell how far the instruction reaches.
fn touched(at: &Instruction, state: &State) -> i64 {
    let moves = at.mnemonic == "lea" && at.operands.last().is_some_and(|last| last == STACK);
    let mut deepest = 0;
    for operand in at.operands.iter().filter(|_| !moves) {
        let Some((before, inside)) = operand.split_once('(') else {
            continue;
        };
        let base = inside.trim_end_matches(')').split(',').next().unwrap_or("");
        let Some(Value::Stack(depth)) = state.registers.value(base, state.depth) else {
            continue;
        };
        let place = depth - distance(before).unwrap_or(-RED_ZONE);
        let known = at.mnemonic != "lea" && !inside.contains(',');
        deepest = deepest.max(match place > state.depth {
            true if !known => state.depth + RED_ZONE,
            _ => place,
        });
    }
    deepest
}

/// Whether a call or jump goes where a register or a word in memory says.
fn is_indirect(at: &Instruction) -> bool {
    at.operands
        .first()
        .is_some_and(|first| first.starts_with('*'))
}

/// Bytes rounded up to whole words of the stack.
fn words(bytes: i64) -> i64 {
    (bytes + WORD - 1) / WORD * WORD
}

/// The message that stops the tool at an instruction.
fn refusal(function: &Function, at: &Instruction, why: String) -> String {
    format!("{} at {:#x}, `{}`: {why}", function.name, at.at, at.text)
}
