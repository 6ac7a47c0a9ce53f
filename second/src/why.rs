//! The program `why`: two arguments and the bytes of a chip in, text out.

use crate::calls::{self, Reply, LENGTH, RANGE, WHY_LEVEL_VALUES};
use crate::fault::{DIRECTORY, HEAD, PAGE_FORM, WRITING};
use crate::sheet::decimal;
use crate::slot::Pair;
use crate::variant::Variant;

/// The most bytes of a chip: those of the largest geometry's store.
pub const MOST_BYTES: usize = 492_352;

/// What is told if there are not exactly two arguments.
const ARGUMENTS: &str = "why: give a badge and a floor: ./why BADGE FLOOR < CHIP";
/// What is told if the first argument is no number.
const BADGE: &str = "why: the badge is no number from 0 to 4294967295";
/// What is told if the second argument is no number.
const FLOOR: &str = "why: the floor is no number from 0 to 4294967295";
/// What is told if the chip is too long.
const TOO_LONG: &str = "why: the chip has more than 492352 bytes";
/// What is told if the chip's bytes are no words.
const NO_WORDS: &str = "why: the chip's bytes are no multiple of four";

/// The program's text, and whether the input was wrong, which sends it to standard error.
#[derive(Clone, Debug, PartialEq, Eq)]
pub struct Told {
    pub text: String,
    pub wrong: bool,
}

/// What the program tells for these arguments and this chip.
pub fn run(arguments: &[&[u8]], chip: &[u8]) -> Told {
    let (lines, wrong) = match judge(arguments, chip) {
        Ok((pair, store)) => {
            let reply = calls::why(Variant::Right, &store, pair);
            (lines(pair, &reply), false)
        }
        Err(line) => (vec![line.to_string()], true),
    };
    let text = lines.iter().map(|line| format!("{line}\n")).collect();
    Told { text, wrong }
}

/// The pair of the arguments and the words of the chip, or the line that tells what is wrong.
fn judge(arguments: &[&[u8]], chip: &[u8]) -> Result<(Pair, Vec<u32>), &'static str> {
    let [badge, floor] = arguments else {
        return Err(ARGUMENTS);
    };
    let badge = decimal(badge).ok_or(BADGE)?;
    let floor = decimal(floor).ok_or(FLOOR)?;
    if chip.len() > MOST_BYTES {
        return Err(TOO_LONG);
    }
    let words = chip.chunks(4).map(|bytes| match bytes {
        [a, b, c, d] => Ok(u32::from_le_bytes([*a, *b, *c, *d])),
        _ => Err(NO_WORDS),
    });
    Ok((Pair { badge, floor }, words.collect::<Result<_, _>>()?))
}

/// The lines of a reply.
pub fn lines(pair: Pair, reply: &Reply) -> Vec<String> {
    match reply.number {
        0 => answer_lines(pair, &reply.values),
        number => refusal_lines(number, &reply.values),
    }
}

/// The lines of an accepted call: one for each level read, the answer, and the answer in words.
fn answer_lines(pair: Pair, values: &[u32]) -> Vec<String> {
    let (answer, levels) = values.split_at(2);
    let (held, decided) = (answer[0] == 1, answer[1]);
    let levels: Vec<&[u32]> = levels.chunks(WHY_LEVEL_VALUES).collect();
    let read = levels.iter().enumerate().filter(|(_, level)| level[0] == 1);
    let mut lines: Vec<String> = read
        .map(|(number, level)| level_line(number, level))
        .collect();
    lines.push(format!("held={} decided={decided}", answer[0]));
    let removed = levels.iter().any(|level| level[3] == 2);
    lines.push(sentence(pair, held, removed, decided));
    lines
}

/// The line of a level that was read, from its five values.
fn level_line(number: usize, level: &[u32]) -> String {
    let mut line = format!("level={number} page={}", level[1]);
    if level[2] > 0 {
        line += &format!(" slot={}", level[2] - 1);
    }
    match level[3] {
        0 => {}
        1 => line += " entry=normal",
        _ => line += " entry=filter",
    }
    if level[4] > 0 {
        line += &format!(" follows={}", level[4] - 1);
    }
    line
}

/// The answer in words.
fn sentence(Pair { badge, floor }: Pair, held: bool, removed: bool, decided: u32) -> String {
    let may = if held { "may" } else { "may not" };
    let because = if held {
        format!("it was added, and the addition stands in level {decided}")
    } else if removed {
        format!("it was removed, and the removal stands in level {decided}")
    } else {
        "no entry for it was found".to_string()
    };
    format!("Badge {badge} {may} call floor {floor}: {because}.")
}

/// The lines of a refusal: its number, with the place of a fault, and what it says of the chip.
fn refusal_lines(number: u32, place: &[u32]) -> Vec<String> {
    let says = match number {
        RANGE => "The chip cannot be read: its first three words name no geometry.",
        LENGTH => "The chip cannot be read: its length is not the one that its geometry asks for.",
        _ => return fault_lines(number, place[0], place[1], place[2]),
    };
    vec![format!("reply={number}"), says.to_string()]
}

/// The lines of a fault: its number and its place, and what they say for a service desk.
fn fault_lines(number: u32, level: u32, page: u32, slot: u32) -> Vec<String> {
    let says = match number {
        DIRECTORY => "its directory is wrong".to_string(),
        HEAD => format!("the head is wrong at slot {slot}"),
        PAGE_FORM => format!("page {page} of level {level} is wrong at slot {slot}"),
        WRITING => format!("level {level} is not as it is written, at slot {slot} of page {page}"),
        _ if (level, page, slot) == (0, 0, 0) => "the number of pairs is wrong".to_string(),
        _ => format!(
            "an entry in level {level}, page {page}, slot {slot} does not fit the levels below"
        ),
    };
    vec![
        format!("reply={number} level={level} page={page} slot={slot}"),
        format!("The store is damaged: {says}."),
    ]
}
