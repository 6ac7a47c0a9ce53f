//! The sheet program: bytes in, bytes out.

use crate::calls;
use crate::geometry::Geometry;
use crate::reading;
use crate::slot::Pair;
use crate::variant::Variant;

/// The most bytes of a sheet.
pub const MOST_BYTES: usize = 16_384;
/// The most words of a sheet's store.
pub const MOST_WORDS: usize = 4_096;

/// One group of a sheet.
struct Group {
    op: Op,
    pair: Pair,
}

/// What a group wants done.
#[derive(Clone, Copy)]
enum Op {
    Put,
    Drop,
    Ask,
}

/// A line without its byte 10, or none for a line that is not ended.
type Line<'a> = Option<&'a [u8]>;

/// What the program prints for this input.
pub fn run(input: &[u8]) -> Vec<u8> {
    let text = match judge(input) {
        Ok((geometry, groups)) => perform(geometry, &groups),
        Err(line) => format!("line={line}\n"),
    };
    text.into_bytes()
}

/// The geometry and groups of an input, or the number of its first faulty line.
fn judge(input: &[u8]) -> Result<(Geometry, Vec<Group>), usize> {
    if input.len() > MOST_BYTES {
        return Err(0);
    }
    let lines = lines(input);
    let geometry = geometry(&lines)?;
    let mut groups = Vec::new();
    while 3 + 3 * groups.len() < lines.len() {
        groups.push(group(&lines, 4 + 3 * groups.len())?);
    }
    Ok((geometry, groups))
}

/// The lines of an input; what follows the last byte 10, if anything, is not ended.
fn lines(input: &[u8]) -> Vec<Line<'_>> {
    let mut pieces: Vec<&[u8]> = input.split(|byte| *byte == 10).collect();
    let rest = pieces.pop().unwrap_or(&[]);
    let mut lines: Vec<Line> = pieces.into_iter().map(Some).collect();
    if !rest.is_empty() {
        lines.push(None);
    }
    lines
}

/// The geometry of the first three lines, with a store that is not too long.
fn geometry(lines: &[Line]) -> Result<Geometry, usize> {
    let head = ranged(lines, 1, b"head=", 1..=64)?;
    let ratio = ranged(lines, 2, b"ratio=", 2..=8)?;
    let levels = ranged(lines, 3, b"levels=", 2..=4)?;
    Geometry::new(head, ratio, levels)
        .filter(|geometry| geometry.store_words() <= MOST_WORDS)
        .ok_or(3)
}

/// The group whose first line has this number.
fn group(lines: &[Line], line: usize) -> Result<Group, usize> {
    let op = match value(lines, line, b"op=")? {
        b"put" => Op::Put,
        b"drop" => Op::Drop,
        b"ask" => Op::Ask,
        _ => return Err(line),
    };
    let badge = number(lines, line + 1, b"badge=")?;
    let floor = number(lines, line + 2, b"floor=")?;
    Ok(Group {
        op,
        pair: Pair { badge, floor },
    })
}

/// What follows the key in a line, or the line's number if it is missing or has no such key.
fn value<'a>(lines: &[Line<'a>], line: usize, key: &[u8]) -> Result<&'a [u8], usize> {
    let bytes = lines.get(line - 1).copied().flatten();
    bytes.and_then(|bytes| bytes.strip_prefix(key)).ok_or(line)
}

/// The number in a line.
fn number(lines: &[Line], line: usize, key: &[u8]) -> Result<u32, usize> {
    decimal(value(lines, line, key)?).ok_or(line)
}

/// The number in a line, inside a range.
fn ranged(
    lines: &[Line],
    line: usize,
    key: &[u8],
    range: std::ops::RangeInclusive<u32>,
) -> Result<u32, usize> {
    let number = number(lines, line, key)?;
    range.contains(&number).then_some(number).ok_or(line)
}

/// A decimal number of at most 32 bits without leading zeros.
pub fn decimal(digits: &[u8]) -> Option<u32> {
    let plain = !digits.is_empty() && digits.iter().all(u8::is_ascii_digit);
    let leading_zero = digits.len() > 1 && digits[0] == b'0';
    if !plain || leading_zero || digits.len() > 10 {
        return None;
    }
    let number = digits
        .iter()
        .fold(0u64, |sum, digit| 10 * sum + u64::from(digit - b'0'));
    u32::try_from(number).ok()
}

/// What a sheet without faults prints.
fn perform(geometry: Geometry, groups: &[Group]) -> String {
    let [head, ratio, levels] = geometry.words();
    let mut store = vec![0; geometry.store_words()];
    let mut work = vec![0; geometry.work_words()];
    calls::format(Variant::Right, &mut store, head, ratio, levels);
    let mut text = String::new();
    let mut pages: u64 = 0;
    for group in groups {
        let (line, written) = perform_group(group, &mut store, &mut work);
        text += &line;
        pages += u64::from(written);
    }
    text += &format!("live={}\n", reading::live(&store));
    for level in 0..geometry.levels() {
        let name = match level {
            0 => "head".to_string(),
            _ => format!("level{level}"),
        };
        let entries = reading::entries(geometry, &store, level).len();
        text += &format!("{name}={entries}\n");
    }
    text + &format!("pages={pages}\n")
}

/// The line that a group prints, and the pages that it wrote.
fn perform_group(group: &Group, store: &mut [u32], work: &mut [u32]) -> (String, u32) {
    let (name, reply) = match group.op {
        Op::Put => ("put", calls::put(Variant::Right, store, work, group.pair)),
        Op::Drop => ("drop", calls::drop(Variant::Right, store, work, group.pair)),
        Op::Ask => {
            let reply = calls::ask(Variant::Right, store, group.pair);
            return (format!("ask={}\n", reply.values[0]), 0);
        }
    };
    let pages = match reply.number {
        0 => reply.values[2],
        _ => 0,
    };
    (format!("{name}={}\n", reply.number), pages)
}
