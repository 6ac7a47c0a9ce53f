//! Sheets for the sheet program: good ones, and every kind of faulty line with its number.

use crate::call::Call;
use crate::generate::sequence;
use crate::geometry::Geometry;
use crate::sheet;
use crate::slot::{Pair, GREATEST};

/// The first three lines of most sheets here.
pub const START: &str = "head=4\nratio=2\nlevels=3\n";

/// The geometries of sheets of random requests, and how many calls they are made from.
const RANDOM: [([u32; 3], usize); 6] = [
    ([1, 2, 2], 100),
    ([1, 2, 4], 300),
    ([4, 2, 3], 300),
    ([21, 2, 2], 300),
    ([10, 4, 3], 700),
    ([27, 3, 4], 700),
];

/// Faults of the first three lines, with the number of the first faulty line.
const FIRST_LINES: [(&str, usize); 53] = [
    // Missing.
    ("", 1),
    ("head=4\n", 2),
    ("head=4\nratio=2\n", 3),
    ("ratio=2\nlevels=3\n", 1),
    ("head=4\nlevels=3\n", 2),
    ("head=4\nratio=2\nop=ask\nbadge=1\nfloor=1\n", 3),
    // Unended.
    ("head=4", 1),
    ("head=4\nratio=2", 2),
    ("head=4\nratio=2\nlevels=3", 3),
    // Malformed: names.
    ("ratio=2\nhead=4\nlevels=3\n", 1),
    ("Head=4\n", 1),
    ("hea=4\n", 1),
    ("header=4\n", 1),
    ("=4\n", 1),
    ("4\n", 1),
    (" head=4\n", 1),
    ("head4\n", 1),
    ("head:4\n", 1),
    ("head\n", 1),
    ("head==4\n", 1),
    ("head =4\n", 1),
    ("head=4\nRatio=2\n", 2),
    ("head=4\nratio=2\nlevel=3\n", 3),
    // Malformed: values.
    ("head=\n", 1),
    ("head=04\n", 1),
    ("head=00\n", 1),
    ("head=+4\n", 1),
    ("head=-4\n", 1),
    ("head= 4\n", 1),
    ("head=4 \n", 1),
    ("head=4\t\n", 1),
    ("head=4\r\n", 1),
    ("head=0x4\n", 1),
    ("head=4,\n", 1),
    ("head=4:\n", 1),
    ("head=4/\n", 1),
    // Empty lines.
    ("\n", 1),
    ("\nhead=4\n", 1),
    ("head=4\n\nratio=2\n", 2),
    // Above 32 bits; the last two are 4 in 32 and in 64 bits.
    ("head=4294967296\n", 1),
    ("head=99999999999999999999999\n", 1),
    ("head=4294967300\n", 1),
    ("head=18446744073709551620\n", 1),
    // Outside the ranges.
    ("head=0\n", 1),
    ("head=65\n", 1),
    ("head=4\nratio=1\n", 2),
    ("head=4\nratio=9\n", 2),
    ("head=4\nratio=2\nlevels=1\n", 3),
    ("head=4\nratio=2\nlevels=5\n", 3),
    // A store over 4,096 words: the greatest, and 4,125, the least above.
    ("head=64\nratio=8\nlevels=4\n", 3),
    ("head=17\nratio=8\nlevels=3\n", 3),
    // The first of several.
    ("head=0\nratio=9\nlevels=1\nop=x\n", 1),
    ("head=17\nratio=8\nlevels=3\nop=x\n", 3),
];

/// Faults behind the first three lines, with the number of the first faulty line.
const GROUPS: [(&str, usize); 40] = [
    // Missing.
    ("op=put\n", 5),
    ("op=put\nbadge=1\n", 6),
    ("badge=1\nfloor=1\n", 4),
    ("op=put\nfloor=1\n", 5),
    ("op=put\nbadge=1\nop=ask\nbadge=1\nfloor=1\n", 6),
    ("op=put\nbadge=1\nfloor=1\nop=ask\n", 8),
    ("op=put\nbadge=1\nfloor=1\nop=ask\nbadge=1\n", 9),
    // Unended.
    ("op=put", 4),
    ("op=put\nbadge=1", 5),
    ("op=put\nbadge=1\nfloor=1", 6),
    ("op=put\nbadge=1\nfloor=1\nx", 7),
    // Malformed: names.
    ("Op=put\n", 4),
    ("o=put\n", 4),
    ("op put\n", 4),
    ("op=put\nbadge1\n", 5),
    ("op=put\nfloor=1\nbadge=1\n", 5),
    ("op=put\nbadge=1\nflor=1\n", 6),
    // Malformed: what to do.
    ("op=\n", 4),
    ("op=Put\n", 4),
    ("op=put \n", 4),
    ("op=put\r\n", 4),
    ("op=pu\n", 4),
    ("op=puts\n", 4),
    ("op=list\n", 4),
    // Malformed: values.
    ("op=put\nbadge=\nfloor=1\n", 5),
    ("op=put\nbadge=01\nfloor=1\n", 5),
    ("op=put\nbadge=00\nfloor=1\n", 5),
    ("op=put\nbadge=-1\nfloor=1\n", 5),
    ("op=put\nbadge=1a\nfloor=1\n", 5),
    ("op=put\nbadge=1\0\nfloor=1\n", 5),
    ("op=put\nbadge=1\nfloor=\n", 6),
    ("op=put\nbadge=1\nfloor=1\r\n", 6),
    // Empty lines, the last one at the end.
    ("\n", 4),
    ("op=put\n\n", 5),
    ("op=put\nbadge=1\nfloor=1\n\n", 7),
    // Above 32 bits; the last two are 1 in 32 and in 64 bits.
    ("op=put\nbadge=4294967296\nfloor=1\n", 5),
    ("op=put\nbadge=1\nfloor=10000000000\n", 6),
    ("op=put\nbadge=4294967297\nfloor=1\n", 5),
    ("op=put\nbadge=18446744073709551617\nfloor=1\n", 5),
    // The first of several.
    ("op=put\nbadge=1\nfloor=x\nop=ask\nbadge=x\nfloor=1\n", 6),
];

/// A group of a sheet.
pub fn group(op: &str, pair: Pair) -> String {
    format!("op={op}\nbadge={}\nfloor={}\n", pair.badge, pair.floor)
}

/// A group of a pair with floor 0.
pub fn badge(op: &str, badge: u32) -> String {
    group(op, Pair { badge, floor: 0 })
}

/// The example of the paper: put, put, ask, drop, ask of (7, 1).
pub fn example() -> String {
    let pair = Pair { badge: 7, floor: 1 };
    let ops = ["put", "put", "ask", "drop", "ask"];
    START.to_string() + &ops.map(|op| group(op, pair)).concat()
}

/// A store filled to the brim, with refusals 4, 2 and 3.
pub fn refusals() -> String {
    let puts: String = (1..=17).map(|n| badge("put", n)).collect();
    START.to_string() + &puts + &badge("put", 16) + &badge("drop", 99)
}

/// A sheet of exactly the most bytes: 24 of the geometry, 710 groups of 23, and one of 30.
pub fn longest() -> String {
    let groups = badge("ask", 1).repeat(710) + &badge("ask", 12_345_678);
    START.to_string() + &groups
}

/// Sheets without faults.
pub fn good() -> Vec<Vec<u8>> {
    let greatest = ["ask", "put", "put", "ask", "drop", "ask", "drop"];
    let mut sheets = vec![
        example(),
        refusals(),
        START.to_string() + &greatest.map(|op| group(op, GREATEST)).concat(),
        longest(),
    ];
    for geometry in [[1, 2, 2], [64, 8, 2], [1, 2, 4], [27, 3, 4]] {
        sheets.push(first_lines(geometry));
    }
    for (seed, (geometry, calls)) in RANDOM.iter().enumerate() {
        sheets.push(random(seed as u64, *geometry, *calls));
    }
    sheets.into_iter().map(String::into_bytes).collect()
}

/// Sheets with a fault, each with the number that the program prints.
pub fn faulty() -> Vec<(Vec<u8>, usize)> {
    let mut sheets = vec![
        (vec![0xff, 0xfe, 10], 1),
        // Too many bytes are told before all else.
        ((longest() + "\n").into_bytes(), 0),
        (vec![b'\n'; sheet::MOST_BYTES + 1], 0),
        (vec![b'\n'; sheet::MOST_BYTES], 1),
    ];
    for (text, line) in FIRST_LINES {
        sheets.push((text.into(), line));
    }
    for (text, line) in GROUPS {
        sheets.push(((START.to_string() + text).into_bytes(), line));
    }
    sheets
}

/// The lines of a geometry.
fn first_lines([head, ratio, levels]: [u32; 3]) -> String {
    format!("head={head}\nratio={ratio}\nlevels={levels}\n")
}

/// A sheet of random requests, as many as it has room for.
fn random(seed: u64, geometry: [u32; 3], calls: usize) -> String {
    let [head, ratio, levels] = geometry;
    let sized = Geometry::new(head, ratio, levels).expect("a geometry in its ranges");
    let mut sheet = first_lines(geometry);
    for call in sequence(seed, 0, sized, calls).calls {
        let group = request(call).unwrap_or_default();
        if sheet.len() + group.len() <= sheet::MOST_BYTES {
            sheet += &group;
        }
    }
    sheet
}

/// The group of a call that a sheet can make.
fn request(call: Call) -> Option<String> {
    match call {
        Call::Put(pair, _) => Some(group("put", pair)),
        Call::Drop(pair, _) => Some(group("drop", pair)),
        Call::Ask(pair) => Some(group("ask", pair)),
        Call::Why(_) | Call::List(..) | Call::Check => None,
    }
}
