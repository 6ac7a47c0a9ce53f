//! The second program's command line.

use std::ffi::OsString;
use std::io::{Read, Write};
use std::path::Path;
use std::process::ExitCode;

use second::damage::damaged;
use second::generate::sequence;
use second::geometry::Geometry;
use second::plan::{Plan, LIST};
use second::random::Random;
use second::script::Script;
use second::variant::Variant;
use second::vectors::{self, Case, Compared};
use second::{cases, chips, sheet, sheet_vectors, sheets, why, whys};

/// What is printed when a command line is not understood.
const USAGE: &str = "usage:
  second vectors [--build NAME] FILE...
  second cases [--build NAME]
  second case-lines
  second sheet < INPUT
  second sheets FOLDER
  second why BADGE FLOOR < CHIP
  second whys FOLDER
  second chips FOLDER
  second sequences [--seed S] [--calls N] H,k,l...
  second damaged [--seed S] [--cases N]
  second script [--seed S] [--cases N] FOLDER VECTORS
  second replay [--build NAME] [--seed S] [--calls N] [--every E] [--damage D] H,k,l...
  second replays FOLDER";

/// Every option.
const OPTIONS: [&str; 6] = [
    "--build", "--seed", "--calls", "--cases", "--every", "--damage",
];

/// The differences that `vectors` shows at most.
const SHOWN: usize = 5;

/// A command line taken apart: options with their values, and the rest.
struct Line {
    options: Vec<(String, String)>,
    rest: Vec<String>,
}

/// Runs the command; the exit code is 1 for a difference found, 2 for a wrong command line.
fn main() -> ExitCode {
    let mut arguments = std::env::args_os().skip(1);
    let command = arguments.next().unwrap_or_default();
    let outcome = match command.to_str() {
        Some("why") => run_why(arguments.collect()),
        command => run_command(command.unwrap_or_default(), arguments),
    };
    match outcome {
        Ok(true) => ExitCode::SUCCESS,
        Ok(false) => ExitCode::from(1),
        Err(message) => {
            eprintln!("{message}");
            ExitCode::from(2)
        }
    }
}

/// Runs a command that takes options; gives whether no difference was found.
fn run_command(command: &str, arguments: impl Iterator<Item = OsString>) -> Result<bool, String> {
    let line = take_apart(arguments.map(|argument| argument.to_string_lossy().into_owned()))?;
    match command {
        "vectors" => run_vectors(&line),
        "cases" => run_cases(&line),
        "case-lines" => print_case_lines(),
        "sheet" => run_sheet(),
        "sheets" => write_sheets(&line),
        "sequences" => print_sequences(&line),
        "damaged" => print_damaged(&line),
        "script" => write_script(&line),
        "replay" => print_replay(&line),
        "replays" => write_replays(&line),
        "whys" => write_whys(&line),
        "chips" => write_chips(&line),
        _ => Err(USAGE.to_string()),
    }
}

/// Runs vector files and shows the first differences.
fn run_vectors(line: &Line) -> Result<bool, String> {
    let variant = line.option("--build", Variant::Right)?;
    let mut compared = Compared::default();
    for file in &line.rest {
        let text = std::fs::read_to_string(file).map_err(|e| format!("{file}: {e}"))?;
        if sheet_vectors::are_in(&text) {
            sheet_vectors::run(&text, &mut compared);
        } else {
            vectors::run(variant, &text, &mut compared);
        }
    }
    for difference in compared.differences.iter().take(SHOWN) {
        println!("{difference}");
    }
    println!(
        "{} cases, {} calls, {} sheets, {} differences",
        compared.cases,
        compared.calls,
        compared.sheets,
        compared.differences.len(),
    );
    Ok(compared.differences.is_empty() && compared.cases + compared.sheets > 0)
}

/// Runs the bench table, one line a case.
fn run_cases(line: &Line) -> Result<bool, String> {
    let variant = line.option("--build", Variant::Right)?;
    let mut all_right = true;
    for ran in cases::run(variant) {
        let right = ran.differences.is_empty();
        all_right &= right;
        let verdict = if right { "right" } else { "wrong" };
        println!("case {}: {verdict}: {}", ran.number, ran.says);
        for difference in ran.differences {
            println!("  {difference}");
        }
    }
    Ok(all_right)
}

/// Prints what crates/cases prints of the bench table.
fn print_case_lines() -> Result<bool, String> {
    let mut text = String::new();
    for ran in cases::run(Variant::Right) {
        text += &format!("case {}\n", ran.number);
        text.extend(ran.lines.iter().map(|line| format!("{line}\n")));
    }
    print_bytes(text.as_bytes())
}

/// Runs the sheet program on standard input.
fn run_sheet() -> Result<bool, String> {
    print_bytes(&sheet::run(&input()?))
}

/// All of standard input.
fn input() -> Result<Vec<u8>, String> {
    let mut input = Vec::new();
    let mut stdin = std::io::stdin();
    stdin.read_to_end(&mut input).map_err(|e| e.to_string())?;
    Ok(input)
}

/// Runs the program `why` on these arguments and standard input; what it tells of wrong input is a
/// message.
fn run_why(arguments: Vec<OsString>) -> Result<bool, String> {
    let arguments: Vec<&[u8]> = arguments.iter().map(|a| a.as_encoded_bytes()).collect();
    let told = why::run(&arguments, &input()?);
    if told.wrong {
        return Err(told.text.trim_end().to_string());
    }
    print_bytes(told.text.as_bytes())
}

/// Writes inputs of the program `why` as a folder's stdin, and what it tells as its stdout.
fn write_whys(line: &Line) -> Result<bool, String> {
    let folder = line.rest.first().ok_or(USAGE)?;
    let (read, printed) = whys::script();
    write_file(folder, "stdin", &read)?;
    write_file(folder, "stdout", &printed)
}

/// Writes the example chips into a folder.
fn write_chips(line: &Line) -> Result<bool, String> {
    let folder = line.rest.first().ok_or(USAGE)?;
    for chip in chips::examples() {
        let name = format!("{}.chip", chip.name);
        write_file(folder, &name, &chips::bytes(&chip.store))?;
    }
    Ok(true)
}

/// Writes sheets one after another, each behind its length, as a folder's stdin, and what they print,
/// each behind its number, as its stdout.
fn write_sheets(line: &Line) -> Result<bool, String> {
    let [folder] = &line.rest[..] else {
        return Err(USAGE.to_string());
    };
    let faulty = sheets::faulty().into_iter().map(|(sheet, _)| sheet);
    let (mut input, mut output) = (Vec::new(), Vec::new());
    for (number, bytes) in sheets::good().into_iter().chain(faulty).enumerate() {
        input.extend((bytes.len() as u32).to_le_bytes());
        input.extend(&bytes);
        output.extend(format!("sheet {}\n", number + 1).into_bytes());
        output.extend(sheet::run(&bytes));
    }
    write_file(folder, "stdin", &input)?;
    write_file(folder, "stdout", &output)
}

/// Prints a random sequence for each geometry.
fn print_sequences(line: &Line) -> Result<bool, String> {
    let seed: u64 = line.option("--seed", 1)?;
    let calls = line.option("--calls", 60)?;
    for (number, geometry) in line.geometries()?.into_iter().enumerate() {
        let seed = seed.wrapping_add(number as u64);
        print_case(&sequence(seed, number, geometry, calls))?;
    }
    Ok(true)
}

/// Prints calls on damaged stores.
fn print_damaged(line: &Line) -> Result<bool, String> {
    let mut random = Random::new(line.option("--seed", 1)?);
    for number in 0..line.option("--cases", 60)? {
        print_case(&damaged(&mut random, number))?;
    }
    Ok(true)
}

/// Writes a replay script of a folder's vectors and of damaged stores, as another folder's stdin, and
/// the lines that it must print, as its stdout.
fn write_script(line: &Line) -> Result<bool, String> {
    let [folder, vectors] = &line.rest[..] else {
        return Err(USAGE.to_string());
    };
    let texts = vectors::texts(Path::new(vectors))?;
    let (seed, cases) = (line.option("--seed", 1)?, line.option("--cases", 60)?);
    let script = Script::of(Variant::Right, &texts, seed, cases);
    let lines: String = script.lines.iter().map(|l| format!("{l}\n")).collect();
    write_run(folder, &script.numbers, &lines)
}

/// Writes the list of replays as a folder's stdin, and what they print as its stdout.
fn write_replays(line: &Line) -> Result<bool, String> {
    let folder = line.rest.first().ok_or(USAGE)?;
    let plans = LIST.iter().filter_map(|numbers| Plan::of(*numbers));
    let text: String = plans.map(|plan| plan.text(Variant::Right)).collect();
    write_run(folder, LIST.as_flattened(), &text)
}

/// Writes what a program reads, numbers lowest byte first, and what it must print, in its folder.
fn write_run(folder: &str, numbers: &[u32], text: &str) -> Result<bool, String> {
    write_file(folder, "stdin", &chips::bytes(numbers))?;
    write_file(folder, "stdout", text.as_bytes())
}

/// Writes a file of a folder.
fn write_file(folder: &str, name: &str, bytes: &[u8]) -> Result<bool, String> {
    let path = format!("{folder}/{name}");
    let written = std::fs::write(&path, bytes);
    written.map(|()| true).map_err(|e| format!("{path}: {e}"))
}

/// Prints the digests of a replay for each geometry.
fn print_replay(line: &Line) -> Result<bool, String> {
    let variant = line.option("--build", Variant::Right)?;
    let damage: usize = line.option("--damage", 0)?;
    for geometry in line.geometries()? {
        let plan = Plan {
            geometry,
            seed: line.option("--seed", 1)?,
            calls: line.option("--calls", 10_000)?,
            interval: line.option("--every", 1_000)?,
            damage: (damage > 0).then_some(damage),
        };
        print_bytes(plan.text(variant).as_bytes())?;
    }
    Ok(true)
}

/// Prints a case in the vector format, with the right answers.
fn print_case(case: &Case) -> Result<bool, String> {
    let text = vectors::write(Variant::Right, case).join("\n") + "\n";
    print_bytes(text.as_bytes())
}

/// Prints bytes as they are.
fn print_bytes(bytes: &[u8]) -> Result<bool, String> {
    let written = std::io::stdout().write_all(bytes);
    written.map(|()| true).map_err(|e| e.to_string())
}

/// Takes a command line apart; every option has a value.
fn take_apart(mut arguments: impl Iterator<Item = String>) -> Result<Line, String> {
    let mut line = Line {
        options: Vec::new(),
        rest: Vec::new(),
    };
    while let Some(argument) = arguments.next() {
        if argument.starts_with("--") {
            let known = OPTIONS.contains(&argument.as_str());
            let value = arguments.next().filter(|_| known).ok_or(USAGE)?;
            line.options.push((argument, value));
        } else {
            line.rest.push(argument);
        }
    }
    Ok(line)
}

impl Line {
    /// The value of an option, or what it is if it is not given.
    fn option<T: std::str::FromStr>(&self, name: &str, otherwise: T) -> Result<T, String> {
        match self.options.iter().find(|(option, _)| option == name) {
            Some((_, value)) => value.parse().map_err(|_| format!("{name} {value}: wrong")),
            None => Ok(otherwise),
        }
    }

    /// The geometries named; at least one.
    fn geometries(&self) -> Result<Vec<Geometry>, String> {
        if self.rest.is_empty() {
            return Err(USAGE.to_string());
        }
        self.rest.iter().map(|text| text.parse()).collect()
    }
}
