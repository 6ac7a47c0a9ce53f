//! Measures everything, prints the tables, and writes docs/BENCHMARK.md and docs/benchmark.svg.

use std::path::{Path, PathBuf};

use second::geometry::Geometry;
use stack_gate::computed::computed;

use bench::report::{Measured, Report};
use bench::stack::{self, Depths};
use bench::trace::{random_puts, run_both, turnover, Filled};
use bench::{calls, merges, pages, plot, size};

/// The geometries measured, in the paper's order.
const GEOMETRIES: [&str; 6] = ["4,2,3", "21,2,2", "10,4,3", "16,4,3", "64,8,3", "64,8,4"];
/// The fill levels, in hundredths of M.
const FILLS: [usize; 3] = [5, 50, 95];
/// What comes behind this line of docs/BENCHMARK.md is written anew at each run.
const MARK: &str = "<!-- measured: written by bench/run -->\n";

/// Runs the benchmark.
fn main() -> Result<(), String> {
    let root = Path::new(env!("CARGO_MANIFEST_DIR")).join("..");
    let mut depths = Depths::default();
    let mut measured = Vec::new();
    for text in GEOMETRIES {
        eprintln!("measuring {text}");
        measured.push(measure(text.parse()?, &mut depths));
    }
    let archive = root.join("target/staticlib/liblanding.a");
    let computed = computed(&archive)?;
    let archive = std::fs::read(&archive).map_err(|e| format!("{}: {e}", archive.display()))?;
    let report = Report {
        measured,
        depths,
        computed,
        code_bytes: size::code_bytes(&archive)
            .ok_or("liblanding.a: not an archive of ELF objects")?,
    };
    let tables = report.tables();
    println!("{tables}");
    write_docs(&root.join("docs"), &tables, &plot::draw(&report))
}

/// Measures stores of one geometry.
fn measure(geometry: Geometry, depths: &mut Depths) -> Measured {
    let trace = random_puts(1, geometry.most());
    let (_, values) = run_both(geometry, &trace);
    let puts = pages::count(geometry, &trace, &values);
    let (merges, worst) = merges::measure(geometry, &trace, &values);

    let trace = turnover(2, geometry);
    let (_, values) = run_both(geometry, &trace);
    let turnover = pages::count(geometry, &trace, &values);
    depths.deepen(&stack::measure(geometry, &trace));

    let filled = FILLS.map(|percent| Filled::new(geometry, percent));
    let calls = filled
        .iter()
        .map(|filled| (filled.percent, calls::measure(filled)));
    Measured {
        geometry,
        calls: calls.collect(),
        merges,
        worst,
        puts,
        turnover,
    }
}

/// Writes the tables behind the mark in docs/BENCHMARK.md, and the plot beside it.
fn write_docs(docs: &Path, tables: &str, plot: &str) -> Result<(), String> {
    let write = |path: &PathBuf, text: &str| {
        std::fs::write(path, text).map_err(|e| format!("{}: {e}", path.display()))
    };
    let page = docs.join("BENCHMARK.md");
    let text = std::fs::read_to_string(&page).map_err(|e| format!("{}: {e}", page.display()))?;
    let (before, _) = text
        .split_once(MARK)
        .ok_or("docs/BENCHMARK.md has no mark")?;
    write(&page, &format!("{before}{MARK}\n{tables}"))?;
    write(&docs.join("benchmark.svg"), plot)
}
