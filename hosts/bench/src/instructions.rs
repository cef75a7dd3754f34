//! The table of instructions, which valgrind counts.

use crate::askings;
use crate::cases::{self, Case};
use crate::measured::{self, Answer, Side};
use crate::printed::{self, Printed};
use crate::times;
use crate::typed::{self, Lent, Typed};
use cordbasin::Tables;
use std::path::Path;
use std::process::Command;

/// The most steps that are run here, where each instruction is emulated.
const MOST_STEPS: i32 = 2_000;

/// Counts the instructions of each case on both programs, in a process each.
pub fn print() -> Result<(), String> {
    println!("| Case | Unit | Here, instructions | reference/, instructions | Ratio |");
    println!("|---|---|---:|---:|---:|");
    for case in cases::all() {
        let steps = run(&case, Side::Proved, &mut case.tables.clone()).2;
        let (unit, units) = times::unit(&case, steps);
        row(case.name, case.title, unit, units)?;
    }
    for sheet in askings::all() {
        let askings = sheet.askings.len() as f64;
        row(sheet.name, sheet.title, "asking", askings)?;
    }
    for text in typed::all() {
        row(text.name, text.title, "byte", text.text.len() as f64)?;
    }
    for program in printed::all() {
        row(program.name, program.title, "byte", program.bytes as f64)?;
    }
    println!("\nLoops end after {MOST_STEPS} steps.");
    Ok(())
}

fn row(name: &str, title: &str, unit: &str, units: f64) -> Result<(), String> {
    let here = count(name, Side::Proved)? / units;
    let there = count(name, Side::Independent)? / units;
    let ratio = there / here;
    println!("| {title} | {unit} | {here:.0} | {there:.0} | {ratio:.2} |");
    Ok(())
}

/// Runs a case, asks about a sheet, reads a text or writes a program once or
/// twice, for valgrind.
pub fn some(name: &str, side: &str, runs: usize) -> Result<(), String> {
    let side = Side::BOTH.into_iter().find(|own| own.name() == side);
    let side = side.ok_or("there is no such program")?;
    if let Some(sheet) = askings::all().iter().find(|sheet| sheet.name == name) {
        askings::ask_all(side, sheet, &mut askings::before(sheet, 2), runs);
        return Ok(());
    }
    if let Some(text) = typed::all().iter().find(|text| text.name == name) {
        some_read(text, side, runs);
        return Ok(());
    }
    let programs = printed::all();
    if let Some(program) = programs.iter().find(|program| program.name == name) {
        some_written(program, side, runs);
        return Ok(());
    }
    let mut cases = cases::all().into_iter();
    let case = cases.find(|case| case.name == name);
    let case = case.ok_or(format!("there is no case {name}"))?;
    let mut tables = vec![case.tables.clone(); 2];
    for tables in tables.iter_mut().take(runs) {
        std::hint::black_box(run(&case, side, tables));
    }
    Ok(())
}

fn some_read(text: &Typed, side: Side, runs: usize) {
    let mut lent = vec![Lent::fresh(); 2];
    for lent in lent.iter_mut().take(runs) {
        std::hint::black_box(typed::read(side, text, lent));
    }
}

fn some_written(program: &Printed, side: Side, runs: usize) {
    let mut pages = vec![printed::page(); 2];
    for page in pages.iter_mut().take(runs) {
        std::hint::black_box(printed::write(side, program, page));
    }
}

fn run(case: &Case, side: Side, tables: &mut Tables) -> Answer {
    measured::run(side, case, tables, case.budget.min(MOST_STEPS))
}

/// The instructions of one run: what a process of two has more than one of one.
/// Callgrind does not see every return on every machine, so that whole
/// processes are counted and not the call.
fn count(name: &str, side: Side) -> Result<f64, String> {
    Ok(process(name, side, 2)? - process(name, side, 1)?)
}

/// The instructions of a process, from the summary of callgrind's file.
fn process(case: &str, side: Side, runs: usize) -> Result<f64, String> {
    let own = std::env::current_exe().map_err(|error| error.to_string())?;
    let name = format!("callgrind-{case}-{}-{runs}.out", side.name());
    let file = own.parent().unwrap_or(Path::new(".")).join(name);
    let output = Command::new("valgrind")
        .arg("--tool=callgrind")
        .arg(format!("--callgrind-out-file={}", file.display()))
        .arg(&own)
        .args(["some", case, side.name(), &runs.to_string()])
        .output()
        .map_err(|error| format!("valgrind: {error}"))?;
    if !output.status.success() {
        let said = String::from_utf8_lossy(&output.stderr);
        return Err(format!("valgrind on {case}: {said}"));
    }
    let text = std::fs::read_to_string(&file).map_err(|error| error.to_string())?;
    let mut lines = text.lines();
    let summary = lines.find_map(|line| line.strip_prefix("summary:"));
    let count = summary.and_then(|word| word.trim().parse::<f64>().ok());
    count.ok_or(format!("{} has no summary", file.display()))
}
