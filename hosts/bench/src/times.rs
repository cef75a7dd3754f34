//! The table of times.

use crate::cases::{self, Case};
use crate::measured::{self, Side};
use crate::{askings, printed, typed};

/// Times each case on both programs in turn, as often as said, and prints the
/// medians.
pub fn print(repetitions: usize) -> Result<(), String> {
    let (cases, sheets) = (cases::all(), askings::all());
    let (texts, programs) = (typed::all(), printed::all());
    cases.iter().try_for_each(measured::agree)?;
    sheets.iter().try_for_each(askings::agree)?;
    texts.iter().try_for_each(typed::agree)?;
    programs.iter().try_for_each(printed::agree)?;
    let seen = timed(&cases, repetitions, measured::time);
    let asked = timed(&sheets, repetitions, askings::time);
    let read = timed(&texts, repetitions, typed::time);
    let written = timed(&programs, repetitions, printed::time);
    println!("| Case | Unit | Here, ns | reference/, ns | Ratio |");
    println!("|---|---|---:|---:|---:|");
    for (case, seen) in cases.iter().zip(seen) {
        let (unit, units) = unit(case, case.steps);
        row(case.title, unit, units, seen);
    }
    for (sheet, seen) in sheets.iter().zip(asked) {
        row(sheet.title, "asking", sheet.askings.len() as f64, seen);
    }
    for (text, seen) in texts.iter().zip(read) {
        row(text.title, "byte", text.text.len() as f64, seen);
    }
    for (program, seen) in programs.iter().zip(written) {
        row(program.title, "byte", program.bytes as f64, seen);
    }
    println!("\nMedians of {repetitions} repetitions.");
    Ok(())
}

/// The times of each case on both programs, of which each goes first every
/// other time.
fn timed<T>(cases: &[T], repetitions: usize, time: fn(Side, &T) -> f64) -> Vec<[Vec<f64>; 2]> {
    let mut seen = vec![[Vec::new(), Vec::new()]; cases.len()];
    for repetition in 0..repetitions {
        for (case, seen) in cases.iter().zip(&mut seen) {
            for turn in [repetition % 2, 1 - repetition % 2] {
                seen[turn].push(time(Side::BOTH[turn], case));
            }
        }
    }
    seen
}

fn row(title: &str, unit: &str, units: f64, [proved, independent]: [Vec<f64>; 2]) {
    let (here, there) = (median(proved) / units, median(independent) / units);
    let ratio = there / here;
    println!("| {title} | {unit} | {here:.1} | {there:.1} | {ratio:.2} |");
}

/// What is counted, and how many there are in a run of so many steps. A list's
/// steps are its entries.
pub fn unit(case: &Case, steps: u32) -> (&'static str, f64) {
    match steps {
        entries if case.entries.is_some() => ("entry", f64::from(entries)),
        0 if case.name == "reading" => ("word", case.program.len() as f64),
        0 => ("run", 1.0),
        steps => ("step", f64::from(steps)),
    }
}

fn median(mut times: Vec<f64>) -> f64 {
    times.sort_by(f64::total_cmp);
    let middle = times.len() / 2;
    if times.len() % 2 == 1 {
        times[middle]
    } else {
        (times[middle - 1] + times[middle]) / 2.0
    }
}
