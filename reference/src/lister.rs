//! The run lister: three lines in, the answer and the tables out.

use crate::run::{run, Answer};
use crate::tables::{CONSTRAINT_WORDS, ENVIRONMENT_WORDS, HEAP_WORDS};
use crate::tables::{FIELDS, RECORD_WORDS, VALUE_POSITIONS};
use std::fmt::Write;

pub const LARGEST_INPUT: usize = 65_536;
pub const MOST_NUMBERS: usize = 4096;

struct Input {
    program: Vec<i32>,
    proposals: Vec<i32>,
    budget: i32,
}

/// The whole output for a whole input.
pub fn list(input: &[u8]) -> String {
    let input = match parse(input) {
        Ok(input) => input,
        Err(line) => return format!("input={line}\n"),
    };
    let mut environment = [0; ENVIRONMENT_WORDS];
    let mut heap = [0; HEAP_WORDS];
    let mut constraints = [0; CONSTRAINT_WORDS];
    let answer = run(
        &input.program,
        &mut environment,
        &mut heap,
        &mut constraints,
        &input.proposals,
        input.budget,
    );
    let mut output = String::new();
    // Writing to a String cannot fail.
    let _ = print(&mut output, &answer, &environment, &heap, &constraints);
    output
}

/// The error is the number of the first unfit line.
fn parse(input: &[u8]) -> Result<Input, u32> {
    if input.len() > LARGEST_INPUT {
        return Err(1);
    }
    let mut lines = input.splitn(3, |byte| *byte == b'\n');
    let program = lines.next().and_then(|line| numbers(line, b"program="));
    let program = program.ok_or(1u32)?;
    let proposals = lines.next().and_then(|line| numbers(line, b"proposals="));
    let proposals = proposals.ok_or(2u32)?;
    let last = lines.next().ok_or(3u32)?;
    let last = last.strip_suffix(b"\n").unwrap_or(last);
    let budget = last.strip_prefix(b"budget=").and_then(number).ok_or(3u32)?;
    Ok(Input {
        program,
        proposals,
        budget,
    })
}

fn numbers(line: &[u8], name: &[u8]) -> Option<Vec<i32>> {
    let list = line.strip_prefix(name)?;
    if list.is_empty() {
        return Some(Vec::new());
    }
    let list: Option<Vec<i32>> = list.split(|byte| *byte == b' ').map(number).collect();
    list.filter(|list| list.len() <= MOST_NUMBERS)
}

/// A 32-bit number in decimal without plus sign, leading zeros or -0.
pub fn number(text: &[u8]) -> Option<i32> {
    let digits = text.strip_prefix(b"-").unwrap_or(text);
    let plain = match digits {
        b"0" => digits.len() == text.len(),
        [first, ..] => *first != b'0' && digits.iter().all(u8::is_ascii_digit),
        [] => false,
    };
    if !plain {
        return None;
    }
    std::str::from_utf8(text).ok()?.parse().ok()
}

fn print(
    output: &mut String,
    answer: &Answer,
    environment: &[i32],
    heap: &[i32],
    constraints: &[i32],
) -> std::fmt::Result {
    writeln!(output, "outcome={}", answer.outcome)?;
    writeln!(output, "place={}", answer.place)?;
    writeln!(output, "steps={}", answer.steps)?;
    writeln!(output, "proposals={}", answer.accepted)?;
    for (variable, cell) in environment.chunks(2).enumerate() {
        print_cell(output, &format!("v{variable}"), cell)?;
    }
    let (count, records) = heap.split_first().unwrap_or((&0, &[]));
    let used = usize::try_from(*count).unwrap_or(0);
    for (number, record) in records.chunks(RECORD_WORDS).enumerate().take(used) {
        print_record(output, number, record)?;
    }
    let (counts, positions) = constraints.split_at_checked(2).unwrap_or_default();
    let (values, identities) = positions
        .split_at_checked(VALUE_POSITIONS)
        .unwrap_or_default();
    print_positions(output, 'c', counts.first(), values)?;
    print_positions(output, 'i', counts.get(1), identities)
}

/// An absent cell prints nothing.
fn print_cell(output: &mut String, name: &str, cell: &[i32]) -> std::fmt::Result {
    match cell {
        [1, _] => writeln!(output, "{name}=nil"),
        [2, payload] => writeln!(output, "{name}=bool {payload}"),
        [3, payload] => writeln!(output, "{name}=int {payload}"),
        [4, payload] => writeln!(output, "{name}=ref {payload}"),
        _ => Ok(()),
    }
}

fn print_record(output: &mut String, number: usize, record: &[i32]) -> std::fmt::Result {
    let (count, fields) = record.split_first().unwrap_or((&0, &[]));
    writeln!(output, "r{number}={count}")?;
    for field in fields.chunks(3).take(FIELDS) {
        if let Some((label, cell)) = field.split_first() {
            print_cell(output, &format!("r{number}.{label}"), cell)?;
        }
    }
    Ok(())
}

fn print_positions(
    output: &mut String,
    letter: char,
    count: Option<&i32>,
    positions: &[i32],
) -> std::fmt::Result {
    let count = count.map_or(0, |count| usize::try_from(*count).unwrap_or(0));
    for (number, position) in positions.iter().take(count).enumerate() {
        writeln!(output, "{letter}{number}={position}")?;
    }
    Ok(())
}
