//! Texts for the run lister: sheets, damaged sheets, and rubbish.

use reference::batch::Sheet;
use reference::generator::{self, numbers::Numbers};

const NUMBERS: usize = 4096;
const BYTES: usize = 65_536;

/// The text of a seed and number, the same on every machine.
pub fn text(seed: u64, index: u64) -> Vec<u8> {
    let mut numbers = Numbers::new(seed ^ 0x7465_7874, index);
    match numbers.below(100) {
        0..=49 => whole(&mut numbers, seed, index),
        50..=53 => rubbish(&mut numbers),
        54..=55 => long(&mut numbers),
        _ => damaged(&mut numbers, seed, index),
    }
}

/// The lines of a sheet. Its tables are left out, so that sheets which begin
/// with fresh ones are looked for.
fn whole(numbers: &mut Numbers, seed: u64, index: u64) -> Vec<u8> {
    let later = (1..8u64).map(|turn| generator::sheet(seed, index.wrapping_add(turn << 40)));
    let mut sheet = generator::sheet(seed, index);
    for other in later {
        if is_fresh(&sheet) {
            break;
        }
        sheet = other;
    }
    let mut text = lines(&sheet.program, &sheet.proposals, sheet.budget);
    if numbers.chance(20) {
        text.pop();
    }
    text
}

fn is_fresh(sheet: &Sheet) -> bool {
    let tables = [&sheet.environment, &sheet.heap, &sheet.constraints];
    tables
        .iter()
        .all(|table| table.iter().all(|word| *word == 0))
}

fn lines(program: &[i32], proposals: &[i32], budget: i32) -> Vec<u8> {
    let listed = |words: &[i32]| {
        let words: Vec<String> = words.iter().map(i32::to_string).collect();
        words.join(" ")
    };
    let (program, proposals) = (listed(program), listed(proposals));
    format!("program={program}\nproposals={proposals}\nbudget={budget}\n").into_bytes()
}

/// Bytes of any value, or of those that stand in texts.
fn rubbish(numbers: &mut Numbers) -> Vec<u8> {
    const USUAL: &[u8] = b"program=proposals=budget=0123456789 -\n\n\n";
    let size = match numbers.below(12) {
        0 => BYTES + numbers.below(3) - 1,
        1 => numbers.below(5000),
        _ => numbers.below(120),
    };
    let usual = numbers.chance(50);
    let mut byte = || match usual {
        true => numbers.pick(USUAL).unwrap_or(0),
        false => numbers.below(256) as u8,
    };
    (0..size).map(|_| byte()).collect()
}

/// Lines with about as many numbers as may stand in one, or texts of about as
/// many bytes as one may have.
fn long(numbers: &mut Numbers) -> Vec<u8> {
    let mut near = |most: usize| vec![numbers.word(); most + numbers.below(3) - 1];
    let (first, second) = (near(NUMBERS), near(NUMBERS));
    match numbers.below(3) {
        0 => lines(&first, &[], 100),
        1 => lines(&[0], &second, 100),
        _ => sized(BYTES + numbers.below(3) - 1),
    }
}

/// A text of three fit lines with this many bytes, from 61,523 to 65,619.
fn sized(bytes: usize) -> Vec<u8> {
    let program = [-1_000_000_000; 1370];
    let mut proposals = [-1_000_000_000; NUMBERS];
    let longest = lines(&program, &proposals, 9).len();
    let shorter = longest.saturating_sub(bytes).min(NUMBERS);
    proposals[..shorter].fill(-100_000_000);
    lines(&program, &proposals, 9)
}

fn damaged(numbers: &mut Numbers, seed: u64, index: u64) -> Vec<u8> {
    let mut text = whole(numbers, seed, index);
    for _ in 0..=numbers.below(2) {
        match numbers.below(3) {
            0 => spoil_lines(numbers, &mut text),
            1 => spoil_number(numbers, &mut text),
            _ => spoil_byte(numbers, &mut text),
        }
    }
    text
}

/// Ends of lines, and whole lines.
fn spoil_lines(numbers: &mut Numbers, text: &mut Vec<u8>) {
    let mut lines: Vec<Vec<u8>> = text
        .split(|byte| *byte == b'\n')
        .map(<[u8]>::to_vec)
        .collect();
    let at = numbers.below(lines.len());
    let line = lines.get(at).cloned().unwrap_or_default();
    match numbers.below(8) {
        0 => drop(lines.remove(at)),
        1 => lines.insert(at, line),
        2 => lines.swap(at, 0),
        3 => lines.iter_mut().for_each(|line| line.push(b'\r')),
        4 => lines.push(Vec::new()),
        5 => drop(lines.pop()),
        6 => add(&mut lines, at, numbers.one_of(&[32, 13, 9, 0, 48, 10])),
        _ => {
            let name = line.iter().position(|byte| *byte == b'=');
            insert(lines.get_mut(at), name.map_or(0, |place| place + 1), b" ");
        }
    }
    *text = lines.join(&b'\n');
}

fn add(lines: &mut [Vec<u8>], at: usize, byte: i32) {
    if let Some(line) = lines.get_mut(at) {
        line.push(byte as u8);
    }
}

fn insert(line: Option<&mut Vec<u8>>, place: usize, bytes: &[u8]) {
    if let Some(line) = line {
        let place = place.min(line.len());
        line.splice(place..place, bytes.iter().copied());
    }
}

/// Zeros, signs and digits before or after a number, and the numbers at the
/// ends of the range in its place.
fn spoil_number(numbers: &mut Numbers, text: &mut Vec<u8>) {
    const BEFORE: [&[u8]; 8] = [b"0", b"00", b"+", b"-", b"-0 ", b" ", b"\t", b"--"];
    const AFTER: [&[u8]; 8] = [b"0", b"000000000", b" ", b",", b".0", b"-", b"\r", b"x"];
    const PLACE: [&[u8]; 8] = [
        b"-0",
        b"2147483647 ",
        b"2147483648 ",
        b"-2147483648 ",
        b"-2147483649 ",
        b"4294967296 ",
        b"99999999999999999999999999 ",
        b"-",
    ];
    let starts = |pair: &[u8]| matches!(pair, [b' ' | b'=', _]);
    let places: Vec<usize> = (1..text.len())
        .filter(|at| starts(text.get(at - 1..=*at).unwrap_or(&[])))
        .collect();
    let start = numbers.pick(&places).unwrap_or(0);
    let digits = text.get(start..).unwrap_or(&[]).iter();
    let end = start + digits.take_while(|byte| **byte > b' ').count();
    match numbers.below(3) {
        0 => insert(Some(text), start, BEFORE[numbers.below(8)]),
        1 => insert(Some(text), end, AFTER[numbers.below(8)]),
        _ => insert(Some(text), start, PLACE[numbers.below(8)]),
    }
}

/// A byte changed, added or taken away, and texts cut.
fn spoil_byte(numbers: &mut Numbers, text: &mut Vec<u8>) {
    let at = numbers.below(text.len());
    let byte = match numbers.below(3) {
        0 => numbers.below(256) as u8,
        _ => numbers.pick(b"0123456789 -=\n\r+").unwrap_or(0),
    };
    match numbers.below(5) {
        0 => text.truncate(at),
        1 => insert(Some(text), at, &[byte]),
        2 if !text.is_empty() => drop(text.remove(at)),
        _ => {
            if let Some(slot) = text.get_mut(at) {
                *slot = byte;
            }
        }
    }
}
