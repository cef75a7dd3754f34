//! Each limit of document 01 at its edge and one past it.

use super::numbers::Numbers;
use crate::batch::Sheet;
use crate::tables::{Tables, Value};

/// A limit sheet; `past` is 0 at the edge and 1 one past it.
pub fn sheet(numbers: &mut Numbers) -> Sheet {
    let past = numbers.below(2);
    match numbers.below(24) {
        0 => plain(counted(&[0], 255 + past)),
        1 => plain(nested_blocks(8 + past, numbers.chance(50))),
        2 => plain(nested_sum(numbers, 16 + past)),
        3 => long_path(numbers, 7 + past),
        4 => plain(record(numbers, 8 + past)),
        5 => plain(vec![1, 2, 0, 1, small(31 + past), 20]),
        6 => plain(vec![1, 1, small(63 + past), 0, 20]),
        7 => plain(parts(numbers, past * 17)),
        8 => plain(parts(numbers, 16 + past)),
        9 => longest(4096 + past),
        10 => zeros(counted(&[2, 0, 0], 64 + past), 70),
        11 => zeros(counted(&[3, 1, 1, 22], 64 + past), 70),
        12 => zeros(nil_first(&[5, 0, 0, 0, 0], 32 + past), 9),
        13 => budget(numbers, past),
        14 | 15 => many_entries(numbers, 576 + past),
        16 => one_entry(576 - 1 + past),
        17 => plain(vec![1, 4, 1, 1 + numbers.one_of(&[-1, 2, 3]), 22]),
        18 => plain(vec![
            1,
            1,
            0,
            0,
            25,
            numbers.one_of(&[0, 1, 11, 12]),
            22,
            22,
        ]),
        19 => kept_full(past),
        20 => zeros(vec![1, 8, 22, 1, 2, 0, 0], 66),
        21 => plain(twice(numbers, past)),
        22 => plain(identity_inside(numbers, past)),
        _ => extra(numbers, past),
    }
}

fn small(number: usize) -> i32 {
    i32::try_from(number).unwrap_or(0)
}

fn plain(program: Vec<i32>) -> Sheet {
    Sheet::fresh(program, vec![0, 0, 0], 1000)
}

fn zeros(program: Vec<i32>, count: usize) -> Sheet {
    Sheet::fresh(program, vec![0; count], 1000)
}

fn counted(statement: &[i32], count: usize) -> Vec<i32> {
    [&[small(count)][..], &statement.repeat(count)].concat()
}

fn nil_first(statement: &[i32], count: usize) -> Vec<i32> {
    let start = [small(count + 1), 1, 0, 0, 20];
    [&start[..], &statement.repeat(count)].concat()
}

fn nested_blocks(depth: usize, branches: bool) -> Vec<i32> {
    let level: &[i32] = if branches {
        &[1, 7, 22, 0]
    } else {
        &[1, 8, 21]
    };
    [&level.repeat(depth - 1)[..], &[0]].concat()
}

fn nested_sum(numbers: &mut Numbers, depth: usize) -> Vec<i32> {
    let inner = depth - 1;
    let start: &[i32] = match numbers.below(3) {
        0 => &[1, 1, 0, 0],
        1 => &[1, 4, 1, 1, 25, 6, 23, 0],
        _ => &[1, 7, 25, 4, 23, 0],
    };
    let inner = if start.len() == 4 { inner } else { inner - 1 };
    let sum = match numbers.chance(50) {
        true => [[25, 1].repeat(inner), [23, 1].repeat(inner + 1)].concat(),
        false => [[25, 1, 23, 1].repeat(inner), vec![23, 1]].concat(),
    };
    let end: &[i32] = if start.len() == 6 { &[0, 0] } else { &[] };
    [start, &sum, end].concat()
}

fn long_path(numbers: &mut Numbers, labels: usize) -> Sheet {
    let path = [&[0, small(labels)][..], &vec![5; labels]].concat();
    let program = match numbers.below(3) {
        0 => [&[1, 1, 1, 0, 24][..], &path].concat(),
        1 => [&[1, 1][..], &path, &[24, 0, 0]].concat(),
        _ => [&[1, 5][..], &path, &[0, 0]].concat(),
    };
    let mut sheet = plain(program);
    let mut tables = Tables::default();
    tables.add_record(&[(5, Value::Reference(0))]);
    tables.set(0, Value::Reference(0));
    sheet.fill(&tables);
    sheet
}

fn record(numbers: &mut Numbers, fields: usize) -> Vec<i32> {
    let mut program = vec![1, 2, 0, small(fields)];
    for field in 0..fields {
        program.extend([31 - small(field), 23, numbers.literal()]);
    }
    program
}

fn parts(numbers: &mut Numbers, count: usize) -> Vec<i32> {
    let statement = numbers.between(3, 4);
    let mut program = vec![1, statement, small(count)];
    for _ in 0..count {
        program.extend([numbers.between(1, 3), 22]);
    }
    program
}

/// A program that fills a number of words from 3,887 up with skips.
fn longest(words: usize) -> Sheet {
    let skips = words.saturating_sub(1 + 15 * 259);
    let mut program = vec![small(15 + skips)];
    for _ in 0..15 {
        program.extend([7, 22, 255]);
        program.extend([0; 255]);
        program.push(0);
    }
    program.extend(vec![0; skips]);
    Sheet::fresh(program, Vec::new(), 5000)
}

fn budget(numbers: &mut Numbers, past: usize) -> Sheet {
    let forever = numbers.chance(5);
    let program = if forever {
        vec![1, 8, 22, 0]
    } else {
        vec![1, 0]
    };
    let edges = if past == 0 {
        [0, 1_000_000]
    } else {
        [-1, 1_000_001]
    };
    Sheet::fresh(program, Vec::new(), numbers.one_of(&edges))
}

/// Integers in every cell, and a weak part that never holds.
fn all_integers(proposals: Vec<i32>) -> Sheet {
    let mut sheet = Sheet::fresh(vec![2, 0, 4, 1, 1, 21], proposals, 100);
    let mut tables = Tables::default();
    for variable in 0..64 {
        tables.set(variable, Value::Integer(0));
    }
    for _ in 0..64 {
        let fields: Vec<(usize, Value)> = (0..8).map(|l| (l, Value::Integer(0))).collect();
        tables.add_record(&fields);
    }
    sheet.fill(&tables);
    sheet
}

/// A proposal that changes all cells, sometimes with one fault in it.
fn many_entries(numbers: &mut Numbers, count: usize) -> Sheet {
    let mut proposal = vec![small(count)];
    for location in 0..count {
        proposal.extend([small(location), 1 + numbers.below(9) as i32]);
    }
    if numbers.chance(40) {
        let place = 1 + numbers.below(proposal.len() - 1);
        if let Some(word) = proposal.get_mut(place) {
            *word = numbers.between(0, 1);
        }
    }
    all_integers(proposal)
}

fn one_entry(location: usize) -> Sheet {
    all_integers(vec![1, small(location), 5])
}

/// 64 positions kept from the start; running them again needs no room.
fn kept_full(past: usize) -> Sheet {
    let mut sheet = zeros(counted(&[3, 1, 1, 22], 64 + past), 70);
    let mut tables = Tables::default();
    tables.values = (0..64).map(|number| 1 + 4 * number).rev().collect();
    sheet.fill(&tables);
    sheet
}

/// A record with labels that differ, or with a label twice.
fn twice(numbers: &mut Numbers, past: usize) -> Vec<i32> {
    let label = numbers.between(0, 31);
    let other = if past == 1 { label } else { (label + 1) % 32 };
    let between = (label + 2) % 32;
    vec![1, 2, 0, 3, label, 20, between, 20, other, 23, 4]
}

/// An identity in a test, or inside C.
fn identity_inside(numbers: &mut Numbers, past: usize) -> Vec<i32> {
    let start: &[i32] = match (past, numbers.below(3)) {
        (0, _) => &[2, 1, 0, 0, 20, 1, 1, 0, 25, 10, 22],
        (_, 0) => &[2, 1, 0, 0, 20, 3, 1, 3],
        (_, 1) => &[2, 1, 0, 0, 20, 4, 2, 1, 22, 3],
        _ => &[2, 1, 0, 0, 20, 3, 1, 1, 25, 10, 22],
    };
    [start, &[26, 0, 0, 0, 0]].concat()
}

/// Words left over behind the program, or the last ones missing.
fn extra(numbers: &mut Numbers, past: usize) -> Sheet {
    let mut program = vec![2, 2, 0, 1, 0, 23, 1, 1, 1, 0, 24, 0, 1, 0];
    if past == 1 {
        program.push(0);
    } else if numbers.chance(70) {
        program.truncate(numbers.below(program.len()));
    }
    plain(program)
}
