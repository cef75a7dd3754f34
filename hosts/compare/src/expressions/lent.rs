//! Environments and heaps: fit ones, and damaged ones.

use crate::damage::word;
use reference::generator::numbers::Numbers;
use reference::tables::{ENVIRONMENT_WORDS, FIELDS, HEAP_WORDS, RECORDS, RECORD_WORDS, VARIABLES};

#[derive(Clone, Debug)]
pub struct Lent {
    pub environment: Vec<i32>,
    pub heap: Vec<i32>,
    /// How many records the heap has.
    records: usize,
}

pub fn fit(numbers: &mut Numbers) -> Lent {
    let records = match numbers.below(8) {
        0 => 0,
        1 => RECORDS,
        _ => 1 + numbers.below(10),
    };
    let present = [30, 70, 100].get(numbers.below(3)).copied().unwrap_or(100);
    let mut environment = vec![0; ENVIRONMENT_WORDS];
    for variable in 0..VARIABLES {
        if numbers.chance(present) {
            put(&mut environment, 2 * variable, &value(numbers, records));
        }
    }
    let mut heap = vec![0; HEAP_WORDS];
    put(&mut heap, 0, &[small(records)]);
    for record in 0..records {
        fill(numbers, &mut heap, 1 + RECORD_WORDS * record, records);
    }
    Lent {
        environment,
        heap,
        records,
    }
}

/// A record whose labels differ, small ones mostly.
fn fill(numbers: &mut Numbers, heap: &mut [i32], at: usize, records: usize) {
    let count = match numbers.below(4) {
        0 => numbers.below(FIELDS + 1),
        _ => 1 + numbers.below(4),
    };
    let first = numbers.one_of(&[0, 0, 0, 1, 24, 31]);
    let step = numbers.one_of(&[1, 1, 3, 5, 31]);
    put(heap, at, &[small(count)]);
    for place in 0..count {
        let label = (first + step * small(place)) % 32;
        let [kind, payload] = value(numbers, records);
        put(heap, at + 1 + 3 * place, &[label, kind, payload]);
    }
}

/// A cell that is not absent.
fn value(numbers: &mut Numbers, records: usize) -> [i32; 2] {
    match numbers.below(9) {
        0 => [1, 0],
        1 | 2 => [2, numbers.between(0, 1)],
        3..=5 if records > 0 => [4, small(numbers.below(records))],
        _ => [3, numbers.literal()],
    }
}

/// Tables with up to eight things changed; most words changed are in use.
pub fn damaged(numbers: &mut Numbers) -> Lent {
    let mut lent = fit(numbers);
    for _ in 0..=numbers.below(8) {
        damage(numbers, &mut lent);
    }
    lent
}

fn damage(numbers: &mut Numbers, lent: &mut Lent) {
    let variable = 2 * numbers.below(VARIABLES);
    let record = 1 + RECORD_WORDS * numbers.below((lent.records + 1).min(RECORDS));
    let field = record + 1 + 3 * numbers.below(FIELDS);
    let odd = odd(numbers);
    match numbers.below(14) {
        0 => put(&mut lent.environment, variable, &[odd]),
        1 => put(&mut lent.environment, variable + 1, &[odd]),
        2 => put(&mut lent.environment, variable, &[2, odd]),
        3 | 4 => put(&mut lent.environment, variable, &[4, odd]),
        5 => put(&mut lent.heap, record, &[odd]),
        6 | 7 => put(&mut lent.heap, field, &[odd]),
        8 => put(&mut lent.heap, field + 1, &[odd]),
        9 => put(&mut lent.heap, field + 1, &[4, odd]),
        10 => put(&mut lent.heap, field + 2, &[odd]),
        11 => put(&mut lent.heap, 0, &[odd]),
        12 => resize(numbers, &mut lent.environment, 2 * VARIABLES),
        _ => resize(numbers, &mut lent.heap, 1 + RECORD_WORDS * lent.records),
    }
}

/// A number at or past the edge of some range, or any word.
fn odd(numbers: &mut Numbers) -> i32 {
    match numbers.below(3) {
        0 => numbers.one_of(&[
            -1,
            0,
            1,
            2,
            4,
            5,
            8,
            9,
            31,
            32,
            63,
            64,
            65,
            i32::MAX,
            i32::MIN,
        ]),
        1 => numbers.between(0, 12),
        _ => word(numbers),
    }
}

/// Cuts a table, among the words in use mostly, or lengthens it.
fn resize(numbers: &mut Numbers, table: &mut Vec<i32>, used: usize) {
    match numbers.below(4) {
        0 => table.extend((0..=numbers.below(4)).map(|_| word(numbers))),
        1 => table.truncate(numbers.below(table.len() + 1)),
        _ => table.truncate(numbers.below(used + 1)),
    }
}

fn put(table: &mut [i32], at: usize, words: &[i32]) {
    for (slot, word) in table.iter_mut().skip(at).zip(words) {
        *slot = *word;
    }
}

fn small(number: usize) -> i32 {
    i32::try_from(number).unwrap_or(i32::MAX)
}
