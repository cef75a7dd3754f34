//! Builders of words and tables for the tests.
#![allow(dead_code)]

pub mod askings;
pub mod cores;
pub mod judge;
pub mod texts;
pub mod write_cases;
pub mod writer;

use reference::batch::{Finish, List, Sheet};
use reference::tables::{CONSTRAINT_WORDS, ENVIRONMENT_WORDS, HEAP_WORDS};

pub const P: [i32; 33] = [
    3, 2, 0, 2, 0, 23, 64, 1, 23, 16, 3, 1, 3, 25, 6, 24, 0, 1, 0, 25, 3, 23, 4, 24, 0, 1, 1, 1, 0,
    1, 1, 23, 32,
];

/// A cell's two words.
pub type Cell = (i32, i32);

pub const NIL: Cell = (1, 0);

pub fn int(number: i32) -> Cell {
    (3, number)
}

pub fn boolean(truth: bool) -> Cell {
    (2, i32::from(truth))
}

pub fn reference(record: i32) -> Cell {
    (4, record)
}

pub fn environment(cells: &[(usize, Cell)]) -> Vec<i32> {
    let mut words = vec![0; ENVIRONMENT_WORDS];
    for (variable, (kind, payload)) in cells {
        words[2 * variable] = *kind;
        words[2 * variable + 1] = *payload;
    }
    words
}

pub fn heap(records: &[&[(i32, Cell)]]) -> Vec<i32> {
    let mut words = vec![0; HEAP_WORDS];
    words[0] = records.len() as i32;
    for (number, fields) in records.iter().enumerate() {
        let start = 1 + 25 * number;
        words[start] = fields.len() as i32;
        for (place, (label, (kind, payload))) in fields.iter().enumerate() {
            let at = start + 1 + 3 * place;
            words[at..at + 3].copy_from_slice(&[*label, *kind, *payload]);
        }
    }
    words
}

pub fn constraints(values: &[i32], identities: &[i32]) -> Vec<i32> {
    let mut words = vec![0; CONSTRAINT_WORDS];
    words[0] = values.len() as i32;
    words[1] = identities.len() as i32;
    words[2..2 + values.len()].copy_from_slice(values);
    words[66..66 + identities.len()].copy_from_slice(identities);
    words
}

pub fn tables(sheet: &mut Sheet, environment: Vec<i32>, heap: Vec<i32>, constraints: Vec<i32>) {
    sheet.environment = environment;
    sheet.heap = heap;
    sheet.constraints = constraints;
}

pub fn fresh(program: &[i32], proposals: &[i32]) -> Sheet {
    Sheet::fresh(program.to_vec(), proposals.to_vec(), 100)
}

/// One block of statements given as word lists.
pub fn block(statements: &[&[i32]]) -> Vec<i32> {
    let mut words = vec![statements.len() as i32];
    for statement in statements {
        words.extend_from_slice(statement);
    }
    words
}

/// Outcome, place, steps, accepted and unread.
pub type Told = (i32, usize, u32, u32, usize);

fn told(finish: &Finish) -> Told {
    let answer = &finish.answer;
    (
        answer.outcome,
        answer.place,
        answer.steps,
        answer.accepted,
        answer.unread,
    )
}

/// Runs a sheet and compares what is told.
pub fn check(sheet: &Sheet, expected: Told) -> Finish {
    let finish = sheet.answer();
    let (program, proposals) = (&sheet.program, &sheet.proposals);
    assert_eq!(
        told(&finish),
        expected,
        "for {program:?} with {proposals:?}"
    );
    finish
}

/// Carries out a list and compares what is told.
pub fn check_list(list: &List, expected: Told) -> Finish {
    let finish = list.answer();
    let (entries, proposals) = (&list.entries, &list.sheet.proposals);
    assert_eq!(
        told(&finish),
        expected,
        "for {entries:?} with {proposals:?}"
    );
    finish
}

pub fn check_tables<A>(finish: &Finish<A>, environment: &[i32], heap: &[i32], constraints: &[i32]) {
    assert_eq!(finish.environment, environment);
    assert_eq!(finish.heap, heap);
    assert_eq!(finish.constraints, constraints);
}

/// As `check`, and no table may have changed.
pub fn check_unchanged(sheet: &Sheet, expected: Told) {
    let finish = check(sheet, expected);
    check_tables(&finish, &sheet.environment, &sheet.heap, &sheet.constraints);
}

/// As `check_list`, and no table may have changed.
pub fn check_list_unchanged(list: &List, expected: Told) {
    let (finish, sheet) = (check_list(list, expected), &list.sheet);
    check_tables(&finish, &sheet.environment, &sheet.heap, &sheet.constraints);
}

/// A sum of all bytes that depends on their order.
pub fn digest(lines: impl Iterator<Item = String>) -> u64 {
    let mut sum = 0xcbf2_9ce4_8422_2325u64;
    for byte in lines.flat_map(String::into_bytes) {
        sum = (sum ^ u64::from(byte)).wrapping_mul(0x0100_0000_01b3);
    }
    sum
}
