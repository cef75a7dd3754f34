//! Askings for the tests, and what they tell.

use super::cores::{file, CORE};
use super::*;
use reference::asking::Answer;
use reference::batch::Asking;

/// Outcome, place, solver and words.
pub type Asked = (i32, i32, i32, usize);

/// The word of a statement behind CORE.
pub const BEHIND: i32 = 36;

/// 32 samples, for which the length of 80 is too short.
pub const UNMET: [i32; 6] = [1, 0, 1, 2, 23, 32];

/// 16 samples, as there are.
pub const MET: [i32; 6] = [1, 0, 1, 2, 23, 16];

/// Asks about a statement behind CORE, in the state that CORE leaves.
pub fn behind_core(statement: &[i32], first: &[i32], second: &[i32]) -> Asking {
    let mut program = [&CORE[..], statement].concat();
    program[0] = 3;
    Asking {
        program,
        environment: environment(&[(0, reference(0))]),
        heap: file(80, 16, 16),
        constraints: constraints(&[13], &[]),
        word: BEHIND,
        first: first.to_vec(),
        second: second.to_vec(),
    }
}

/// Asks about a statement of a sheet's program in the sheet's tables.
pub fn in_sheet(sheet: &Sheet, word: i32, first: &[i32], second: &[i32]) -> Asking {
    Asking {
        program: sheet.program.clone(),
        environment: sheet.environment.clone(),
        heap: sheet.heap.clone(),
        constraints: sheet.constraints.clone(),
        word,
        first: first.to_vec(),
        second: second.to_vec(),
    }
}

pub fn asked(answer: &Answer) -> Asked {
    (answer.outcome, answer.place, answer.solver, answer.words)
}

/// Asks and compares what is told.
pub fn check_asking(asking: &Asking, expected: Asked) -> Finish<Answer> {
    let finish = asking.answer();
    let Asking {
        program,
        word,
        first,
        second,
        ..
    } = asking;
    assert_eq!(
        asked(&finish.answer),
        expected,
        "for {word} in {program:?} with {first:?} and {second:?}"
    );
    finish
}

/// As `check_asking`, and no table may have changed.
pub fn check_asking_unchanged(asking: &Asking, expected: Asked) {
    let finish = check_asking(asking, expected);
    assert_eq!(finish.environment, asking.environment);
    assert_eq!(finish.heap, asking.heap);
    assert_eq!(finish.constraints, asking.constraints);
}
