//! A list gives what a run over the same assignments does.

use reference::batch::{Finish, List, Sheet};
use reference::entries::starts;
use reference::generator::lists::{moved, MOVED};
use reference::generator::{as_program, list};

const SEED: u64 = 20_240_501;

/// The statement's word of an entry. 7 is told at its path, 15 elsewhere.
fn place(list: &List, finish: &Finish) -> Option<usize> {
    let index = finish.answer.place;
    let first = MOVED as usize + list.sheet.program.len() + 1;
    match (finish.answer.outcome, starts(&list.entries).get(index)) {
        (1 | 3, _) => Some(index),
        (4, _) => Some(index + MOVED as usize),
        (0, _) => Some(first + list.entries.len() + index),
        (15, _) => None,
        (7, Some(start)) => Some(first + start + index + 1),
        (_, Some(start)) => Some(first + start + index),
        _ => None,
    }
}

fn check(list: &List, program: &Sheet) {
    let (finish, run) = (list.answer(), program.answer());
    let line = list.line();
    assert_eq!(run.answer.outcome, finish.answer.outcome, "{line}");
    let begun = u32::from(!(1..=4).contains(&finish.answer.outcome));
    assert_eq!(run.answer.steps - begun, finish.answer.steps, "{line}");
    assert_eq!(run.answer.accepted, finish.answer.accepted, "{line}");
    assert_eq!(run.answer.unread, finish.answer.unread, "{line}");
    assert_eq!(run.environment, finish.environment, "{line}");
    assert_eq!(run.heap, finish.heap, "{line}");
    let constraints = moved(&run.constraints, -MOVED);
    assert_eq!(constraints, Some(finish.constraints.clone()), "{line}");
    if let Some(place) = place(list, &finish) {
        assert_eq!(run.answer.place, place, "{line}");
    }
}

#[test]
fn lists_are_runs() {
    let (count, mut qualified) = (4000, 0);
    for index in 0..count {
        let list = list(SEED, index);
        if let Some(program) = as_program(&list) {
            check(&list, &program);
            qualified += 1;
        }
    }
    assert!(qualified * 100 >= count * 50, "only {qualified}");
}

fn asked(entries: &[i32], budget: i32) -> List {
    List {
        sheet: Sheet::fresh(vec![0], vec![0], budget),
        entries: entries.to_vec(),
    }
}

#[test]
fn the_words_of_the_program() {
    let program = as_program(&asked(&[5, 0, 20, 6, 0, 23, 1], 0)).unwrap();
    let words = [3, 7, 21, 0, 0, 1, 5, 0, 20, 1, 6, 0, 23, 1];
    assert_eq!((&program.program[..], program.budget), (&words[..], 1));
    assert_eq!(program.answer().answer.steps, 1);
}

#[test]
fn what_is_no_program() {
    let entry = [0, 0, 20];
    assert!(as_program(&asked(&entry, 999_999)).is_some());
    assert_eq!(as_program(&asked(&entry, 1_000_000)), None);
    assert_eq!(as_program(&asked(&entry, -1)), None);
    assert_eq!(as_program(&asked(&[0, 0, 24, 0, 0], 5)), None);
    assert_eq!(as_program(&asked(&[0, 0], 5)), None);
    assert!(as_program(&asked(&entry.repeat(254), 5)).is_some());
    assert_eq!(as_program(&asked(&entry.repeat(255), 5)), None);
    let mut deep = asked(&entry, 5);
    deep.sheet.program = [[1, 8, 21].repeat(6), vec![0]].concat();
    assert!(as_program(&deep).is_some());
    deep.sheet.program = [[1, 8, 21].repeat(7), vec![0]].concat();
    assert_eq!(as_program(&deep), None);
    deep.sheet.program = vec![0, 0];
    assert_eq!(as_program(&deep), None);
}
