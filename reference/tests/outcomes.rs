//! Every outcome once by a hand-written sheet, and the counting of steps.

mod common;
use common::*;
use reference::batch::Sheet;

#[test]
fn finished_with_leftover_words() {
    check_unchanged(&fresh(&[1, 0], &[9, 9]), (0, 2, 1, 0, 2));
}

#[test]
fn wrong_size() {
    let mut sheet = fresh(&P, &[0]);
    sheet.heap.pop();
    check_unchanged(&sheet, (1, 0, 0, 0, 1));
}

#[test]
fn unfit_programs() {
    check_unchanged(&fresh(&[0, 0], &[0]), (2, 1, 0, 0, 1));
    check_unchanged(&fresh(&[1], &[0]), (2, 1, 0, 0, 1));
    check_unchanged(&fresh(&[1, 2, 0, 2, 5, 20, 5, 99], &[0]), (2, 6, 0, 0, 1));
    check_unchanged(&fresh(&[1, 3, 1, 3, 25, 6, 26], &[]), (2, 6, 0, 0, 0));
}

fn with_environment(words: Vec<i32>) -> Sheet {
    let mut sheet = fresh(&[0], &[]);
    sheet.environment = words;
    sheet
}

#[test]
fn unfit_environments() {
    for cell in [(0, 1), (1, 1), (2, 2), (2, -1), (4, 0), (5, 0), (-1, 0)] {
        let sheet = with_environment(environment(&[(63, cell)]));
        check_unchanged(&sheet, (3, 0, 0, 0, 0));
    }
    for cell in [NIL, boolean(true), int(i32::MIN)] {
        let sheet = with_environment(environment(&[(63, cell)]));
        check_unchanged(&sheet, (0, 1, 0, 0, 0));
    }
}

#[test]
fn references_are_held_to_the_count_word() {
    let mut sheet = with_environment(environment(&[(0, reference(70))]));
    sheet.heap[0] = 71;
    check_unchanged(&sheet, (3, 1, 0, 0, 0));
    sheet.heap[0] = 70;
    check_unchanged(&sheet, (3, 0, 0, 0, 0));
    sheet.heap[0] = -1;
    sheet.environment = environment(&[(0, reference(0))]);
    check_unchanged(&sheet, (3, 0, 0, 0, 0));
    sheet.environment = environment(&[(0, reference(-2))]);
    check_unchanged(&sheet, (3, 0, 0, 0, 0));
}

#[test]
fn unfit_heaps() {
    let fit = heap(&[&[(31, int(4)), (2, reference(1))], &[(0, reference(0))]]);
    for (at, word) in [
        (0, 65),
        (0, 1),
        (0, -1),
        (1, 9),
        (1, -1),
        (1, 1),
        (1, 3),
        (2, 32),
        (2, -1),
        (2, 2),
        (3, 0),
        (3, 5),
        (7, 2),
        (8, 1),
        (10, 1),
        (51, 1),
        (1600, 1),
    ] {
        let mut sheet = fresh(&[0], &[]);
        sheet.heap = fit.clone();
        check_unchanged(&sheet, (0, 1, 0, 0, 0));
        sheet.heap[at] = word;
        check_unchanged(&sheet, (3, 1, 0, 0, 0));
    }
}

#[test]
fn unfit_constraints() {
    let program = block(&[
        &[7, 21, 2, 3, 1, 1, 21, 5, 0, 0, 0, 0, 0],
        &[3, 1, 1, 21],
        &[4, 1, 1, 21],
    ]);
    let mut sheet = fresh(&program, &[]);
    sheet.environment = environment(&[(0, NIL)]);
    sheet.budget = 0;
    sheet.constraints = constraints(&[14, 4], &[8]);
    check_unchanged(&sheet, (5, 1, 0, 0, 0));
    for (at, word) in [
        (0, 3),
        (0, 1),
        (0, 65),
        (0, -1),
        (1, 2),
        (1, 0),
        (1, 33),
        (2, 4),
        (2, 8),
        (2, 18),
        (2, -4),
        (3, 99),
        (5, 1),
        (66, 4),
        (67, 1),
        (97, 1),
    ] {
        let mut changed = sheet.clone();
        changed.constraints[at] = word;
        check_unchanged(&changed, (3, 2, 0, 0, 0));
    }
}

#[test]
fn unfit_start() {
    let program = block(&[&[3, 2, 1, 21, 3, 24, 0, 0], &[5, 1, 0, 2, 0]]);
    let mut sheet = fresh(&program, &[0]);
    sheet.constraints = constraints(&[1], &[9]);
    for (first, second, third, outcome, place) in [
        (boolean(true), NIL, NIL, 0, 14),
        (boolean(false), NIL, NIL, 4, 1),
        (int(1), NIL, NIL, 4, 1),
        (boolean(true), NIL, (0, 0), 4, 9),
        (boolean(true), int(1), int(1), 4, 9),
        (boolean(true), NIL, int(0), 4, 9),
    ] {
        sheet.environment = environment(&[(0, first), (1, second), (2, third)]);
        let answer = sheet.answer().answer;
        assert_eq!((answer.outcome, answer.place), (outcome, place));
    }
}

#[test]
fn budget_in_a_loop_counts_later_tests() {
    let count_to_three = block(&[
        &[1, 0, 0, 23, 0],
        &[8, 25, 4, 24, 0, 0, 23, 3],
        &[1, 1, 0, 0, 25, 1, 24, 0, 0, 23, 1],
    ]);
    let mut program = count_to_three;
    program[0] = 2;
    let mut sheet = Sheet::fresh(program, vec![0; 9], 8);
    let finish = check(&sheet, (0, 25, 8, 4, 5));
    assert_eq!(finish.environment, environment(&[(0, int(3))]));
    sheet.budget = 7;
    let finish = check(&sheet, (5, 6, 7, 4, 5));
    assert_eq!(finish.environment, environment(&[(0, int(3))]));
    sheet.budget = 6;
    let finish = check(&sheet, (5, 15, 6, 3, 6));
    assert_eq!(finish.environment, environment(&[(0, int(2))]));
    sheet.proposals = vec![0, 0];
    check(&sheet, (6, 15, 5, 2, 0));
}

#[test]
fn a_later_test_may_be_refused() {
    let program = block(&[&[1, 0, 0, 22], &[8, 24, 0, 0, 1, 1, 0, 0, 23, 7], &[0]]);
    let finish = check(&fresh(&program, &[0; 9]), (8, 6, 4, 2, 7));
    assert_eq!(finish.environment, environment(&[(0, int(7))]));
}

#[test]
fn missing_cells() {
    for (statement, place) in [
        (&[1, 0, 0, 24, 1, 0][..], 5),
        (&[1, 0, 1, 0, 20], 2),
        (&[7, 26, 0, 0, 0, 0, 0, 0], 3),
        (&[5, 0, 0, 0, 0], 2),
        (&[4, 1, 1, 24, 0, 0], 5),
    ] {
        check_unchanged(&fresh(&block(&[statement]), &[0]), (7, place, 1, 0, 1));
    }
    let mut sheet = fresh(&[1, 1, 0, 1, 4, 20], &[0]);
    sheet.environment = environment(&[(0, reference(0))]);
    sheet.heap = heap(&[&[(5, NIL)]]);
    check_unchanged(&sheet, (7, 2, 1, 0, 1));
    sheet.program = vec![1, 1, 0, 2, 5, 5, 20];
    check_unchanged(&sheet, (7, 2, 1, 0, 1));
}

#[test]
fn wrong_kinds() {
    let mut statements: Vec<(Vec<i32>, usize)> = vec![
        (vec![7, 20, 0, 0], 2),
        (vec![8, 23, 1, 0], 2),
        (vec![4, 1, 1, 23, 1], 3),
        (vec![6, 1, 0, 1, 0], 2),
        (vec![1, 2, 0, 25, 6, 24, 0, 0, 20], 4),
        (vec![1, 2, 0, 25, 7, 20, 24, 0, 0], 4),
        (vec![4, 1, 1, 25, 6, 24, 0, 0, 20], 4),
    ];
    for operator in [1, 2, 3, 4, 5, 8, 9] {
        statements.push((vec![1, 2, 0, 25, operator, 23, 1, 22], 4));
        statements.push((vec![4, 1, 1, 25, operator, 20, 23, 1], 4));
    }
    for operator in [10, 11] {
        statements.push((vec![1, 2, 0, 25, operator, 22, 20], 4));
        statements.push((vec![4, 1, 1, 25, operator, 23, 1, 22], 4));
    }
    for (statement, place) in statements {
        let mut sheet = fresh(&block(&[&statement]), &[0]);
        sheet.environment = environment(&[(0, reference(0)), (1, int(1))]);
        sheet.heap = heap(&[&[]]);
        check_unchanged(&sheet, (8, place, 1, 0, 1));
    }
}

#[test]
fn both_sides_of_and_are_evaluated() {
    let program = block(&[&[1, 0, 0, 25, 10, 21, 24, 1, 0]]);
    check_unchanged(&fresh(&program, &[0]), (7, 8, 1, 0, 1));
    let program = block(&[&[1, 0, 0, 25, 11, 22, 23, 1]]);
    check_unchanged(&fresh(&program, &[0]), (8, 4, 1, 0, 1));
}

#[test]
fn ranges() {
    for (operator, left, right, fits) in [
        (1, i32::MAX, 1, false),
        (1, i32::MAX, 0, true),
        (2, i32::MIN, 1, false),
        (2, 0, i32::MIN, false),
        (2, -1, i32::MIN, true),
        (3, 65_536, 32_768, false),
        (3, -65_536, 32_768, true),
        (3, i32::MIN, -1, false),
    ] {
        let program = block(&[&[1, 0, 0, 25, operator, 23, left, 23, right]]);
        let expected = if fits {
            (0, 10, 1, 1, 0)
        } else {
            (9, 4, 1, 0, 1)
        };
        check(&fresh(&program, &[0]), expected);
    }
}

#[test]
fn overflow_inside_a_constraint_is_no_fault() {
    let overflow = [25, 9, 25, 1, 23, i32::MAX, 23, 1, 23, 0];
    let with = |priority: i32| {
        let mut statement = vec![4, 1, priority, 25, 11, 22];
        statement.extend(overflow);
        block(&[&statement])
    };
    check_unchanged(&fresh(&with(1), &[0]), (0, 17, 1, 1, 0));
    check_unchanged(&fresh(&with(3), &[0]), (19, 1, 1, 0, 1));
}

#[test]
fn identity_that_does_not_hold() {
    let mut sheet = fresh(&block(&[&[5, 0, 0, 1, 0]]), &[]);
    sheet.environment = environment(&[(0, reference(0)), (1, NIL)]);
    sheet.heap = heap(&[&[]]);
    check_unchanged(&sheet, (11, 1, 1, 0, 0));
    sheet.environment = environment(&[(0, reference(0)), (1, reference(0))]);
    let finish = check(&sheet, (0, 6, 1, 0, 0));
    assert_eq!(finish.constraints, constraints(&[], &[1]));
}

#[test]
fn prefix_of_a_kept_identity_is_frozen_not_named() {
    let program = block(&[&[5, 0, 1, 0, 1, 0], &[1, 0, 0, 23, 5]]);
    let mut sheet = fresh(&program, &[0]);
    sheet.environment = environment(&[(0, reference(0)), (1, NIL)]);
    sheet.heap = heap(&[&[(0, NIL)]]);
    let finish = check(&sheet, (12, 7, 2, 0, 1));
    assert_eq!(finish.environment, sheet.environment);
    sheet.program = block(&[&[5, 0, 1, 0, 1, 0], &[1, 0, 0, 24, 0, 0]]);
    check(&sheet, (0, 13, 2, 1, 0));
}

#[test]
fn ties_are_transitive() {
    let program = block(&[
        &[5, 0, 0, 1, 0],
        &[5, 3, 0, 2, 0],
        &[5, 1, 0, 2, 0],
        &[2, 3, 1, 0, 23, 1],
    ]);
    let mut sheet = fresh(&program, &[1, 64, 2]);
    sheet.environment = environment(&[(0, NIL), (1, NIL), (2, NIL), (3, NIL), (4, NIL)]);
    let finish = check(&sheet, (18, 16, 4, 0, 3));
    assert_eq!(finish.heap, heap(&[]));
    sheet.proposals = vec![0];
    let finish = check(&sheet, (0, 22, 4, 1, 0));
    let zero = reference(0);
    assert_eq!(
        finish.environment,
        environment(&[(0, zero), (1, zero), (2, zero), (3, zero), (4, NIL)])
    );
}

#[test]
fn fields_of_a_new_record_may_be_changed() {
    let program = block(&[&[3, 1, 1, 21], &[2, 0, 1, 0, 23, 1]]);
    let finish = check(&fresh(&program, &[0, 1, 64, 2]), (0, 11, 2, 2, 0));
    assert_eq!(finish.heap, heap(&[&[(0, int(2))]]));
}

#[test]
fn unfit_entries() {
    let mut sheet = fresh(&block(&[&[4, 1, 1, 21]]), &[]);
    sheet.environment =
        environment(&[(0, NIL), (1, boolean(true)), (2, int(5)), (3, reference(0))]);
    sheet.heap = heap(&[&[(9, int(1))]]);
    for entry in [
        [0, 1],
        [1, 1],
        [1, 2],
        [1, -1],
        [2, 5],
        [3, 0],
        [4, 1],
        [65, 1],
        [72, 1],
        [575, 1],
    ] {
        sheet.proposals = vec![1, entry[0], entry[1]];
        check_unchanged(&sheet, (17, 1, 1, 0, 3));
    }
    sheet.proposals = vec![3, 1, 0, 2, 6, 64, 0];
    check(&sheet, (0, 5, 1, 1, 0));
}

#[test]
fn unfit_proposals() {
    let mut sheet = fresh(&block(&[&[4, 1, 1, 21]]), &[]);
    sheet.environment = environment(&[(1, int(0)), (2, int(0))]);
    for proposal in [
        vec![1],
        vec![1, 1],
        vec![2, 1, 1, 2],
        vec![2, 1, 1, 1, 2],
        vec![2, 2, 1, 1, 1],
        vec![577],
        vec![-1, 1, 1],
        vec![i32::MAX],
    ] {
        let unread = proposal.len();
        sheet.proposals = proposal;
        check_unchanged(&sheet, (16, 1, 1, 0, unread));
    }
}
