//! Each limit of document 01 at its edge and one past it.

mod common;
use common::*;
use reference::batch::Sheet;

#[test]
fn statements_in_a_block() {
    let mut program = vec![255];
    program.extend(vec![0; 255]);
    let mut sheet = fresh(&program, &[]);
    sheet.budget = 1000;
    check_unchanged(&sheet, (0, 256, 255, 0, 0));
    sheet.program[0] = 256;
    sheet.program.push(0);
    check_unchanged(&sheet, (2, 0, 0, 0, 0));
    check_unchanged(&fresh(&[-1], &[]), (2, 0, 0, 0, 0));
    check_unchanged(&fresh(&[1, 8, 21, 256], &[]), (2, 3, 0, 0, 0));
}

fn nested_blocks(depth: usize) -> Vec<i32> {
    let mut program = [1, 8, 21].repeat(depth - 1);
    program.push(0);
    program
}

#[test]
fn nesting_of_blocks() {
    check_unchanged(&fresh(&nested_blocks(8), &[]), (0, 22, 1, 0, 0));
    check_unchanged(&fresh(&nested_blocks(9), &[]), (2, 24, 0, 0, 0));
    let mut second = [1, 7, 22, 0].repeat(7);
    second.push(0);
    check_unchanged(&fresh(&second, &[]), (0, 29, 1, 0, 0));
    let mut second = [1, 7, 22, 0].repeat(8);
    second.push(0);
    check_unchanged(&fresh(&second, &[]), (2, 31, 0, 0, 0));
}

/// `v0 := e` where e adds zeros and is nested to a depth.
fn nested_sum(depth: usize, to_the_left: bool) -> Vec<i32> {
    let inner = depth - 1;
    let mut program = vec![1, 1, 0, 0];
    if to_the_left {
        program.extend([25, 1].repeat(inner));
        program.extend([23, 0].repeat(inner + 1));
    } else {
        program.extend([25, 1, 23, 0].repeat(inner));
        program.extend([23, 0]);
    }
    program
}

#[test]
fn nesting_of_expressions() {
    for left in [true, false] {
        let finish = check(&fresh(&nested_sum(16, left), &[0]), (0, 66, 1, 1, 0));
        assert_eq!(finish.environment, environment(&[(0, int(0))]));
    }
    check_unchanged(&fresh(&nested_sum(17, true), &[0]), (2, 36, 0, 0, 1));
    check_unchanged(&fresh(&nested_sum(17, false), &[0]), (2, 66, 0, 0, 1));
}

#[test]
fn labels_in_a_path() {
    let mut sheet = fresh(&[1, 1, 1, 0, 24, 0, 7, 5, 5, 5, 5, 5, 5, 5], &[0]);
    sheet.environment = environment(&[(0, reference(0))]);
    sheet.heap = heap(&[&[(5, reference(0))]]);
    let finish = check(&sheet, (0, 14, 1, 1, 0));
    assert_eq!(
        finish.environment,
        environment(&[(0, reference(0)), (1, reference(0))])
    );
    sheet.program[6] = 8;
    sheet.program.push(5);
    check_unchanged(&sheet, (2, 6, 0, 0, 1));
    sheet.program = vec![1, 1, 1, 0, 24, 0, -1];
    check_unchanged(&sheet, (2, 6, 0, 0, 1));
}

fn record_program(fields: i32) -> Vec<i32> {
    let mut program = vec![1, 2, 0, fields];
    for label in 0..fields {
        program.extend([31 - label, 20]);
    }
    program
}

#[test]
fn fields_of_a_record() {
    let finish = check(&fresh(&record_program(8), &[0]), (0, 20, 1, 1, 0));
    let fields: Vec<(i32, Cell)> = (0..8).map(|label| (31 - label, NIL)).collect();
    assert_eq!(finish.heap, heap(&[&fields]));
    check_unchanged(&fresh(&record_program(9), &[0]), (2, 3, 0, 0, 1));
}

#[test]
fn labels_and_variables() {
    check(&fresh(&[1, 2, 63, 1, 31, 20], &[0]), (0, 6, 1, 1, 0));
    check_unchanged(&fresh(&[1, 2, 0, 1, 32, 20], &[0]), (2, 4, 0, 0, 1));
    check_unchanged(&fresh(&[1, 2, 64, 0], &[0]), (2, 2, 0, 0, 1));
    check_unchanged(&fresh(&[1, 2, -1, 0], &[0]), (2, 2, 0, 0, 1));
    check_unchanged(&fresh(&[1, 1, 64, 0, 20], &[0]), (2, 2, 0, 0, 1));
    check_unchanged(&fresh(&[1, 1, 0, 1, 32, 20], &[0]), (2, 4, 0, 0, 1));
    check_unchanged(&fresh(&[1, 1, 0, 0, 24, 64, 0], &[0]), (2, 5, 0, 0, 1));
    check(&fresh(&[1, 1, 63, 0, 20], &[0]), (0, 5, 1, 1, 0));
}

fn parts_program(parts: i32) -> Vec<i32> {
    let mut program = vec![1, 4, parts];
    for _ in 0..parts {
        program.extend([3, 22]);
    }
    program
}

#[test]
fn parts_of_a_constraint() {
    check_unchanged(&fresh(&parts_program(1), &[0]), (0, 5, 1, 1, 0));
    check_unchanged(&fresh(&parts_program(16), &[0]), (0, 35, 1, 1, 0));
    check_unchanged(&fresh(&parts_program(0), &[0]), (2, 2, 0, 0, 1));
    check_unchanged(&fresh(&parts_program(17), &[0]), (2, 2, 0, 0, 1));
    check_unchanged(&fresh(&[1, 4, 1, 0, 22], &[0]), (2, 3, 0, 0, 1));
    check_unchanged(&fresh(&[1, 4, 1, 4, 22], &[0]), (2, 3, 0, 0, 1));
}

#[test]
fn words_of_expressions_and_operators() {
    check_unchanged(&fresh(&[1, 1, 0, 0, 19], &[0]), (2, 4, 0, 0, 1));
    check_unchanged(&fresh(&[1, 1, 0, 0, 27], &[0]), (2, 4, 0, 0, 1));
    check_unchanged(&fresh(&[1, 1, 0, 0, 25, 0], &[0]), (2, 5, 0, 0, 1));
    check_unchanged(&fresh(&[1, 1, 0, 0, 25, 12], &[0]), (2, 5, 0, 0, 1));
    check_unchanged(&fresh(&[1, 9], &[0]), (2, 1, 0, 0, 1));
    check_unchanged(&fresh(&[1, 4, 1, 3, 26, 0, 0, 0, 0], &[0]), (2, 4, 0, 0, 1));
}

/// A program that fills 4,096 words and runs 15 times 256 and 210 steps.
fn longest_program() -> Vec<i32> {
    let mut program = vec![15 + 210];
    for _ in 0..15 {
        program.extend([7, 22, 255]);
        program.extend([0; 255]);
        program.push(0);
    }
    program.extend([0; 210]);
    program
}

#[test]
fn words_of_a_program() {
    let mut program = longest_program();
    assert_eq!(program.len(), 4096);
    let sheet = Sheet::fresh(program.clone(), vec![], 1_000_000);
    check_unchanged(&sheet, (0, 4096, 4050, 0, 0));
    program[0] += 1;
    program.push(0);
    let sheet = Sheet::fresh(program.clone(), vec![], 1_000_000);
    check_unchanged(&sheet, (2, 4096, 0, 0, 0));
    program[0] = -5;
    let sheet = Sheet::fresh(program, vec![], 1_000_000);
    check_unchanged(&sheet, (2, 4096, 0, 0, 0));
}

#[test]
fn records_on_the_heap() {
    let mut program = vec![64];
    program.extend([2, 0, 0].repeat(64));
    let zeros = vec![0; 70];
    let finish = check(&fresh(&program, &zeros), (0, 193, 64, 64, 6));
    let records: Vec<&[(i32, Cell)]> = vec![&[]; 64];
    assert_eq!(finish.heap, heap(&records));
    assert_eq!(finish.environment, environment(&[(0, reference(63))]));
    program[0] = 65;
    program.extend([2, 1, 0]);
    let again = check(&fresh(&program, &zeros), (10, 193, 65, 64, 6));
    assert_eq!(again.heap, finish.heap);
    assert_eq!(again.environment, finish.environment);
}

#[test]
fn value_positions() {
    let mut program = vec![64];
    program.extend([3, 1, 1, 22].repeat(64));
    let zeros = vec![0; 70];
    let finish = check(&fresh(&program, &zeros), (0, 257, 64, 64, 6));
    let positions: Vec<i32> = (0..64).map(|n| 1 + 4 * n).collect();
    assert_eq!(finish.constraints, constraints(&positions, &[]));
    program[0] = 65;
    program.extend([3, 1, 1, 22]);
    let again = check(&fresh(&program, &zeros), (14, 257, 65, 64, 6));
    assert_eq!(again.constraints, finish.constraints);
    program[257] = 4;
    check(&fresh(&program, &zeros), (0, 261, 65, 65, 5));
}

#[test]
fn identity_positions() {
    let mut program = vec![33, 1, 0, 0, 20];
    program.extend([5, 0, 0, 0, 0].repeat(32));
    let finish = check(&fresh(&program, &[0]), (0, 165, 33, 1, 0));
    let positions: Vec<i32> = (0..32).map(|n| 5 + 5 * n).collect();
    assert_eq!(finish.constraints, constraints(&[], &positions));
    program[0] = 34;
    program.extend([5, 0, 0, 0, 0]);
    let again = check(&fresh(&program, &[0]), (14, 165, 34, 1, 0));
    assert_eq!(again.constraints, finish.constraints);
    program[165] = 6;
    check(&fresh(&program, &[0]), (0, 170, 34, 1, 0));
}

#[test]
fn kept_again_when_full() {
    let mut values = vec![65];
    values.extend([3, 1, 1, 22].repeat(64));
    values.push(0);
    let mut sheet = fresh(&values, &[0; 64]);
    let positions: Vec<i32> = (0..64).map(|n| 1 + 4 * n).collect();
    sheet.constraints = constraints(&positions, &[]);
    check_unchanged(&sheet, (0, 258, 65, 64, 0));
}

#[test]
fn budgets() {
    let forever = [1, 8, 22, 0];
    for (budget, expected) in [
        (0, (5, 1, 0, 0, 0)),
        (1, (5, 1, 1, 0, 0)),
        (1_000_000, (5, 1, 1_000_000, 0, 0)),
        (-1, (1, 0, 0, 0, 0)),
        (1_000_001, (1, 0, 0, 0, 0)),
        (i32::MIN, (1, 0, 0, 0, 0)),
        (i32::MAX, (1, 0, 0, 0, 0)),
    ] {
        let sheet = Sheet::fresh(forever.to_vec(), vec![], budget);
        check_unchanged(&sheet, expected);
    }
    check_unchanged(&Sheet::fresh(vec![0], vec![], 0), (0, 1, 0, 0, 0));
}

/// Tables of integers only: 64 variables and 64 records of 8 fields.
fn full_sheet(proposal: Vec<i32>) -> Sheet {
    let mut sheet = Sheet::fresh(vec![1, 4, 1, 1, 21], proposal, 100);
    let variables: Vec<(usize, Cell)> = (0..64).map(|v| (v, int(0))).collect();
    let fields: Vec<(i32, Cell)> = (0..8).map(|label| (label, int(0))).collect();
    sheet.environment = environment(&variables);
    sheet.heap = heap(&vec![&fields[..]; 64]);
    sheet
}

#[test]
fn entries_of_a_proposal() {
    let mut proposal = vec![576];
    for location in 0..576 {
        proposal.extend([location, 7]);
    }
    let sheet = full_sheet(proposal.clone());
    let finish = check(&sheet, (0, 5, 1, 1, 0));
    let sevens = finish.environment.iter().chain(&finish.heap);
    assert_eq!(sevens.filter(|word| **word == 7).count(), 576 + 64);
    proposal[0] = 577;
    proposal.extend([576, 7]);
    check_unchanged(&full_sheet(proposal), (16, 1, 1, 0, 1155));
    check_unchanged(&full_sheet(vec![-1]), (16, 1, 1, 0, 1));
}

#[test]
fn locations_of_entries() {
    let finish = check(&full_sheet(vec![1, 575, -9]), (0, 5, 1, 1, 0));
    assert_eq!(finish.heap.last(), Some(&-9));
    check_unchanged(&full_sheet(vec![1, 576, -9]), (16, 1, 1, 0, 3));
    check_unchanged(&full_sheet(vec![1, -1, -9]), (16, 1, 1, 0, 3));
}

#[test]
fn lengths_of_tables() {
    for change in [-1i32, 1] {
        for table in 0..3 {
            let mut sheet = fresh(&[0], &[]);
            let words = [
                &mut sheet.environment,
                &mut sheet.heap,
                &mut sheet.constraints,
            ];
            for (number, words) in words.into_iter().enumerate() {
                if number == table {
                    let length = words.len() as i32 + change;
                    words.resize(length as usize, 9);
                }
            }
            check_unchanged(&sheet, (1, 0, 0, 0, 0));
        }
    }
}
