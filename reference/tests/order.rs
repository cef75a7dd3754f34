//! Where two refusals are due, the one that comes first.

mod common;
use common::*;
use reference::batch::Sheet;

#[test]
fn before_the_first_statement() {
    let mut sheet = fresh(&[9], &[]);
    sheet.environment[0] = 9;
    sheet.budget = -1;
    check_unchanged(&sheet, (1, 0, 0, 0, 0));
    sheet.budget = 0;
    check_unchanged(&sheet, (2, 1, 0, 0, 0));
    sheet.program = block(&[&[3, 1, 3, 21], &[5, 1, 0, 1, 0]]);
    sheet.heap[0] = 65;
    sheet.constraints = constraints(&[1], &[5, 5]);
    check_unchanged(&sheet, (3, 0, 0, 0, 0));
    sheet.environment[0] = 0;
    check_unchanged(&sheet, (3, 1, 0, 0, 0));
    sheet.heap[0] = 0;
    check_unchanged(&sheet, (3, 2, 0, 0, 0));
    sheet.constraints = constraints(&[1], &[5]);
    check_unchanged(&sheet, (4, 1, 0, 0, 0));
    sheet.program[4] = 22;
    check_unchanged(&sheet, (4, 5, 0, 0, 0));
    sheet.constraints = constraints(&[1], &[]);
    check_unchanged(&sheet, (5, 1, 0, 0, 0));
    sheet.budget = 1;
    check_unchanged(&sheet, (6, 1, 1, 0, 0));
}

#[test]
fn kept_order_decides_in_four() {
    let program = block(&[&[3, 1, 3, 21], &[3, 1, 1, 24, 0, 0], &[0]]);
    let mut sheet = fresh(&program, &[]);
    sheet.constraints = constraints(&[5, 1], &[]);
    check_unchanged(&sheet, (4, 5, 0, 0, 0));
    sheet.constraints = constraints(&[1, 5], &[]);
    check_unchanged(&sheet, (4, 1, 0, 0, 0));
}

#[test]
fn expressions_in_reading_order() {
    let absent = [24, 9, 0];
    let overflow = [25, 1, 23, i32::MAX, 23, 1];
    let wrong = [25, 1, 22, 22];
    for (left, right, outcome, place) in [
        (&absent[..], &wrong[..], 7, 8),
        (&wrong, &absent, 8, 7),
        (&overflow, &absent, 9, 7),
        (&absent, &overflow, 7, 8),
        (&overflow, &[22], 9, 7),
        (&[22], &overflow, 9, 8),
        (&[22], &[23, 1], 8, 5),
    ] {
        let mut statement = vec![1, 0, 1, 0, 25, 1];
        statement.extend(left);
        statement.extend(right);
        let sheet = fresh(&block(&[&statement]), &[]);
        check_unchanged(&sheet, (outcome, place, 1, 0, 0));
    }
}

#[test]
fn kinds_before_range() {
    let mut sheet = fresh(&block(&[&[1, 0, 0, 25, 1, 23, i32::MAX, 22]]), &[]);
    check_unchanged(&sheet, (8, 4, 1, 0, 0));
    sheet.budget = 0;
    check_unchanged(&sheet, (5, 1, 0, 0, 0));
}

/// A heap of 64 records without fields.
fn full_heap(sheet: &mut Sheet) {
    let records: Vec<&[(i32, Cell)]> = vec![&[]; 64];
    sheet.heap = heap(&records);
}

#[test]
fn expressions_before_a_full_heap_before_a_clash() {
    let program = block(&[&[5, 0, 1, 0, 0, 1, 0], &[2, 0, 1, 0, 24, 1, 0]]);
    let mut sheet = fresh(&program, &[0]);
    let mut records: Vec<&[(i32, Cell)]> = vec![&[]; 64];
    records[0] = &[(0, NIL)];
    sheet.heap = heap(&records);
    sheet.environment = environment(&[(0, reference(0))]);
    check(&sheet, (7, 13, 2, 0, 1));
    sheet.program = block(&[&[5, 0, 1, 0, 0, 1, 0], &[2, 0, 1, 0, 20]]);
    check(&sheet, (10, 8, 2, 0, 1));
    sheet.heap = heap(&[&[(0, NIL)]]);
    check(&sheet, (12, 8, 2, 0, 1));
    full_heap(&mut sheet);
    sheet.program = block(&[&[2, 0, 0]]);
    check_unchanged(&sheet, (10, 1, 1, 0, 1));
}

#[test]
fn thirteen_before_twelve() {
    let program = block(&[&[5, 0, 0, 1, 0], &[5, 0, 1, 0, 2, 0], &[1, 0, 0, 23, 5]]);
    let mut sheet = fresh(&program, &[0]);
    sheet.environment = environment(&[(0, reference(0)), (1, reference(0)), (2, NIL)]);
    sheet.heap = heap(&[&[(0, NIL)]]);
    check(&sheet, (13, 12, 3, 0, 1));
    sheet.program[15] = 20;
    sheet.program.pop();
    check(&sheet, (12, 12, 3, 0, 1));
}

#[test]
fn twelve_before_fifteen_before_six() {
    let program = block(&[
        &[5, 0, 1, 0, 1, 0],
        &[3, 1, 3, 25, 6, 24, 0, 1, 1, 23, 5],
        &[1, 0, 0, 20],
    ]);
    let mut sheet = fresh(&program, &[0]);
    sheet.environment = environment(&[(0, reference(0)), (1, NIL)]);
    sheet.heap = heap(&[&[(0, NIL), (1, int(5))]]);
    check(&sheet, (12, 18, 3, 1, 0));
    sheet.program[1..7].copy_from_slice(&[6, 0, 1, 0, 1, 0]);
    check(&sheet, (15, 13, 3, 1, 0));
    sheet.program[18..22].copy_from_slice(&[1, 1, 0, 20]);
    check(&sheet, (6, 18, 3, 1, 0));
}

/// 64 constraints kept by a first run and one always more.
fn full_of_values(last: &[i32]) -> Sheet {
    let always = [3, 1, 1, 22];
    let mut statements: Vec<&[i32]> = vec![&always; 64];
    statements.push(last);
    fresh(&block(&statements), &[0; 64])
}

#[test]
fn reading_before_room_before_six() {
    check(&full_of_values(&[3, 1, 1, 24, 0, 0]), (7, 261, 65, 64, 0));
    check(&full_of_values(&[3, 1, 1, 23, 1]), (8, 259, 65, 64, 0));
    check(&full_of_values(&[3, 1, 1, 22]), (14, 257, 65, 64, 0));
    check(&full_of_values(&[4, 1, 1, 22]), (6, 257, 65, 64, 0));
}

#[test]
fn proposals_in_their_order() {
    let mut sheet = fresh(&block(&[&[4, 1, 3, 25, 6, 24, 0, 0, 23, 1]]), &[]);
    sheet.environment = environment(&[(0, int(1)), (1, NIL), (2, int(0))]);
    for (proposal, outcome) in [
        (vec![], 6),
        (vec![3, 1, 0, 0, 0, 9], 16),
        (vec![2, 1, 0, 0, 0], 16),
        (vec![2, 0, 0, 1, 0], 17),
        (vec![1, 0, 1], 17),
        (vec![1, 0, 2], 18),
        (vec![1, 2, 2], 18),
    ] {
        let unread = proposal.len();
        sheet.proposals = proposal;
        check_unchanged(&sheet, (outcome, 1, 1, 0, unread));
    }
    sheet.environment = environment(&[(0, int(3)), (1, NIL), (2, int(0))]);
    sheet.proposals = vec![1, 0, 2];
    check_unchanged(&sheet, (19, 1, 1, 0, 3));
    sheet.proposals = vec![2, 0, 1, 2, 8];
    check(&sheet, (0, 11, 1, 1, 0));
}

#[test]
fn parts_of_a_constraint_as_met() {
    let mut sheet = fresh(&block(&[&[4, 2, 1, 23, 1, 1, 24, 9, 0]]), &[]);
    check_unchanged(&sheet, (8, 3, 1, 0, 0));
    sheet.program = block(&[&[4, 2, 1, 24, 9, 0, 1, 23, 1]]);
    check_unchanged(&sheet, (7, 5, 1, 0, 0));
}

#[test]
fn identity_statements() {
    let mut statements: Vec<&[i32]> = vec![&[5, 0, 0, 0, 0]; 32];
    statements.push(&[5, 1, 0, 2, 0]);
    let mut sheet = fresh(&block(&statements), &[]);
    for (first, second, outcome, place) in [
        (int(1), (0, 0), 7, 164),
        (int(1), NIL, 8, 162),
        (NIL, boolean(true), 8, 164),
        (int(1), int(1), 8, 162),
        (reference(0), NIL, 11, 161),
        (NIL, NIL, 14, 161),
    ] {
        sheet.environment = environment(&[(0, NIL), (1, first), (2, second)]);
        sheet.heap = heap(&[&[]]);
        check(&sheet, (outcome, place, 33, 0, 0));
    }
}
