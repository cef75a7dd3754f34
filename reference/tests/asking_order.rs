//! What is tried before the slices of an asking (document 02, W6).

mod common;
use common::askings::*;
use common::cores::file;
use common::*;

/// The statements of a block up to the last are run; the last one is asked
/// about with any slices.
fn refused_by_itself(statements: &[&[i32]], expected: (i32, i32)) {
    let program = block(statements);
    let last = statements.last().map_or(0, |last| last.len());
    let word = (program.len() - last) as i32;
    let mut sheet = fresh(&program, &[0; 70]);
    let finish = sheet.answer();
    let told = (finish.answer.outcome, finish.answer.place as i32);
    assert_eq!(told, expected, "for {program:?}");
    sheet.environment = finish.environment;
    sheet.heap = finish.heap;
    sheet.constraints = finish.constraints;
    let slices: [&[i32]; 6] = [&[], &[0], &[0, 0], &[1], &[1, 0, 3], &[577]];
    for first in slices {
        for second in slices {
            let asking = in_sheet(&sheet, word, first, second);
            check_asking_unchanged(&asking, (expected.0, expected.1, 0, 0));
        }
    }
}

/// 7, 8, 9 and 15 have the word at fault, the others the statement's.
#[test]
fn the_statement_refuses_by_itself() {
    refused_by_itself(&[&[1, 1, 0, 24, 9, 0]], (7, 5));
    refused_by_itself(&[&[1, 1, 1, 0, 20]], (7, 2));
    refused_by_itself(&[&[2, 1, 1, 4, 25, 1, 22, 22]], (8, 5));
    refused_by_itself(&[&[3, 2, 1, 22, 3, 23, 1]], (8, 5));
    refused_by_itself(&[&[4, 1, 1, 24, 9, 0]], (7, 5));
    refused_by_itself(&[&[0], &[1, 1, 0, 25, 1, 23, i32::MAX, 23, 1]], (9, 5));
    refused_by_itself(&[&[2, 0, 0][..]; 65], (10, 193));
    refused_by_itself(&[&[3, 1, 1, 22][..]; 65], (14, 257));
    let own_way: [&[i32]; 3] = [
        &[2, 0, 1, 0, 20],
        &[1, 0, 1, 0, 24, 0, 0],
        &[1, 0, 2, 0, 0, 20],
    ];
    refused_by_itself(&own_way, (12, 13));
    let same = [5, 0, 0, 1, 0];
    let plain: [&[i32]; 4] = [&[2, 0, 0], &[1, 1, 0, 24, 0, 0], &same, &[1, 1, 0, 23, 5]];
    refused_by_itself(&plain, (13, 15));
    let kept = [3, 1, 3, 25, 9, 24, 0, 1, 0, 23, 0];
    let lost: [&[i32]; 3] = [&[2, 0, 1, 0, 23, 1], &kept, &[2, 0, 1, 1, 23, 5]];
    refused_by_itself(&lost, (15, 13));
}

/// Only an assignment stands in this program, at 15 in a block of an if.
#[test]
fn words_that_are_no_such_statement() {
    let program = block(&[
        &[0],
        &[5, 0, 0, 0, 0],
        &[6, 0, 0, 0, 0],
        &[7, 22, 1, 1, 1, 0, 20, 0],
        &[8, 21, 1, 0],
    ]);
    assert_eq!(program.len(), 24);
    let mut sheet = fresh(&program, &[]);
    sheet.environment = environment(&[(0, NIL)]);
    let far = [
        i32::MIN,
        i32::MIN + 1,
        4095,
        4096,
        4097,
        i32::MAX - 1,
        i32::MAX,
    ];
    for word in (-40..40).chain(far).filter(|word| *word != 15) {
        for slices in [[&[][..], &[]], [&[0], &[0]], [&[1], &[]]] {
            let asking = in_sheet(&sheet, word, slices[0], slices[1]);
            check_asking_unchanged(&asking, (2, word, 0, 0));
        }
    }
    check_asking(&in_sheet(&sheet, 15, &[0], &[]), (0, 15, 1, 1));
}

/// 1; 2 for the program; 2 for the word; 3; 4; then the statement.
#[test]
fn the_order_before_the_statement() {
    let mut asking = behind_core(&[1, 0, 1, 2, 24, 9, 0], &[], &[]);
    asking.program.push(9);
    asking.word = -5;
    asking.environment[0] = 9;
    asking.heap = file(81, 16, 16);
    asking.constraints.push(0);
    check_asking_unchanged(&asking, (1, 0, 0, 0));
    asking.constraints.pop();
    check_asking_unchanged(&asking, (2, 43, 0, 0));
    asking.program.pop();
    check_asking_unchanged(&asking, (2, -5, 0, 0));
    asking.word = 43;
    check_asking_unchanged(&asking, (2, 43, 0, 0));
    asking.word = BEHIND;
    check_asking_unchanged(&asking, (3, 0, 0, 0));
    asking.environment[0] = 4;
    asking.heap[0] = 65;
    check_asking_unchanged(&asking, (3, 1, 0, 0));
    asking.heap[0] = 1;
    asking.constraints = constraints(&[13, 13], &[]);
    check_asking_unchanged(&asking, (3, 2, 0, 0));
    asking.constraints = constraints(&[13], &[]);
    check_asking_unchanged(&asking, (4, 13, 0, 0));
    asking.word = 37;
    check_asking_unchanged(&asking, (2, 37, 0, 0));
    asking.word = BEHIND;
    asking.heap = file(80, 16, 16);
    check_asking_unchanged(&asking, (7, 41, 0, 0));
    asking.program.splice(40..43, [22]);
    check_asking_unchanged(&asking, (15, 28, 0, 0));
    asking.program.splice(40..41, [23, 16]);
    check_asking_unchanged(&asking, (6, BEHIND, 0, 0));
    asking.second = vec![0];
    check_asking_unchanged(&asking, (0, BEHIND, 2, 1));
}

#[test]
fn tables_of_other_lengths() {
    let fit = behind_core(&MET, &[0], &[0]);
    for table in 0..3 {
        for change in [-1, 1, 30] {
            let mut asking = fit.clone();
            let tables = [
                &mut asking.environment,
                &mut asking.heap,
                &mut asking.constraints,
            ];
            let words = tables.into_iter().nth(table).unwrap();
            words.resize(words.len().wrapping_add_signed(change), 0);
            check_asking_unchanged(&asking, (1, 0, 0, 0));
        }
    }
}

/// A program that does not read is told before its word, whatever that is.
#[test]
fn programs_that_do_not_read() {
    for word in [i32::MIN, -1, 0, 1, 13, BEHIND, 4096, i32::MAX] {
        let mut asking = behind_core(&MET, &[0], &[0]);
        asking.word = word;
        asking.program[14] = 0;
        check_asking_unchanged(&asking, (2, 14, 0, 0));
        asking.program.clear();
        check_asking_unchanged(&asking, (2, 0, 0, 0));
        asking.program = vec![0; 4097];
        check_asking_unchanged(&asking, (2, 4096, 0, 0));
        asking.program = [[1, 8, 21].repeat(8), vec![0]].concat();
        check_asking_unchanged(&asking, (2, 24, 0, 0));
    }
}

/// The last word of the longest program may begin a statement.
#[test]
fn the_longest_program() {
    let mut program = vec![16];
    for _ in 0..15 {
        program.extend([7, 22, 255]);
        program.extend([0; 255]);
        program.push(0);
    }
    program.extend([7, 22, 204]);
    program.extend([0; 203]);
    program.extend([2, 63, 0, 0]);
    assert_eq!(program.len(), 4096);
    let sheet = fresh(&program, &[]);
    let finish = check_asking(&in_sheet(&sheet, 4092, &[0], &[]), (0, 4092, 1, 1));
    assert_eq!(finish.environment, environment(&[(63, reference(0))]));
    for word in [4091, 4093, 4094, 4095, 4096] {
        check_asking_unchanged(&in_sheet(&sheet, word, &[0], &[]), (2, word, 0, 0));
    }
}
