//! Both solvers on one statement: which slice is taken (document 02, W6).

mod common;
use common::askings::*;
use common::cores::file;
use common::*;
use reference::batch::Asking;

/// Slices for UNMET, each with what it gives by itself.
const TO_UNMET: [(i32, &[i32]); 9] = [
    (6, &[]),
    (16, &[1]),
    (16, &[1, 64]),
    (16, &[2, 64, 144]),
    (16, &[1, 64, 144, 0]),
    (17, &[1, 66, 16]),
    (17, &[2, 64, 144, 65, 16]),
    (19, &[0]),
    (19, &[1, 64, 145]),
];

/// Slices for MET, each with what it gives by itself.
const TO_MET: [(i32, &[i32]); 7] = [
    (6, &[]),
    (16, &[-1]),
    (16, &[1, 576, 0]),
    (16, &[0, 0]),
    (17, &[1, 66, 17]),
    (18, &[1, 64, 81]),
    (18, &[2, 64, 84, 65, 20]),
];

#[test]
fn the_first_is_accepted() {
    for second in [&[][..], &[0], &[1], &[1, 65, -48], &[1, 64, 144], &[9; 9]] {
        let asking = behind_core(&UNMET, &[1, 64, 144], second);
        let finish = check_asking(&asking, (0, BEHIND, 1, 3));
        let (environment, constraints) = (&asking.environment, &asking.constraints);
        check_tables(&finish, environment, &file(144, 16, 32), constraints);
        check_asking_unchanged(&behind_core(&MET, &[0], second), (0, BEHIND, 1, 1));
    }
}

#[test]
fn the_second_is_accepted() {
    for (_, first) in TO_UNMET {
        let asking = behind_core(&UNMET, first, &[1, 65, -48]);
        let finish = check_asking(&asking, (0, BEHIND, 2, 3));
        let (environment, constraints) = (&asking.environment, &asking.constraints);
        check_tables(&finish, environment, &file(80, -48, 32), constraints);
    }
    for (_, first) in TO_MET {
        check_asking_unchanged(&behind_core(&MET, first, &[0]), (0, BEHIND, 2, 1));
    }
}

/// The second's number, or the first's where the second slice is empty.
#[test]
fn both_in_vain() {
    for (statement, slices) in [(&UNMET, &TO_UNMET[..]), (&MET, &TO_MET)] {
        for (number, first) in slices {
            check_asking_unchanged(&behind_core(statement, first, &[]), (*number, BEHIND, 0, 0));
            for (number, second) in slices.iter().filter(|(number, _)| *number != 6) {
                let asking = behind_core(statement, first, second);
                check_asking_unchanged(&asking, (*number, BEHIND, 0, 0));
            }
        }
    }
}

/// They make a proposal 16 that would be accepted, or be 17, 18 or 19.
#[test]
fn words_left_over() {
    let unmet: [&[i32]; 4] = [&[1, 64, 144], &[1, 66, 16], &[0], &[1, 64, 145]];
    let met: [&[i32]; 3] = [&[0], &[1, 66, 17], &[1, 64, 81]];
    for (statement, slices, accepted) in
        [(&UNMET, &unmet[..], &[1, 64, 144][..]), (&MET, &met, &[0])]
    {
        for slice in slices {
            for left in [&[0][..], &[-1], &[65, 16], slice] {
                let over = [slice, left].concat();
                let alone = behind_core(statement, &over, &[]);
                check_asking_unchanged(&alone, (16, BEHIND, 0, 0));
                let after = behind_core(statement, &[1, 66, 16], &over);
                check_asking_unchanged(&after, (16, BEHIND, 0, 0));
                let both = behind_core(statement, &over, &over);
                check_asking_unchanged(&both, (16, BEHIND, 0, 0));
                let before = behind_core(statement, &over, accepted);
                check_asking(&before, (0, BEHIND, 2, accepted.len()));
            }
        }
    }
}

/// 577 entries are 16, and so are words behind 576.
#[test]
fn the_longest_proposal() {
    let mut sheet = fresh(&[1, 4, 1, 1, 21], &[]);
    sheet.environment = [3, 0].repeat(64);
    let fields: Vec<(i32, Cell)> = (0..8).map(|label| (label, int(0))).collect();
    sheet.heap = heap(&vec![&fields[..]; 64]);
    let mut proposal = vec![576];
    proposal.extend((0..576).flat_map(|location| [location, 1]));
    let finish = check_asking(&in_sheet(&sheet, 1, &proposal, &[]), (0, 1, 1, 1153));
    assert_eq!(finish.environment, [3, 1].repeat(64));
    let finish = check_asking(&in_sheet(&sheet, 1, &[0, 0], &proposal), (0, 1, 2, 1153));
    assert_eq!(finish.environment, [3, 1].repeat(64));
    proposal.push(0);
    check_asking_unchanged(&in_sheet(&sheet, 1, &proposal, &[]), (16, 1, 0, 0));
    proposal[0] = 577;
    check_asking_unchanged(&in_sheet(&sheet, 1, &proposal, &[]), (16, 1, 0, 0));
}

/// What each sort of statement does when it is accepted.
#[test]
fn statements_of_every_sort() {
    for (statement, first, length) in [
        (&[1, 0, 1, 0, 23, 80][..], &[0][..], 80),
        (
            &[4, 1, 3, 25, 6, 24, 0, 1, 0, 23, 84],
            &[2, 64, 84, 65, 20],
            84,
        ),
    ] {
        let finish = check_asking(
            &behind_core(statement, first, &[]),
            (0, BEHIND, 1, first.len()),
        );
        assert_eq!(finish.heap, file(length, length - 64, 16));
        assert_eq!(finish.constraints, constraints(&[13], &[]));
    }
    let new = [2, 0, 3, 0, 23, 9, 1, 23, 1, 2, 23, 3];
    for (first, second) in [(&[0][..], &[1, 72, 13][..]), (&[1, 0, 5], &[1, 72, 13])] {
        let finish = check_asking(&behind_core(&new, first, second), (0, BEHIND, 2, 3));
        let fields =
            |length, header, samples| [(0, int(length)), (1, int(header)), (2, int(samples))];
        let records = heap(&[&fields(80, 16, 16), &fields(13, 1, 3)]);
        assert_eq!(finish.environment, environment(&[(0, reference(1))]));
        assert_eq!(finish.heap, records);
    }
    check_asking_unchanged(&behind_core(&new, &[0], &[1, 80, 13]), (17, BEHIND, 0, 0));
}

/// An always keeps its position, behind those that are kept.
#[test]
fn always_is_kept() {
    let part = [3, 1, 3, 25, 4, 24, 0, 1, 1, 24, 0, 1, 2];
    let asking = behind_core(&part, &[1, 65, 15], &[2, 64, 79, 65, 15]);
    let finish = check_asking(&asking, (0, BEHIND, 2, 5));
    assert_eq!(finish.heap, file(79, 15, 16));
    assert_eq!(finish.constraints, constraints(&[13, BEHIND], &[]));
    check_asking_unchanged(&behind_core(&part, &[0], &[1, 65, 15]), (19, BEHIND, 0, 0));
}

/// It is not added again, though the statement still runs.
#[test]
fn a_kept_always_is_asked_again() {
    let mut again = behind_core(&MET, &[0], &[]);
    again.word = 13;
    check_asking_unchanged(&again, (0, 13, 1, 1));
    again.first.clear();
    check_asking_unchanged(&again, (6, 13, 0, 0));
    again.second = vec![1, 64, 81];
    check_asking_unchanged(&again, (18, 13, 0, 0));
    again.second = vec![0];
    check_asking_unchanged(&again, (0, 13, 2, 1));
    again.constraints = constraints(&[], &[]);
    let finish = check_asking(&again, (0, 13, 2, 1));
    assert_eq!(finish.constraints, constraints(&[13], &[]));
    again.heap = file(81, 16, 16);
    check_asking_unchanged(&again, (19, 13, 0, 0));
}

/// With all room taken too.
#[test]
fn asked_again_with_no_room() {
    let sheet = fresh(&block(&vec![&[3, 1, 1, 22][..]; 65]), &[]);
    let kept: Vec<i32> = (0..64).map(|number| 1 + 4 * number).collect();
    let mut asking = in_sheet(&sheet, 253, &[], &[0]);
    asking.constraints = constraints(&kept, &[]);
    check_asking_unchanged(&asking, (0, 253, 2, 1));
    asking.word = 257;
    check_asking_unchanged(&asking, (14, 257, 0, 0));
    asking.first = vec![0];
    check_asking_unchanged(&asking, (14, 257, 0, 0));
}

/// K8: both ends of an identity move together.
#[test]
fn a_class_moves() {
    let program = block(&[
        &[2, 0, 0],
        &[1, 1, 0, 24, 0, 0],
        &[5, 0, 0, 1, 0],
        &[2, 0, 0],
    ]);
    let mut sheet = fresh(&program, &[]);
    sheet.environment = environment(&[(0, reference(0)), (1, reference(0))]);
    sheet.heap = heap(&[&[]]);
    sheet.constraints = constraints(&[], &[10]);
    let finish = check_asking(&in_sheet(&sheet, 15, &[1, 1, 0], &[0]), (0, 15, 2, 1));
    let moved = environment(&[(0, reference(1)), (1, reference(1))]);
    check_tables(&finish, &moved, &heap(&[&[], &[]]), &sheet.constraints);
}

/// On every depth, in both branches of an if too. The tests around do not count.
#[test]
fn statements_on_every_depth() {
    for around in [
        &[1, 8, 24, 9, 0][..],
        &[1, 8, 21],
        &[2, 0, 8, 20],
        &[1, 7, 25, 1, 22, 22, 0],
    ] {
        for depth in 1..=8 {
            let before = around.repeat(depth - 1);
            let word = before.len() as i32 + 1;
            let program = [&before[..], &[1, 1, 5, 0, 23, 7]].concat();
            let finish = check_asking(
                &in_sheet(&fresh(&program, &[]), word, &[0], &[]),
                (0, word, 1, 1),
            );
            assert_eq!(finish.environment, environment(&[(5, int(7))]));
        }
    }
    let branch = [1, 7, 20, 1, 1, 5, 0, 20, 1, 1, 6, 0, 22];
    for (word, cell) in [(4, (5, NIL)), (9, (6, boolean(true)))] {
        let asking = in_sheet(&fresh(&branch, &[]), word, &[0], &[]);
        let finish = check_asking(&asking, (0, word, 1, 1));
        assert_eq!(finish.environment, environment(&[cell]));
    }
}

/// Of a loop, one statement is done once.
#[test]
fn nothing_else_is_done() {
    let program = [1, 8, 22, 2, 1, 5, 0, 20, 1, 6, 0, 23, 1];
    let asking: Asking = in_sheet(&fresh(&program, &[]), 8, &[0], &[0]);
    let finish = check_asking(&asking, (0, 8, 1, 1));
    assert_eq!(finish.environment, environment(&[(6, int(1))]));
}
