//! Operators 6 and 7 want two integers, two booleans or two nils (document 02,
//! W4).

mod common;
use common::*;
use reference::batch::Sheet;
use reference::unlike::Unlike;

/// An integer, a boolean, nil and a reference, as v0 to v3 hold them.
const CELLS: [Cell; 4] = [(3, 1), (2, 1), NIL, (4, 0)];

/// The same as literals; a reference has none.
const LITERALS: [&[i32]; 3] = [&[23, 1], &[22], &[20]];

/// Each two of the first so many kinds that are unlike, in both orders.
fn unlike(kinds: usize) -> Vec<(usize, usize)> {
    let all = (0..kinds).flat_map(|left| (0..kinds).map(move |right| (left, right)));
    all.filter(|(left, right)| left != right).collect()
}

fn variable(kind: usize) -> Vec<i32> {
    vec![24, kind as i32, 0]
}

fn with_cells(program: &[i32]) -> Sheet {
    let mut sheet = fresh(program, &[0; 9]);
    let cells: Vec<(usize, Cell)> = CELLS.into_iter().enumerate().collect();
    sheet.environment = environment(&cells);
    sheet.heap = heap(&[&[]]);
    sheet
}

/// 8 at the operator, wherever an expression may stand.
fn check_refused(operator: i32, left: &[i32], right: &[i32]) {
    let wrong = [&[25, operator], left, right].concat();
    for (before, after) in [
        (&[1, 9, 0][..], &[][..]),
        (&[1, 9, 0, 25, 11, 22], &[]),
        (&[1, 9, 5, 0, 0, 0, 0, 0], &[]),
        (&[2, 9, 2, 1], &[0, 20]),
        (&[2, 9, 2, 0, 20, 1], &[]),
        (&[3, 1, 1], &[]),
        (&[3, 2, 1, 22, 3], &[]),
        (&[4, 1, 3], &[]),
        (&[4, 2, 1, 21, 2, 25, 10, 21], &[]),
        (&[7], &[0, 0]),
        (&[8], &[0]),
    ] {
        let statement = [before, &wrong, after].concat();
        let place = 1 + before.len();
        check_unchanged(&with_cells(&block(&[&statement])), (8, place, 1, 0, 9));
    }
}

#[test]
fn unlike_kinds_are_refused() {
    for operator in [6, 7] {
        for (left, right) in unlike(4) {
            check_refused(operator, &variable(left), &variable(right));
        }
        for (left, right) in unlike(3) {
            check_refused(operator, LITERALS[left], LITERALS[right]);
            check_refused(operator, &variable(left), LITERALS[right]);
            check_refused(operator, LITERALS[left], &variable(right));
        }
    }
}

#[test]
fn two_references_are_refused() {
    for operator in [6, 7] {
        check_refused(operator, &variable(3), &variable(3));
    }
}

/// The operands may be refused first, the left one before the right.
#[test]
fn operands_come_before_kinds() {
    let (absent, wrong) = ([24, 50, 0], [25, 1, 22, 22]);
    let refused = |left: &[i32], right: &[i32], outcome, place| {
        let statement = [&[1, 9, 0, 25, 6], left, right].concat();
        let sheet = with_cells(&block(&[&statement]));
        check_unchanged(&sheet, (outcome, place, 1, 0, 9));
    };
    refused(&[20], &absent, 7, 8);
    refused(&wrong, &absent, 8, 6);
    refused(&[20], &wrong, 8, 7);
}

#[test]
fn a_later_test_may_meet_unlike_kinds() {
    let program = block(&[&[8, 25, 6, 24, 1, 0, 22, 1, 1, 1, 0, 23, 7]]);
    let finish = check(&with_cells(&program), (8, 2, 3, 1, 8));
    assert_eq!(finish.environment[2..4], [3, 7]);
}

#[test]
fn like_kinds_are_compared() {
    for (left, right, equal) in [
        (&[23, 5][..], &[23, 5][..], true),
        (&[23, 5], &[23, -5], false),
        (&[22], &[22], true),
        (&[22], &[21], false),
        (&[20], &[20], true),
        (&[24, 0, 0], &[25, 1, 23, 0, 23, 1], true),
        (&[24, 1, 0], &[25, 4, 23, 1, 23, 0], false),
        (&[24, 2, 0], &[20], true),
        (&[26, 0, 0, 1, 0], &[21], true),
    ] {
        for (operator, truth) in [(6, equal), (7, !equal)] {
            let statement = [&[1, 9, 0, 25, operator], left, right].concat();
            let program = block(&[&statement]);
            let finish = check(&with_cells(&program), (0, program.len(), 1, 1, 8));
            assert_eq!(finish.environment[18..20], [2, i32::from(truth)]);
        }
    }
}

#[test]
fn identities_are_told_for_any_two_kinds() {
    for left in 0..4 {
        for right in 0..4 {
            let program = block(&[&[1, 9, 0, 26, left, 0, right, 0]]);
            let finish = check(&with_cells(&program), (0, 9, 1, 1, 8));
            assert_eq!(finish.environment[18..20], [2, i32::from(left == right)]);
        }
    }
}

/// A record of two fields for v9.
fn record(left: usize, right: usize) -> Vec<i32> {
    [&[2, 9, 2, 0], LITERALS[left], &[1], LITERALS[right]].concat()
}

/// v9.0 and v9.1, of one kind, are compared by a kept constraint and then made
/// to differ in kind by a new record. Also gives the operator's place.
fn taken_apart(operator: i32, left: usize, right: usize) -> (Sheet, usize) {
    let made = record(left, left);
    let kept = [3, 2, 1, 22, 1, 25, operator, 24, 9, 1, 0, 24, 9, 1, 1];
    let program = block(&[&made, &kept, &record(left, right)]);
    (with_cells(&program), 1 + made.len() + 5)
}

#[test]
fn a_new_record_may_take_kinds_apart() {
    for operator in [6, 7] {
        for (left, right) in unlike(3) {
            let (sheet, place) = taken_apart(operator, left, right);
            let finish = check(&sheet, (15, place, 3, 2, 7));
            assert_eq!(finish.heap[..2], [2, 0]);
        }
    }
}

/// The constraint compares a variable and a literal, on either side.
#[test]
fn an_assignment_may_take_kinds_apart() {
    for operator in [6, 7] {
        for (old, new) in unlike(4).into_iter().filter(|(old, _)| *old < 3) {
            let given = [&[1, old as i32, 0][..], &variable(new)].concat();
            for sides in [
                [variable(old), LITERALS[old].to_vec()],
                [LITERALS[old].to_vec(), variable(old)],
            ] {
                let kept = [&[3, 1, 1, 25, operator], sides.concat().as_slice()].concat();
                let sheet = with_cells(&block(&[&kept, &given]));
                let finish = check(&sheet, (15, 4, 2, 1, 8));
                assert_eq!(finish.environment, sheet.environment);
            }
        }
    }
}

/// A start that keeps a weak comparison of two variables.
fn start(operator: i32, left: usize, right: usize) -> Sheet {
    let sides = [variable(left), variable(right)].concat();
    let kept = [&[3, 1, 1, 25, operator], sides.as_slice()].concat();
    let mut sheet = with_cells(&block(&[&[0], &kept]));
    sheet.constraints = constraints(&[2], &[]);
    sheet
}

#[test]
fn a_start_does_not_compare_unlike_kinds() {
    for operator in [6, 7] {
        for (left, right) in unlike(4) {
            check_unchanged(&start(operator, left, right), (4, 2, 0, 0, 9));
        }
        check_unchanged(&start(operator, 3, 3), (4, 2, 0, 0, 9));
        for kind in 0..3 {
            check(&start(operator, kind, kind), (0, 13, 2, 1, 8));
        }
    }
}

/// For 8, 15 and 4.
fn counted(sheet: &Sheet) -> [u64; 3] {
    let mut unlike = Unlike::default();
    unlike.count(sheet, &sheet.answer());
    unlike.counts
}

#[test]
fn unlike_kinds_are_counted() {
    let assigned = |operator, left, right| {
        let sides = [variable(left), variable(right)].concat();
        let statement = [&[1, 9, 0, 25, operator], sides.as_slice()].concat();
        with_cells(&block(&[&[0], &statement]))
    };
    for operator in [6, 7] {
        for (left, right) in unlike(3) {
            assert_eq!(counted(&assigned(operator, left, right)), [1, 0, 0]);
            let (sheet, _) = taken_apart(operator, left, right);
            assert_eq!(counted(&sheet), [0, 1, 0]);
            assert_eq!(counted(&start(operator, left, right)), [0, 0, 1]);
        }
        for kind in 0..4 {
            for (left, right) in [(kind, 3), (3, kind)] {
                assert_eq!(counted(&assigned(operator, left, right)), [0; 3]);
                assert_eq!(counted(&start(operator, left, right)), [0; 3]);
            }
            assert_eq!(counted(&assigned(operator, kind, kind)), [0; 3]);
        }
    }
    assert_eq!(counted(&assigned(4, 0, 1)), [0; 3]);
    assert_eq!(counted(&start(10, 0, 1)), [0; 3]);
}

/// 8, 15 and 4 that come of something else.
#[test]
fn other_refusals_are_not_counted() {
    let counted = |statements: &[&[i32]], values: &[i32], identities: &[i32]| {
        let mut sheet = with_cells(&block(statements));
        sheet.constraints = constraints(values, identities);
        (sheet.answer().answer.outcome, counted(&sheet))
    };
    let test = [7, 25, 1, 23, 1, 23, 1, 0, 0];
    assert_eq!(counted(&[&test], &[], &[]), (8, [0; 3]));
    let kept = [3, 1, 3, 25, 6, 24, 0, 0, 23, 1];
    assert_eq!(counted(&[&kept, &[2, 0, 0]], &[], &[]), (15, [0; 3]));
    let absent = [3, 1, 3, 25, 6, 24, 50, 0, 22];
    assert_eq!(counted(&[&absent], &[1], &[]), (4, [0; 3]));
    let unmet = [3, 1, 3, 25, 7, 24, 0, 0, 23, 1];
    assert_eq!(counted(&[&unmet], &[1], &[]), (4, [0; 3]));
    assert_eq!(counted(&[&[5, 0, 0, 1, 0]], &[], &[1]), (4, [0; 3]));
}

/// The side at fault begins as `nil = false` would: 25 6 20 21.
#[test]
fn a_path_like_a_comparison_is_not_counted() {
    let side = [25, 6, 20, 21, 22, 23, 24, 26];
    let mut sheet = fresh(&block(&[&[&[6][..], &side, &[25, 0]].concat()]), &[]);
    let itself = reference(0);
    sheet.environment = environment(&[(25, itself)]);
    let way = side[2..7].iter().map(|label| (*label, itself));
    let fields: Vec<(i32, Cell)> = way.chain([(26, int(1))]).collect();
    sheet.heap = heap(&[&fields]);
    check_unchanged(&sheet, (8, 2, 1, 0, 0));
    assert_eq!(counted(&sheet), [0; 3]);
}

#[test]
fn counts_are_added_up() {
    let counts = |counts| Unlike { counts };
    let mut all = counts([1, 2, 3]);
    all.add(&counts([10, 20, 30]));
    assert_eq!(all.counts, [11, 22, 33]);
    assert!(all.are_met(66, 11));
    assert!(!all.are_met(67, 11));
    assert!(!all.are_met(66, 12));
    let told = all.to_string();
    assert_eq!(told, "unlike kinds compared 8: 11 15: 22 4: 33");
}
