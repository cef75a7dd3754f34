//! The target's class, whichever way its identities are kept, and how large
//! ones are counted (document 02, W7).

mod common;
use common::*;
use reference::batch::Sheet;
use reference::classes::{moves, Classes, Moves};

/// Variables 0 to `cells - 1` hold one record and are tied in a chain whose
/// identities are kept in this order; then the last statement.
fn chain(cells: i32, order: &[i32], last: &[i32], proposals: usize) -> Sheet {
    let mut statements = vec![vec![2, 0, 0]];
    statements.extend((1..cells).map(|x| vec![1, x, 0, 24, x - 1, 0]));
    statements.extend(order.iter().map(|x| vec![5, *x, 0, x + 1, 0]));
    statements.push(last.to_vec());
    let parts: Vec<&[i32]> = statements.iter().map(Vec::as_slice).collect();
    fresh(&block(&parts), &vec![0; proposals])
}

fn counted(sheet: &Sheet) -> Classes {
    let mut classes = Classes::default();
    classes.count(sheet, &sheet.answer());
    classes
}

/// Each takes the new record, from the first target and from the last, in the
/// chain's order, from its far end, and from the middle outwards.
#[test]
fn the_whole_class_moves_whatever_the_order() {
    let orders: [&[i32]; 4] = [
        &[0, 1, 2, 3, 4],
        &[4, 3, 2, 1, 0],
        &[2, 0, 4, 1, 3],
        &[1, 3, 0, 2, 4],
    ];
    for order in orders {
        for target in [0, 2, 5] {
            let sheet = chain(6, order, &[2, target, 0], 7);
            let finish = sheet.answer();
            assert_eq!(finish.answer.outcome, 0);
            let cells: Vec<(usize, Cell)> = (0..6).map(|x| (x, reference(1))).collect();
            assert_eq!(finish.environment, environment(&cells));
            let whole = Moves {
                largest: 6,
                taken_back: 0,
            };
            assert_eq!(moves(&sheet), whole);
        }
    }
}

/// 33 cells is the most that 32 identities tie together.
#[test]
fn the_largest_class_moves() {
    let order: Vec<i32> = (0..32).rev().collect();
    let sheet = chain(33, &order, &[1, 0, 0, 20], 34);
    assert_eq!(sheet.answer().answer.outcome, 0);
    assert_eq!(moves(&sheet).largest, 33);
    let short = chain(33, &order, &[1, 0, 0, 20], 33);
    assert_eq!(short.answer().answer.outcome, 6);
    assert_eq!(moves(&short).taken_back, 33);
}

#[test]
fn large_classes_are_counted() {
    let moved = |cells: i32, last: &[i32], proposals: usize| {
        let order: Vec<i32> = (0..cells - 1).collect();
        let classes = counted(&chain(cells, &order, last, proposals));
        (classes.moved, classes.taken_back, classes.refused)
    };
    assert_eq!(moved(3, &[2, 1, 0], 4), (1, 0, [0, 0]));
    assert_eq!(moved(2, &[2, 1, 0], 3), (0, 0, [0, 0]));
    assert_eq!(moved(3, &[2, 1, 0], 3), (0, 1, [0, 0]));
    assert_eq!(moved(2, &[2, 1, 0], 2), (0, 0, [0, 0]));
    assert_eq!(moved(3, &[1, 1, 0, 23, 5], 4), (0, 0, [0, 1]));
    assert_eq!(moved(3, &[2, 9, 0], 4), (0, 0, [0, 0]));
}

#[test]
fn clashes_are_counted() {
    let program = [3, 2, 0, 1, 0, 20, 1, 0, 1, 0, 24, 0, 0, 1, 0, 2, 0, 0, 20];
    let sheet = fresh(&program, &[0; 3]);
    assert_eq!(sheet.answer().answer.outcome, 12);
    assert_eq!(counted(&sheet).refused, [1, 0]);
}

#[test]
fn counts_are_added_up() {
    let counts = |moved, taken_back, refused| Classes {
        moved,
        taken_back,
        refused,
    };
    let mut all = counts(1, 2, [3, 4]);
    all.add(&counts(10, 20, [30, 40]));
    assert_eq!(all, counts(11, 22, [33, 44]));
    assert!(all.are_met(11, 22, 33));
    assert!(!all.are_met(12, 22, 33));
    assert!(!all.are_met(11, 23, 33));
    assert!(!all.are_met(11, 22, 34));
    let told = all.to_string();
    assert_eq!(
        told,
        "classes of 3 cells or more moved: 11, taken back: 22, refused 12: 33 13: 44"
    );
}
