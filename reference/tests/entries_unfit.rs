//! Entries that are no target and literal (23), and entries that are
//! assignments like any other.

mod common;
use common::cores::*;
use common::*;
use reference::causes::{Cause, Piece, Wrong};

/// Every cause, with words that begin no entry for it.
const UNFIT: [(Piece, Wrong, &[&[i32]]); 12] = [
    (
        Piece::Variable,
        Wrong::Below,
        &[&[-1, 0, 20], &[i32::MIN, 0, 20], &[-1]],
    ),
    (
        Piece::Variable,
        Wrong::Above,
        &[&[64, 0, 20], &[i32::MAX, 0, 20], &[64]],
    ),
    (
        Piece::Count,
        Wrong::Below,
        &[&[0, -1, 20], &[63, i32::MIN, 20]],
    ),
    (
        Piece::Count,
        Wrong::Above,
        &[&[0, 8, 0, 0, 0, 0, 0, 0, 0, 0, 20], &[0, i32::MAX], &[0, 8]],
    ),
    (Piece::Count, Wrong::Missing, &[&[0], &[63]]),
    (
        Piece::Label,
        Wrong::Below,
        &[&[0, 1, -1, 20], &[0, 2, 0, i32::MIN, 20]],
    ),
    (
        Piece::Label,
        Wrong::Above,
        &[&[0, 1, 32, 20], &[0, 2, 0, i32::MAX, 20], &[0, 7, 32]],
    ),
    (
        Piece::Label,
        Wrong::Missing,
        &[&[0, 1], &[0, 2, 0], &[0, 7, 0, 0, 0, 0, 0, 0]],
    ),
    (
        Piece::Literal,
        Wrong::Below,
        &[&[0, 0, 19], &[0, 0, -1], &[0, 1, 2, 0], &[0, 0, i32::MIN]],
    ),
    (
        Piece::Literal,
        Wrong::Above,
        &[
            &[0, 0, 24, 0, 0],
            &[0, 0, 24],
            &[0, 1, 2, 25, 1, 23, 1, 23, 1],
            &[0, 0, 25],
            &[0, 0, 26, 0, 0, 0, 0],
            &[0, 0, 27],
            &[0, 0, i32::MAX],
        ],
    ),
    (
        Piece::Literal,
        Wrong::Missing,
        &[&[0, 0], &[0, 1, 2], &[0, 7, 0, 0, 0, 0, 0, 0, 0]],
    ),
    (
        Piece::Integer,
        Wrong::Missing,
        &[&[0, 0, 23], &[0, 1, 2, 23]],
    ),
];

/// First, and behind an entry that goes through; no step, no proposal.
#[test]
fn each_cause() {
    let kept = samples(16);
    for (all, (piece, wrong, unfit)) in Cause::ALL.iter().zip(UNFIT) {
        assert_eq!((all.piece, all.wrong), (piece, wrong));
        for entry in unfit {
            let cause = Cause { piece, wrong };
            assert_eq!(Cause::of(entry, 0), Some(cause), "for {entry:?}");
            check_list_unchanged(&list(&[entry], &[0, 0]), (23, 0, 0, 0, 2));
            check_list_unchanged(&list(&[&kept, entry], &[0, 0]), (23, 1, 1, 1, 1));
            if wrong != Wrong::Missing {
                check_list_unchanged(&list(&[entry, &kept], &[0, 0]), (23, 0, 0, 0, 2));
            }
        }
    }
}

#[test]
fn before_the_budget() {
    for (_, _, unfit) in UNFIT {
        for entry in unfit {
            let mut spent = list(&[&samples(16), entry], &[0]);
            spent.sheet.budget = 1;
            check_list_unchanged(&spent, (23, 1, 1, 1, 0));
            let mut none = list(&[entry], &[]);
            none.sheet.budget = 0;
            check_list_unchanged(&none, (23, 0, 0, 0, 0));
        }
    }
}

/// It is found at its turn: an earlier refusal comes first, 5 too.
#[test]
fn at_its_turn() {
    for (_, _, unfit) in UNFIT {
        for entry in unfit {
            let mut spent = list(&[&samples(16), entry], &[0]);
            spent.sheet.budget = 0;
            check_list_unchanged(&spent, (5, 0, 0, 0, 1));
            check_list_unchanged(&list(&[&samples(16), entry], &[]), (6, 0, 1, 0, 0));
            check_list_unchanged(&list(&[&samples(32), entry], &[0]), (19, 0, 1, 0, 1));
            check_list_unchanged(&list(&[&[5, 1, 0, 20], entry], &[0]), (7, 0, 1, 0, 1));
        }
    }
}

/// Where words are taken for another entry's, the next entry is what is left.
#[test]
fn an_entry_ends_where_its_literal_does() {
    let mut taken = fresh_list(&[&[0, 0, 20, 5]], &[0, 0]);
    check_list(&taken, (23, 1, 1, 1, 1));
    taken.entries = vec![0, 0, 23, 20, 1, 0, 20];
    let finish = check_list(&taken, (0, 2, 2, 2, 0));
    assert_eq!(finish.environment, environment(&[(0, int(20)), (1, NIL)]));
}

/// `core` and `log` are one, and `box.core` is tied to both; 12 and 13.
fn tied(entries: &[&[i32]], proposals: &[i32]) -> reference::batch::List {
    let always: [&[i32]; 2] = [&[5, 0, 0, 1, 0], &[5, 2, 1, 0, 1, 0]];
    let mut tied = fresh_list(entries, proposals);
    tied.sheet.program = block(&always);
    tables(
        &mut tied.sheet,
        environment(&[(0, reference(0)), (1, reference(0)), (2, reference(1))]),
        heap(&[&[(0, int(80))], &[(0, reference(0))]]),
        constraints(&[], &[1, 6]),
    );
    tied
}

#[test]
fn a_class_moves_whole() {
    let finish = check_list(&tied(&[&[1, 0, 20]], &[0]), (0, 1, 1, 1, 0));
    let after = environment(&[(0, NIL), (1, NIL), (2, reference(1))]);
    assert_eq!(finish.environment, after);
    assert_eq!(finish.heap, heap(&[&[(0, int(80))], &[(0, NIL)]]));
    let after = check_list(
        &tied(&[&[2, 1, 0, 20], &[0, 0, 20]], &[0, 0]),
        (0, 2, 2, 2, 0),
    );
    assert_eq!(after.heap, finish.heap);
    assert_eq!(after.environment, finish.environment);
}

#[test]
fn identities_refuse() {
    for literal in [&[21][..], &[22], &[23, 5]] {
        let plain = [&[1, 0][..], literal].concat();
        check_list_unchanged(&tied(&[&plain], &[0]), (13, 0, 1, 0, 1));
        let field = [&[2, 1, 0][..], literal].concat();
        check_list_unchanged(&tied(&[&field], &[0]), (13, 0, 1, 0, 1));
        let on_the_way = [&[2, 0][..], literal].concat();
        check_list_unchanged(&tied(&[&on_the_way], &[0]), (12, 0, 1, 0, 1));
    }
    check_list_unchanged(&tied(&[&[2, 0, 20]], &[0]), (12, 0, 1, 0, 1));
}

/// Where two refusals are due, the one that comes first in 01.
#[test]
fn order_of_an_assignment() {
    let mut lost = tied(&[&[2, 1, 0, 23, 5]], &[]);
    lost.sheet.program = block(&[
        &[5, 0, 0, 1, 0],
        &[5, 2, 1, 0, 1, 0],
        &[3, 1, 3, 25, 9, 24, 0, 1, 0, 23, 0],
    ]);
    lost.sheet.constraints = constraints(&[12], &[1, 6]);
    check_list_unchanged(&lost, (13, 0, 1, 0, 0));
    lost.entries = vec![2, 0, 20];
    check_list_unchanged(&lost, (12, 0, 1, 0, 0));
    lost.entries = vec![1, 0, 20];
    check_list_unchanged(&lost, (15, 0, 1, 0, 0));
    lost.entries = vec![2, 1, 1, 20];
    check_list_unchanged(&lost, (7, 0, 1, 0, 0));
    lost.entries = vec![0, 1, 0, 23, 80];
    check_list_unchanged(&lost, (6, 0, 1, 0, 0));
    lost.sheet.proposals = vec![2, 64, 81, 64, 82];
    check_list_unchanged(&lost, (16, 0, 1, 0, 5));
    lost.sheet.proposals = vec![1, 64, 81];
    check_list_unchanged(&lost, (17, 0, 1, 0, 3));
}
