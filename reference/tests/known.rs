//! The sheets K1 to K12 with whole answers.

mod common;
use common::*;

const ZEROS: [i32; 8] = [0; 8];

fn check_p(proposals: &[i32], budget: i32, expected: (i32, usize, u32, u32, usize), state: State) {
    let mut sheet = fresh(&P, proposals);
    sheet.budget = budget;
    let finish = check(&sheet, expected);
    let (first, second, kept) = state;
    check_tables(
        &finish,
        &environment(&[(0, reference(0))]),
        &heap(&[&[(0, int(first)), (1, int(second))]]),
        &constraints(kept, &[]),
    );
}

/// The two fields of record 0 and the kept value positions.
type State = (i32, i32, &'static [i32]);
const S: State = (64, 16, &[10]);

#[test]
fn k1_through_the_run() {
    check_p(&[0, 0, 1, 64, 128], 100, (0, 33, 3, 3, 0), (128, 32, &[10]));
}

#[test]
fn k1_through_the_lister() {
    let input =
        "program=3 2 0 2 0 23 64 1 23 16 3 1 3 25 6 24 0 1 0 25 3 23 4 24 0 1 1 1 0 1 1 23 32
proposals=0 0 1 64 128
budget=100
";
    let output = "outcome=0
place=33
steps=3
proposals=3
v0=ref 0
r0=2
r0.0=int 128
r0.1=int 32
c0=10
";
    assert_eq!(reference::lister::list(input.as_bytes()), output);
}

#[test]
fn k2_target_changed() {
    check_p(&[0, 0, 1, 65, 8], 100, (17, 27, 3, 2, 3), S);
}

#[test]
fn k3_required_unmet() {
    check_p(&[0, 0, 0], 100, (19, 27, 3, 2, 1), S);
}

#[test]
fn k4_needless_change() {
    check_p(&[0, 1, 65, 17], 100, (18, 10, 2, 1, 3), (64, 16, &[]));
}

#[test]
fn k5_no_proposal_left() {
    check_p(&[0, 0], 100, (6, 27, 3, 2, 0), S);
}

#[test]
fn k6_budget() {
    check_p(&[0, 0, 1, 64, 128], 2, (5, 27, 2, 2, 3), S);
}

#[test]
fn k7_shortest_programs() {
    check_unchanged(&fresh(&[0], &[]), (0, 1, 0, 0, 0));
    check_unchanged(&fresh(&[], &[]), (2, 0, 0, 0, 0));
}

const K8: [i32; 18] = [4, 2, 0, 0, 1, 1, 0, 24, 0, 0, 5, 0, 0, 1, 0, 2, 0, 0];

#[test]
fn k8_both_ends_move() {
    let finish = check(&fresh(&K8, &ZEROS), (0, 18, 4, 3, 5));
    check_tables(
        &finish,
        &environment(&[(0, reference(1)), (1, reference(1))]),
        &heap(&[&[], &[]]),
        &constraints(&[], &[10]),
    );
}

#[test]
fn k9_plain_value_for_an_identity() {
    let mut program = K8.to_vec();
    program[0] = 5;
    program.extend([1, 1, 0, 23, 5]);
    let finish = check(&fresh(&program, &ZEROS), (13, 18, 5, 3, 5));
    check_tables(
        &finish,
        &environment(&[(0, reference(1)), (1, reference(1))]),
        &heap(&[&[], &[]]),
        &constraints(&[], &[10]),
    );
}

#[test]
fn k10_own_prefix_is_frozen() {
    let program = block(&[
        &[2, 0, 1, 0, 20],
        &[1, 0, 1, 0, 24, 0, 0],
        &[1, 0, 2, 0, 0, 20],
    ]);
    let finish = check(&fresh(&program, &ZEROS), (12, 13, 3, 2, 6));
    check_tables(
        &finish,
        &environment(&[(0, reference(0))]),
        &heap(&[&[(0, reference(0))]]),
        &constraints(&[], &[]),
    );
}

#[test]
fn k11_kept_constraint_lost() {
    let program = block(&[
        &[2, 0, 1, 0, 23, 1],
        &[3, 1, 3, 25, 9, 24, 0, 1, 0, 23, 0],
        &[2, 0, 1, 1, 23, 5],
    ]);
    let finish = check(&fresh(&program, &ZEROS), (15, 13, 3, 2, 6));
    check_tables(
        &finish,
        &environment(&[(0, reference(0))]),
        &heap(&[&[(0, int(1))]]),
        &constraints(&[7], &[]),
    );
}

#[test]
fn k12_range() {
    let program = block(&[&[1, 0, 0, 25, 2, 23, i32::MIN, 23, 1]]);
    check_unchanged(&fresh(&program, &[0]), (9, 4, 1, 0, 1));
    let mut large = P;
    large[32] = 1_000_000_000;
    let finish = check(&fresh(&large, &[0, 0, 0]), (19, 27, 3, 2, 1));
    check_tables(
        &finish,
        &environment(&[(0, reference(0))]),
        &heap(&[&[(0, int(64)), (1, int(16))]]),
        &constraints(&[10], &[]),
    );
}
