//! The proved evaluation on pieces whose answers are known, and on a short run.

use compare::expressions::compare;
use compare::proved::{Call, Four, Piece, Pieces, Proved};

/// Variable 0 is record 0, whose field 1 is 7; variable 1 is true; variable 2
/// is nil. All others are absent.
fn ask(call: Call, words: &[i32]) -> Four {
    let mut environment = vec![0; 128];
    environment[..6].copy_from_slice(&[4, 0, 2, 1, 1, 0]);
    let mut heap = vec![0; 1601];
    heap[..5].copy_from_slice(&[1, 1, 1, 3, 7]);
    let mut constraints = vec![0; 98];
    constraints[..4].copy_from_slice(&[2, 0, 0, 5]);
    let question = Pieces {
        words: words.to_vec(),
        environment,
        heap,
        constraints,
        pieces: vec![Piece { call, start: 0 }],
    };
    let mut proved = Proved::start().expect("the proved functions start");
    let answers = proved.ask_pieces(&question).expect("an answer");
    answers[0]
}

#[test]
fn values_have_their_kinds() {
    let value = |words: &[i32]| ask(Call::Expression, words);
    assert_eq!(value(&[20, 5, 5]), [0, 1, 0, 2]);
    assert_eq!(value(&[22]), [0, 2, 1, 0]);
    assert_eq!(value(&[23, i32::MIN]), [0, 3, i32::MIN, 0]);
    assert_eq!(value(&[24, 0, 0]), [0, 4, 0, 0]);
    assert_eq!(value(&[24, 0, 1, 1, 9]), [0, 3, 7, 1]);
    assert_eq!(value(&[26, 0, 0, 2, 0]), [0, 2, 0, 0]);
}

/// The words at fault are told by how many are left from them on.
#[test]
fn refusals_have_their_words() {
    let value = |words: &[i32]| ask(Call::Expression, words);
    assert_eq!(value(&[24, 3, 0]), [7, 2, 0, 0]);
    assert_eq!(value(&[24, 0, 1, 2]), [7, 3, 0, 0]);
    assert_eq!(value(&[25, 6, 24, 0, 0, 20]), [8, 6, 0, 0]);
    assert_eq!(value(&[25, 7, 23, 1, 22]), [8, 5, 0, 0]);
    assert_eq!(value(&[25, 2, 23, i32::MIN, 23, 1]), [9, 6, 0, 0]);
    assert_eq!(value(&[25, 12, 20, 20]), [2, 3, 0, 0]);
    assert_eq!(value(&[]), [2, 0, 0, 0]);
}

/// Where both operands are refused the left one's refusal is told, and a
/// refusal of the right one comes before the operator's kinds.
#[test]
fn the_left_operand_is_first() {
    let (absent, wrong) = ([24, 3, 0], [25, 10, 20, 20]);
    let both = |left: &[i32], right: &[i32]| [&[25, 1], left, right].concat();
    let value = |words: Vec<i32>| ask(Call::Expression, &words);
    assert_eq!(value(both(&absent, &wrong)), [7, 6, 0, 0]);
    assert_eq!(value(both(&wrong, &absent)), [8, 7, 0, 0]);
    assert_eq!(value(both(&[20], &absent)), [7, 2, 0, 0]);
    assert_eq!(value(both(&[23, 5], &[23, 3])), [0, 3, 8, 0]);
}

#[test]
fn and_looks_at_its_right_side() {
    let words = [25, 10, 21, 24, 3, 0];
    assert_eq!(ask(Call::Expression, &words), [7, 2, 0, 0]);
    assert_eq!(ask(Call::Test, &words), [7, 2, 0, 0]);
    assert_eq!(ask(Call::Test, &[24, 2, 0]), [8, 3, 0, 0]);
    assert_eq!(ask(Call::Test, &[24, 1, 0]), [0, 1, 0, 0]);
}

#[test]
fn constraints_are_weighed() {
    let over = [25, 6, 25, 1, 23, i32::MAX, 23, 1, 23, 1];
    let parts = |words: &[i32]| ask(Call::Constraint, words);
    assert_eq!(parts(&[2, 1, 22, 3, 22]), [0, 1, 1, 0]);
    assert_eq!(parts(&[2, 1, 21, 3, 22]), [0, 0, 1, 0]);
    assert_eq!(parts(&[2, 1, 22, 3, 21]), [0, 0, 0, 0]);
    assert_eq!(parts(&[&[1, 2], &over[..]].concat()), [0, 0, 1, 0]);
    assert_eq!(parts(&[1, 3, 23, 1]), [8, 3, 0, 0]);
    assert_eq!(parts(&[1, 3, 25, 6, 24, 1, 0, 20]), [8, 6, 0, 0]);
    assert_eq!(parts(&[1, 3, 26, 0, 0, 0, 0]), [2, 5, 0, 0]);
    assert_eq!(parts(&[17, 3, 22]), [2, 3, 0, 0]);
}

/// Positions 0 and 5 are kept.
#[test]
fn kept_constraints_are_weighed() {
    let kept = |words: &[i32]| ask(Call::Kept, words);
    assert_eq!(kept(&[3, 1, 3, 22, 0, 3, 1, 1, 21]), [0, 0, 1, 0]);
    assert_eq!(kept(&[3, 1, 3, 22, 0, 3, 1, 3, 20]), [15, 2, 0, 0]);
    let unlike = [3, 1, 3, 22, 0, 3, 1, 1, 25, 7, 24, 2, 0, 21];
    assert_eq!(kept(&unlike), [15, 6, 0, 0]);
    assert_eq!(kept(&[3, 1, 3, 22]), [15, 0, 0, 0]);
}

#[test]
fn paths_name_cells() {
    assert_eq!(ask(Call::Path, &[0, 1, 1]), [0, 64, 0, 0]);
    assert_eq!(ask(Call::Path, &[9, 0, 5]), [0, 9, 1, 0]);
    assert_eq!(ask(Call::Path, &[1, 1, 0]), [7, 3, 0, 0]);
    assert_eq!(ask(Call::Path, &[64, 0]), [2, 2, 0, 0]);
}

#[test]
fn a_short_run_is_the_same() {
    let tally = compare(3, 20_000).expect("no difference");
    assert!(tally.pieces >= 20_000, "{tally}");
    assert!(tally.left_out < 20, "{tally}");
    assert!(tally.fit > 300 && tally.tables - tally.fit > 300, "{tally}");
    let met = |call, name: &str| tally.answers.get(&(call, name.to_string()));
    for name in ["nil", "boolean", "integer", "reference", "refused 2"] {
        assert!(met(Call::Expression, name) > Some(&100), "{name}: {tally}");
    }
    for name in ["refused 7", "refused 8", "refused 9"] {
        assert!(met(Call::Expression, name) > Some(&100), "{name}: {tally}");
    }
    for name in ["satisfied", "required satisfied", "unsatisfied"] {
        assert!(met(Call::Constraint, name) > Some(&100), "{name}: {tally}");
        assert!(met(Call::Kept, name) > Some(&20), "{name}: {tally}");
    }
    assert!(met(Call::Kept, "refused 15") > Some(&100), "{tally}");
}
