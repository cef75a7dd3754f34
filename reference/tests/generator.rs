//! The generated sheets: always the same ones, and of every outcome.

mod common;
use common::digest;
use reference::batch::{answer_line, Sheet};
use reference::generator::{histogram, sheet};
use reference::program::Operator;
use reference::tables::Kind;
use reference::unlike::operands;

const SEED: u64 = 20_240_501;

#[test]
fn every_outcome_comes_up() {
    let (outcomes, counts) = histogram(SEED, 10_000);
    assert_eq!(outcomes.iter().sum::<u64>(), 10_000);
    for (outcome, sheets) in outcomes.iter().enumerate() {
        assert!(*sheets >= 100, "outcome {outcome} only {sheets} times");
    }
    assert!(outcomes[0] >= 2500, "only {} finished", outcomes[0]);
    let places = &counts.places;
    assert!(places.are_met(100), "{places}");
    assert!(places.sorts.iter().all(|count| *count >= 50), "{places}");
    assert!(counts.unlike.are_met(300, 50), "{}", counts.unlike);
    let classes = &counts.classes;
    assert!(classes.are_met(400, 10, 100), "{classes}");
}

/// Unlike kinds and two references, by 8.
#[test]
fn every_two_kinds_are_compared_that_may_not_be() {
    let mut met = Vec::new();
    for sheet in (0..10_000).map(|index| sheet(SEED, index)) {
        let finish = sheet.answer();
        if finish.answer.outcome == 8 {
            met.extend(operands(&sheet, &finish));
        }
    }
    let kinds = [Kind::Integer, Kind::Boolean, Kind::Nil, Kind::Reference];
    for operator in [Operator::Equal, Operator::Unequal] {
        for (left, right) in kinds
            .iter()
            .flat_map(|left| kinds.map(|right| (*left, right)))
        {
            let wanted = left != right || left == Kind::Reference;
            let found = met.contains(&(operator, left, right));
            assert_eq!(found, wanted, "{operator:?} of {left:?} and {right:?}");
        }
    }
}

/// No place of 7, 8, 9 and 15 is a statement's word.
#[test]
fn every_place_of_a_word_at_fault_is_inside() {
    let (outcomes, counts) = histogram(SEED, 4000);
    assert_eq!(
        counts.places.outcomes,
        [7, 8, 9, 15].map(|outcome| outcomes[outcome])
    );
}

#[test]
fn long_runs_are_common() {
    let accepted = (0..2000).map(|index| sheet(SEED, index).answer().answer.accepted);
    let long = accepted.filter(|accepted| *accepted > 5).count();
    assert!(long >= 600, "only {long}");
}

#[test]
fn a_seed_and_number_give_the_same_sheet() {
    for index in 0..300 {
        assert_eq!(sheet(SEED, index), sheet(SEED, index));
    }
    assert_ne!(sheet(SEED, 0), sheet(SEED + 1, 0));
    assert_ne!(sheet(SEED, 0), sheet(SEED, 1));
}

#[test]
fn the_same_sheets_on_every_machine() {
    let lines = (0..500).map(|index| sheet(1, index).line());
    assert_eq!(digest(lines), 17_725_543_481_413_841_199);
}

#[test]
fn sheets_survive_their_lines() {
    for index in 0..1000 {
        let sheet = sheet(SEED, index);
        let line = sheet.line();
        assert_eq!(Sheet::parse(line.as_bytes()).as_ref(), Some(&sheet));
        assert_eq!(answer_line(line.as_bytes()), sheet.answer().line(&sheet));
    }
}

/// What a run leaves is fit to start from: with no budget the same program
/// is stopped by 5 at its first statement, or is empty.
#[test]
fn tables_left_behind_are_fit() {
    for index in 0..5000 {
        let mut sheet = sheet(SEED, index);
        let finish = sheet.answer();
        let outcome = finish.answer.outcome;
        if (1..=4).contains(&outcome) {
            assert_eq!(finish.environment, sheet.environment);
            assert_eq!(finish.heap, sheet.heap);
            assert_eq!(finish.constraints, sheet.constraints);
            continue;
        }
        sheet.environment = finish.environment;
        sheet.heap = finish.heap;
        sheet.constraints = finish.constraints;
        sheet.budget = 0;
        let next = sheet.answer();
        let empty = sheet.program.first() == Some(&0);
        assert_eq!(next.answer.outcome, if empty { 0 } else { 5 });
        assert_eq!(next.heap, sheet.heap);
        assert!(finish.answer.steps >= finish.answer.accepted);
    }
}

/// One step less than a run took stops it with 5 before its last step.
#[test]
fn smaller_budgets_stop_earlier() {
    for index in 0..1000 {
        let mut sheet = sheet(SEED, index);
        let whole = sheet.answer().answer;
        if whole.steps == 0 || sheet.budget < 0 {
            continue;
        }
        sheet.budget = (whole.steps - 1) as i32;
        let short = sheet.answer().answer;
        assert_eq!((short.outcome, short.steps), (5, whole.steps - 1));
        assert!(short.accepted <= whole.accepted);
        assert!(short.unread >= whole.unread);
    }
}
