//! Drafts that are to end with a certain refusal from 5 on.

use super::compose::{Composer, Place};
use super::draft::Draft;
use super::inside::{behind_parts, evaluating, joined, meeting};
use super::numbers::Numbers;
use super::search::Mistake;
use super::start;
use super::states;
use crate::batch::Sheet;
use crate::outcome::Outcome;
use crate::tables::{Kind, Value};

/// A sheet that is meant to end with an outcome, and mostly does.
pub fn wished(mut draft: Draft, outcome: Outcome) -> Sheet {
    match outcome {
        Outcome::BudgetSpent => return short_budget(draft),
        Outcome::NoProposal => return short_proposals(draft),
        _ => draft = filled(draft, outcome),
    }
    let count = draft.numbers.below(12);
    draft.grow(count);
    for _ in 0..4 {
        if draft.refused.is_none() && !draft.is_full() {
            refuse(&mut draft, outcome);
        }
    }
    draft.trail();
    draft.sheet()
}

fn short_budget(mut draft: Draft) -> Sheet {
    let count = 3 + draft.numbers.below(15);
    draft.grow(count);
    if draft.numbers.chance(15) {
        draft.attempt_last(&[8, 22, 1, 0]);
    }
    let steps = usize::try_from(draft.steps).unwrap_or(0);
    let mut sheet = draft.sheet();
    sheet.budget = i32::try_from(draft.numbers.below(steps)).unwrap_or(0);
    sheet
}

fn short_proposals(mut draft: Draft) -> Sheet {
    let count = 3 + draft.numbers.below(15);
    draft.grow(count);
    let starts = draft.search.starts.clone();
    let mut sheet = draft.sheet();
    let cut = draft.numbers.pick(&starts).unwrap_or(0);
    sheet.proposals.truncate(cut);
    sheet
}

/// With little room left where the outcome needs that.
pub fn filled(mut draft: Draft, outcome: Outcome) -> Draft {
    match outcome {
        Outcome::HeapFull => return fill_heap(draft),
        Outcome::NoRoom => fill_positions(&mut draft),
        _ => {}
    }
    draft
}

fn fill_heap(draft: Draft) -> Draft {
    let mut numbers = draft.numbers;
    let records = 58 + numbers.below(7);
    let tables = start::tables(&mut numbers, records);
    Draft::new(numbers, tables)
}

fn fill_positions(draft: &mut Draft) {
    let missing = draft.numbers.below(2);
    if draft.numbers.chance(60) {
        draft.keep_unrun(&vec![&[3, 1, 1, 22][..]; 64 - missing]);
    } else {
        draft.begin_with(50, Value::Nil);
        draft.keep_unrun(&vec![&[5, 50, 0, 50, 0][..]; 32 - missing]);
    }
}

/// Adds what is likely to be refused with an outcome in this state.
fn refuse(draft: &mut Draft, outcome: Outcome) {
    if let Some(mistake) = Mistake::of(outcome) {
        return grow_mistaken(draft, mistake);
    }
    if outcome == Outcome::HeapFull && draft.numbers.chance(70) {
        draft.attempt_last(&[8, 22, 1, 2, 0, 0]);
        return;
    }
    let statement = statement(draft, outcome);
    let words = draft.composer().wrapped(statement);
    draft.attempt_last(&words);
}

/// A statement that is likely to be refused by itself, in a state made for it.
pub fn statement(draft: &mut Draft, outcome: Outcome) -> Vec<i32> {
    match outcome {
        Outcome::NoCell => missing_cell(draft),
        Outcome::WrongKind => wrong_kind(draft),
        Outcome::OutOfRange => out_of_range(draft),
        Outcome::HeapFull => full_heap(draft),
        Outcome::NotIdentical => not_identical(draft),
        Outcome::IdentityClash => clash(draft),
        Outcome::PlainIdentity => plain_identity(draft),
        Outcome::NoRoom => no_room(draft),
        _ => lost_constraint(draft),
    }
}

fn missing_cell(draft: &mut Draft) -> Vec<i32> {
    let mut composer = draft.composer();
    let absent = composer.absent_variable().unwrap_or(63);
    let missing = match composer.known(|_| true) {
        Some(known) if known.words.len() < 9 && composer.numbers.chance(60) => {
            let mut words = known.words;
            words.push(composer.numbers.between(5, 30));
            let labels = i32::try_from(words.len()).unwrap_or(2) - 2;
            words.splice(1..2, [labels]);
            words
        }
        _ => vec![absent, 0],
    };
    let numbers = composer.numbers;
    match numbers.below(7) {
        0 => [&[1][..], &missing, &[20]].concat(),
        1 => [&[5, absent, 0][..], &missing].concat(),
        2 => evaluating(numbers, &[&[26][..], &missing, &[0, 0]].concat()),
        _ => meeting(numbers, &[&[24][..], &missing].concat()),
    }
}

fn wrong_kind(draft: &mut Draft) -> Vec<i32> {
    match draft.numbers.below(10) {
        0 => unlike_identity(&mut draft.composer()),
        1..=3 => no_boolean(draft),
        _ => {
            let wrong = wrong_operands(draft);
            meeting(&mut draft.numbers, &wrong)
        }
    }
}

/// An operator over kinds that it does not take.
fn wrong_operands(draft: &mut Draft) -> Vec<i32> {
    let operator = match draft.numbers.chance(70) {
        true => draft.numbers.between(6, 7),
        false => draft.numbers.between(1, 11),
    };
    let (left, right) = match operator {
        6 | 7 => uncompared(&mut draft.numbers),
        _ => (Kind::Integer, Kind::Boolean),
    };
    if [left, right].contains(&Kind::Reference) {
        let _ = draft.attempt(&[2, 36, 0]);
    }
    let mut words = vec![25, operator];
    operand(&mut draft.composer(), &mut words, left);
    operand(&mut draft.composer(), &mut words, right);
    words
}

/// Kinds that 6 and 7 do not take: unlike ones, or two references.
fn uncompared(numbers: &mut Numbers) -> (Kind, Kind) {
    let kinds = [Kind::Integer, Kind::Boolean, Kind::Nil, Kind::Reference];
    match (numbers.pick(&kinds), numbers.pick(&kinds)) {
        (Some(left), Some(right)) if left != right || left == Kind::Reference => (left, right),
        _ => (Kind::Integer, Kind::Boolean),
    }
}

/// A leaf mostly; it may stand inside C.
fn operand(composer: &mut Composer, words: &mut Vec<i32>, kind: Kind) {
    let depth = 1 + composer.numbers.below(2);
    match kind {
        Kind::Integer => composer.integer(words, depth),
        Kind::Boolean => composer.boolean(words, depth, Place::Constraint),
        _ => composer.leaf(words, kind),
    }
}

/// A test or a part that is no boolean.
fn no_boolean(draft: &mut Draft) -> Vec<i32> {
    let kinds = [Kind::Integer, Kind::Nil, Kind::Reference];
    let kind = draft.numbers.pick(&kinds).unwrap_or(Kind::Nil);
    let mut wrong = Vec::new();
    draft.composer().leaf(&mut wrong, kind);
    match draft.numbers.below(5) {
        0 => [&[3][..], &behind_parts(&mut draft.numbers, &wrong)].concat(),
        1 => [&[4][..], &behind_parts(&mut draft.numbers, &wrong)].concat(),
        2 => [&[7][..], &wrong, &[0, 0]].concat(),
        3 => [&[8][..], &wrong, &[0]].concat(),
        _ => later_test(draft, &wrong),
    }
}

/// A while whose second test is no boolean, or compares one with true.
fn later_test(draft: &mut Draft, wrong: &[i32]) -> Vec<i32> {
    let _ = draft.attempt(&[1, 59, 0, 22]);
    let test: &[i32] = match draft.numbers.chance(50) {
        true => &[24, 59, 0],
        false => &[25, 6, 24, 59, 0, 22],
    };
    [&[8][..], test, &[1, 1, 59, 0], wrong].concat()
}

/// An identity statement with one side or both neither reference nor nil.
fn unlike_identity(composer: &mut Composer) -> Vec<i32> {
    let plain = composer.known(|value| !value.is_reference_or_nil());
    let other = composer.known(|_| true);
    let sort = composer.numbers.between(5, 6);
    match (plain, other) {
        (Some(left), Some(right)) if composer.numbers.chance(50) => {
            [&[sort][..], &left.words, &right.words].concat()
        }
        (Some(right), Some(left)) => [&[sort][..], &left.words, &right.words].concat(),
        _ => vec![7, 20, 0, 0],
    }
}

fn out_of_range(draft: &mut Draft) -> Vec<i32> {
    let large = match draft.numbers.below(4) {
        0 => [25, 1, 23, i32::MAX, 23, 1],
        1 => [25, 2, 23, i32::MIN, 23, 1],
        2 => [25, 3, 23, 46_341, 23, 46_341],
        _ => [25, 3, 23, i32::MIN, 23, -1],
    };
    let mut other = Vec::new();
    draft.composer().integer(&mut other, 2);
    let large = joined(&mut draft.numbers, 1, &other, &large);
    evaluating(&mut draft.numbers, &large)
}

/// New records until there is no room, sometimes with an earlier refusal.
fn full_heap(draft: &mut Draft) -> Vec<i32> {
    while draft.attempt(&[2, 34, 0]).is_ok() {}
    let statement: &[i32] = match draft.numbers.below(4) {
        0 => &[2, 0, 1, 0, 24, 60, 0],
        1 => &[2, 0, 2, 3, 20, 0, 25, 1, 22, 22],
        2 => &[2, 0, 1, 0, 25, 1, 23, i32::MAX, 23, 1],
        _ => &[2, 0, 1, 0, 20],
    };
    statement.to_vec()
}

fn not_identical(draft: &mut Draft) -> Vec<i32> {
    let mut composer = draft.composer();
    let left = composer.known(Value::is_reference_or_nil);
    let value = left.as_ref().map(|known| known.value);
    let right = composer.known(|own| own.is_reference_or_nil() && Some(own) != value);
    let sort = composer.numbers.between(5, 6);
    if let (Some(left), Some(right)) = (left, right) {
        return [&[sort][..], &left.words, &right.words].concat();
    }
    let _ = draft.attempt(&[2, 3, 0]);
    let _ = draft.attempt(&[1, 4, 0, 20]);
    vec![sort, 3, 0, 4, 0]
}

fn clash(draft: &mut Draft) -> Vec<i32> {
    let value = draft
        .numbers
        .pick(&[&[20][..], &[23, 5], &[22]])
        .unwrap_or(&[20]);
    match draft.numbers.below(4) {
        0 => {
            states::self_reference(draft);
            [&[1, 20, 2, 0, 0][..], value].concat()
        }
        1 => {
            states::tied_field(draft);
            match draft.numbers.below(4) {
                0 => vec![2, 21, 0],
                1 => vec![2, 21, 1, 0, 20],
                _ => [&[1, 21, 0][..], value].concat(),
            }
        }
        2 => inner_clash(draft, value),
        _ => {
            states::tied_family(draft);
            vec![2, 25, 1, 0, 20]
        }
    }
}

/// A field on the way of a kept identity, reached by its own path or another.
fn inner_clash(draft: &mut Draft, value: &[i32]) -> Vec<i32> {
    states::tied_inner_field(draft);
    let name = draft.numbers.between(31, 32);
    let given = match draft.numbers.below(3) {
        0 => &[24, 30, 0],
        1 => &[24, 31, 0],
        _ => value,
    };
    [&[1, name, 1, 0][..], given].concat()
}

fn plain_identity(draft: &mut Draft) -> Vec<i32> {
    let named = states::tied_pair(draft);
    let mut statement = [&[1][..], &named].concat();
    let kinds = [Kind::Integer, Kind::Boolean];
    let kind = draft.numbers.pick(&kinds).unwrap_or(Kind::Integer);
    draft.composer().expression(&mut statement, kind, 2);
    statement
}

/// With the room full, mostly one position more, else an earlier refusal.
fn no_room(draft: &mut Draft) -> Vec<i32> {
    let (values, identities) = (draft.tables.values.len(), draft.tables.identities.len());
    let early = draft.numbers.chance(25);
    let statement: &[i32] = match (values >= identities, draft.numbers.below(3)) {
        (true, 0) if early => &[3, 2, 1, 22, 1, 24, 60, 0],
        (true, 1) if early => &[3, 1, 3, 23, 1],
        (true, 2) if early => &[4, 1, 3, 21],
        (true, _) => &[3, 1, 1, 22],
        (false, 0) if early => &[5, 50, 0, 60, 0],
        (false, 1) if early => &[6, 50, 0, 50, 0],
        (false, _) => &[5, 50, 0, 50, 0],
    };
    statement.to_vec()
}

fn lost_constraint(draft: &mut Draft) -> Vec<i32> {
    let field = states::named_fields(draft);
    match draft.numbers.below(8) {
        0 => vec![1, 27, 0, 20],
        1 => vec![2, 27, 1, 0, 23, 1],
        2 => vec![1, 27, 0, 23, 5],
        3 => [&[1][..], &states::path(27, field), &[24, 27, 0]].concat(),
        4 | 5 => states::other_record(&mut draft.numbers),
        _ => [&[1][..], &states::other_field(&mut draft.numbers, field)].concat(),
    }
}

/// Grows on with a mistake due at the next proposal it fits.
fn grow_mistaken(draft: &mut Draft, mistake: Mistake) {
    if mistake == Mistake::Unmet {
        states::less_than_another(draft);
    }
    draft.search.mistake = Some(mistake);
    for _ in 0..6 {
        if draft.refused.is_none() {
            let mut statement = draft.composer().statement(2);
            if mistake == Mistake::Unmet && draft.numbers.chance(60) {
                statement = vec![1, 28, 0, 23, draft.numbers.between(4, 30)];
            }
            draft.attempt_last(&statement);
        }
    }
}
