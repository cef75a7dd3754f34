//! The generated lists: always the same ones, of every outcome and cause.

mod common;
use common::digest;
use reference::batch::{answer_line, List};
use reference::causes::Cause;
use reference::entries::starts;
use reference::generator::{list, lists::histogram};
use reference::outcome::Outcome;
use reference::proposal::Proposal;

const SEED: u64 = 20_240_501;

#[test]
fn every_outcome_and_cause_comes_up() {
    let (counts, causes) = histogram(SEED, 10_000);
    assert_eq!(counts.iter().sum::<u64>(), 10_000);
    for (outcome, lists) in Outcome::OF_LISTS.iter().zip(counts) {
        assert!(lists >= 80, "{outcome:?} only {lists} times");
    }
    assert!(counts[0] >= 2500, "only {} go through", counts[0]);
    assert_eq!(causes.counts.iter().sum::<u64>(), counts[15]);
    for (cause, lists) in Cause::ALL.iter().zip(causes.counts) {
        assert!(lists >= 50, "{cause:?} only {lists} times");
    }
}

/// Of the accepted proposals, those that change something.
fn changes(list: &List) -> usize {
    let read = list.sheet.proposals.len() - list.answer().answer.unread;
    let (mut words, mut changes) = (&list.sheet.proposals[..read], 0);
    while let Ok(proposal) = Proposal::read(words) {
        changes += usize::from(!proposal.entries.is_empty());
        words = &words[proposal.length()..];
    }
    changes
}

/// More variables have become nil than entries say: some were of one class.
fn moves_a_class(list: &List) -> bool {
    let finish = list.answer();
    let kinds = list.sheet.environment.iter().zip(&finish.environment);
    let nils = kinds
        .step_by(2)
        .filter(|(old, new)| old != new && **new == 1);
    let said = list.entries.iter().filter(|word| **word == 20);
    nils.count() > said.count()
}

#[test]
fn lists_of_all_sorts_go_through() {
    let lists = (0..3000).map(|index| list(SEED, index));
    let through: Vec<List> = lists.filter(|l| l.answer().answer.outcome == 0).collect();
    let count = |which: &dyn Fn(&List) -> bool| through.iter().filter(|l| which(l)).count();
    let entries = |list: &List| starts(&list.entries).len();
    let kept = |list: &List, sort: usize| list.sheet.constraints[sort];
    for (sort, found, least) in [
        ("no entries", count(&|l| l.entries.is_empty()), 20),
        ("one entry", count(&|l| entries(l) == 1), 50),
        ("hundreds", count(&|l| entries(l) > 100), 20),
        ("more than a block's", count(&|l| entries(l) > 255), 10),
        ("several changes", count(&|l| changes(l) > 2), 200),
        ("kept constraints", count(&|l| kept(l, 0) > 1), 300),
        ("kept identities", count(&|l| kept(l, 1) > 0), 150),
        (
            "classes",
            count(&|l| !l.entries.is_empty() && moves_a_class(l)),
            10,
        ),
        ("words left", count(&|l| l.answer().answer.unread > 0), 200),
    ] {
        assert!(found >= least, "{sort} only {found} times");
    }
}

/// 23 comes before 5 where the budget is used up at its turn.
#[test]
fn unfit_entries_with_the_budget_spent_are_common() {
    let spent = (0..3000).filter(|index| {
        let list = list(SEED, *index);
        let answer = list.answer().answer;
        answer.outcome == 23 && i64::from(answer.steps) == i64::from(list.sheet.budget)
    });
    let spent = spent.count();
    assert!(spent >= 100, "only {spent}");
}

#[test]
fn a_seed_and_number_give_the_same_list() {
    for index in 0..200 {
        assert_eq!(list(SEED, index), list(SEED, index));
    }
    assert_ne!(list(SEED, 0), list(SEED + 1, 0));
    assert_ne!(list(SEED, 0), list(SEED, 1));
}

#[test]
fn the_same_lists_on_every_machine() {
    let lines = (0..500).map(|index| list(1, index).line());
    assert_eq!(digest(lines), 4_980_541_219_485_025_750);
}

#[test]
fn lists_survive_their_lines() {
    for index in 0..600 {
        let list = list(SEED, index);
        let line = list.line();
        assert_eq!(List::parse(line.as_bytes()).as_ref(), Some(&list));
        let answer = list.answer().line(&list.sheet);
        assert_eq!(answer_line(line.as_bytes()), answer);
    }
}

/// Outcomes 1 to 4 change nothing; otherwise what is left is fit to start from.
#[test]
fn tables_left_behind_are_fit() {
    for index in 0..2000 {
        let mut list = list(SEED, index);
        let finish = list.answer();
        if (1..=4).contains(&finish.answer.outcome) {
            assert_eq!(finish.environment, list.sheet.environment);
            assert_eq!(finish.heap, list.sheet.heap);
        } else {
            list.sheet.environment = finish.environment;
            list.sheet.heap = finish.heap;
            list.entries.clear();
            assert_eq!(list.answer().answer.outcome, 0);
        }
        assert_eq!(finish.constraints, list.sheet.constraints);
    }
}

/// A list cut in two between entries, the second half over what the first left,
/// with its unread words and the rest of its budget.
#[test]
fn two_halves_are_the_whole() {
    for index in 0..2000 {
        let whole = list(SEED, index);
        let starts = starts(&whole.entries);
        let Some(cut) = starts.get(starts.len() / 2) else {
            continue;
        };
        let (finish, mut half) = (whole.answer(), whole.clone());
        half.entries.truncate(*cut);
        let mut first = half.answer();
        if first.answer.outcome == 0 {
            let read = half.sheet.proposals.len() - first.answer.unread;
            half.entries = whole.entries[*cut..].to_vec();
            half.sheet.environment = first.environment;
            half.sheet.heap = first.heap;
            half.sheet.proposals.drain(..read);
            half.sheet.budget -= first.answer.steps as i32;
            let second = half.answer();
            let before = first.answer;
            first = second;
            first.answer.place += before.place;
            first.answer.steps += before.steps;
            first.answer.accepted += before.accepted;
        }
        assert_eq!(first, finish, "list {index}");
    }
}
