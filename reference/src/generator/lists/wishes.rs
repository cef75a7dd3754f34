//! Lists that are to end with a certain refusal from 5 to 19.

use super::asked::{any_literal, entry};
use super::draft::ListDraft;
use crate::batch::List;
use crate::generator::draft::Draft;
use crate::generator::search::Mistake;
use crate::generator::states;
use crate::outcome::Outcome;

/// A list that is meant to end with an outcome, and mostly does.
pub fn wished(mut draft: Draft, outcome: Outcome) -> List {
    let refused = refused_entries(&mut draft, outcome);
    let mut list = ListDraft::new(draft);
    let count = list.numbers().below(8);
    list.grow(count);
    list.draft.search.mistake = Mistake::of(outcome);
    for entry in refused {
        list.attempt_last(&entry);
    }
    if list.draft.search.mistake.is_some() {
        wait_for_mistake(&mut list);
    }
    match outcome {
        Outcome::BudgetSpent => short_budget(list),
        Outcome::NoProposal => short_proposals(list),
        _ => {
            list.trail();
            list.list()
        }
    }
}

/// Entries up to the next proposal that the mistake fits.
fn wait_for_mistake(list: &mut ListDraft) {
    for _ in 0..8 {
        let entry = entry(&mut list.draft.composer());
        list.attempt_last(&entry);
    }
}

fn short_budget(mut list: ListDraft) -> List {
    list.grow(4);
    let steps = usize::try_from(list.draft.steps).unwrap_or(0);
    let budget = list.numbers().below(steps);
    list.trail();
    let mut list = list.list();
    list.sheet.budget = i32::try_from(budget).unwrap_or(0);
    list
}

fn short_proposals(mut list: ListDraft) -> List {
    list.grow(4);
    let starts = list.draft.search.starts.clone();
    let cut = list.numbers().pick(&starts).unwrap_or(0);
    let mut list = list.list();
    list.sheet.proposals.truncate(cut);
    list
}

/// What is likely to be refused with an outcome, in a state made for it.
fn refused_entries(draft: &mut Draft, outcome: Outcome) -> Vec<Vec<i32>> {
    let target = match outcome {
        Outcome::NoCell => missing(draft),
        Outcome::IdentityClash => frozen(draft),
        Outcome::PlainIdentity => return plain_identity(draft),
        Outcome::LostConstraint => return lost_constraint(draft),
        Outcome::RequiredUnmet => return unmet(draft),
        _ => return Vec::new(),
    };
    let literal = any_literal(&mut draft.composer());
    vec![[target, literal].concat()]
}

/// A label more than there are, a field of no record or of an absent variable.
fn missing(draft: &mut Draft) -> Vec<i32> {
    let mut composer = draft.composer();
    let label = composer.numbers.between(5, 30);
    let absent = composer.absent_variable().unwrap_or(63);
    match composer.known(|_| true) {
        Some(known) if known.words.len() < 9 && composer.numbers.chance(70) => {
            let mut words = known.words;
            words.push(label);
            let labels = i32::try_from(words.len()).unwrap_or(2) - 2;
            words.splice(1..2, [labels]);
            words
        }
        _ => vec![absent, 1, label],
    }
}

/// A cell on the target's own way, or on that of a kept identity.
fn frozen(draft: &mut Draft) -> Vec<i32> {
    match draft.numbers.below(4) {
        0 => {
            states::self_reference(draft);
            vec![20, 2, 0, 0]
        }
        1 => {
            states::tied_field(draft);
            vec![21, 0]
        }
        2 => {
            states::tied_inner_field(draft);
            vec![draft.numbers.between(31, 32), 1, 0]
        }
        _ => {
            states::tied_family(draft);
            vec![25, 0]
        }
    }
}

fn plain_identity(draft: &mut Draft) -> Vec<Vec<i32>> {
    let named = states::tied_pair(draft);
    let plain = draft.numbers.pick(&[&[21][..], &[22], &[23, 5]]);
    vec![[&named, plain.unwrap_or(&[21])].concat()]
}

fn lost_constraint(draft: &mut Draft) -> Vec<Vec<i32>> {
    let field = states::named_fields(draft);
    let entry = match draft.numbers.below(4) {
        0 => vec![27, 0, 20],
        1 => vec![27, 0, 23, 5],
        _ => states::other_field(&mut draft.numbers, field),
    };
    vec![entry]
}

fn unmet(draft: &mut Draft) -> Vec<Vec<i32>> {
    if draft.numbers.chance(50) {
        return Vec::new();
    }
    states::less_than_another(draft);
    vec![vec![28, 0, 23, draft.numbers.between(4, 30)]]
}
