//! Lists of entries, each a target and a literal: document 02, W3.

use crate::outcome::Outcome;
use crate::program::{Action, Expression, Path, Statement};
use crate::proposal::Source;
use crate::run::{begin, Answer};
use crate::statements::Machine;

/// The first words of the literals: nil, false, true and an integer.
pub const LITERALS: std::ops::RangeInclusive<i32> = 20..=23;

/// Carries out the assignments of a list one by one on lent tables, which
/// change only from outcome 5 on and when finished.
pub fn assign(
    program: &[i32],
    environment: &mut [i32],
    heap: &mut [i32],
    constraints: &mut [i32],
    entries: &[i32],
    proposals: &[i32],
    budget: i32,
) -> Answer {
    let tables = (environment, heap, constraints);
    begin(program, tables, proposals, budget, |machine, _| {
        carry_out(machine, entries)
    })
}

/// The outcome, and the index of the refused entry or the number of all.
fn carry_out(machine: &mut Machine<impl Source>, entries: &[i32]) -> (Outcome, usize) {
    let (mut index, mut next) = (0, 0);
    while next < entries.len() {
        let Ok((assignment, end)) = decode(entries, next) else {
            return (Outcome::UnfitAssignment, index);
        };
        if let Err(refusal) = machine.statement(&assignment) {
            return (refusal.outcome, index);
        }
        (index, next) = (index + 1, end);
    }
    (Outcome::Finished, index)
}

/// Reads the entry that begins at a word as an assignment, with the word after
/// it. The error is the place of the first unfit word, or the length.
pub fn decode(entries: &[i32], start: usize) -> Result<(Statement, usize), usize> {
    let (target, literal) = Path::decode(entries, start)?;
    let word = entries.get(literal).ok_or(entries.len())?;
    if !LITERALS.contains(word) {
        return Err(literal);
    }
    let (value, end) = Expression::decode(entries, literal)?;
    let assignment = Statement {
        position: start,
        action: Action::Assign(target, value),
    };
    Ok((assignment, end))
}

/// Where each entry begins. An entry that does not read is the last, as nothing
/// behind it is looked at.
pub fn starts(entries: &[i32]) -> Vec<usize> {
    let (mut starts, mut next) = (Vec::new(), 0);
    while next < entries.len() {
        starts.push(next);
        next = decode(entries, next).map_or(entries.len(), |(_, end)| end);
    }
    starts
}
