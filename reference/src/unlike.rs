//! Comparisons of unlike kinds (document 02, W4), counted over many sheets.

use crate::batch::{Finish, Sheet};
use crate::constraints;
use crate::outcome::{Operands, Outcome};
use crate::program::{Operator, Program};
use crate::proposal::Written;
use crate::run::begin;
use crate::statements::Machine;
use crate::tables::{Kind, Tables};
use std::fmt;

/// What such a comparison is where an expression is evaluated, where a kept
/// constraint is read again, and at a start.
pub const REFUSALS: [Outcome; 3] = [
    Outcome::WrongKind,
    Outcome::LostConstraint,
    Outcome::UnfitStart,
];

/// How many sheets had each of `REFUSALS` by an operator 6 or 7 that met unlike
/// kinds, neither of them a reference.
#[derive(Clone, Debug, Default, PartialEq, Eq)]
pub struct Unlike {
    pub counts: [u64; REFUSALS.len()],
}

impl Unlike {
    pub fn count(&mut self, sheet: &Sheet, finish: &Finish) {
        let numbers = REFUSALS.map(Outcome::number);
        let refusal = numbers.iter().position(|n| *n == finish.answer.outcome);
        let Some(refusal) = refusal else {
            return;
        };
        if operands(sheet, finish).is_some_and(is_unlike) {
            self.counts[refusal] += 1;
        }
    }

    pub fn add(&mut self, other: &Unlike) {
        for (count, more) in self.counts.iter_mut().zip(other.counts) {
            *count += more;
        }
    }

    /// Whether there were so many sheets in all, and so many of each refusal.
    pub fn are_met(&self, all: u64, each: u64) -> bool {
        self.counts.iter().sum::<u64>() >= all && self.counts.iter().all(|count| *count >= each)
    }
}

fn is_unlike((operator, left, right): Operands) -> bool {
    matches!(operator, Operator::Equal | Operator::Unequal)
        && left != right
        && ![left, right].contains(&Kind::Reference)
}

/// What the operator met that refused the sheet, if one did. The answer does
/// not tell it, so that the sheet is looked at again.
pub fn operands(sheet: &Sheet, finish: &Finish) -> Option<Operands> {
    match finish.answer.outcome == Outcome::UnfitStart.number() {
        true => at_start(sheet, finish.answer.place),
        false => in_run(sheet),
    }
}

fn at_start(sheet: &Sheet, position: usize) -> Option<Operands> {
    let always = Program::decode(&sheet.program).ok()?.always();
    let constraint = always.constraints.get(&position)?;
    let (environment, heap) = (&sheet.environment, &sheet.heap);
    let tables = Tables::decode(environment, heap, &sheet.constraints, &always).ok()?;
    constraints::reads(&tables, constraint).err()?.operands
}

fn in_run(sheet: &Sheet) -> Option<Operands> {
    let mut refusal = None;
    let work = |machine: &mut Machine<Written>, program: &Program| {
        refusal = machine.block(&program.block).err();
        (Outcome::Finished, program.length)
    };
    sheet.on_copies(|lent| begin(&sheet.program, lent, &sheet.proposals, sheet.budget, work));
    refusal?.operands
}

impl fmt::Display for Unlike {
    fn fmt(&self, out: &mut fmt::Formatter<'_>) -> fmt::Result {
        write!(out, "unlike kinds compared")?;
        for (outcome, count) in REFUSALS.iter().zip(self.counts) {
            write!(out, " {}: {count}", outcome.number())?;
        }
        Ok(())
    }
}
