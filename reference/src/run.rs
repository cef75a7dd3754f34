//! A whole run: what is tried before the first statement, and the answer.

use crate::classes::Moves;
use crate::constraints;
use crate::identity;
use crate::outcome::Outcome;
use crate::program::{Always, Program};
use crate::proposal::Written;
use crate::statements::Machine;
use crate::tables::{Tables, CONSTRAINT_WORDS, ENVIRONMENT_WORDS, HEAP_WORDS};

pub const LARGEST_BUDGET: u32 = 1_000_000;

#[derive(Clone, Copy, Debug, PartialEq, Eq)]
pub struct Answer {
    pub outcome: i32,
    pub place: usize,
    pub steps: u32,
    pub accepted: u32,
    pub unread: usize,
}

/// Runs a program on lent tables, which change only from outcome 5 on and
/// when finished.
pub fn run(
    program: &[i32],
    environment: &mut [i32],
    heap: &mut [i32],
    constraints: &mut [i32],
    proposals: &[i32],
    budget: i32,
) -> Answer {
    let tables = (environment, heap, constraints);
    begin(program, tables, proposals, budget, run_block)
}

fn run_block(machine: &mut Machine<Written>, program: &Program) -> (Outcome, usize) {
    match machine.block(&program.block) {
        Ok(()) => (Outcome::Finished, program.length),
        Err(refusal) => (refusal.outcome, refusal.place),
    }
}

/// The environment, the heap and the constraints, as lent.
pub type Lent<'a> = (&'a mut [i32], &'a mut [i32], &'a mut [i32]);

/// What is tried before the first statement was refused: 1 to 4 with a place.
pub type Early = (Outcome, usize);

/// Tries what comes before the first statement, then does the work, which
/// gives its outcome and place.
pub fn begin(
    program: &[i32],
    lent: Lent,
    proposals: &[i32],
    budget: i32,
    work: impl FnOnce(&mut Machine<Written>, &Program) -> (Outcome, usize),
) -> Answer {
    let ready = match prepare(program, &lent, budget) {
        Ok(ready) => ready,
        Err((outcome, place)) => return refused(outcome, place, proposals.len()),
    };
    let mut machine = Machine {
        always: &ready.always,
        tables: ready.tables,
        source: Written { words: proposals },
        budget: ready.budget,
        steps: 0,
        accepted: 0,
        moves: Moves::default(),
    };
    let (outcome, place) = work(&mut machine, &ready.program);
    let (environment, heap, constraints) = lent;
    machine.tables.encode(environment, heap, constraints);
    Answer {
        outcome: outcome.number(),
        place,
        steps: machine.steps,
        accepted: machine.accepted,
        unread: machine.source.words.len(),
    }
}

/// The answer where no statement was begun.
fn refused(outcome: Outcome, place: usize, unread: usize) -> Answer {
    Answer {
        outcome: outcome.number(),
        place,
        steps: 0,
        accepted: 0,
        unread,
    }
}

/// A run that passed all that is tried before the first statement.
struct Ready {
    program: Program,
    always: Always,
    tables: Tables,
    budget: u32,
}

/// Tries the outcomes 1 to 4 in their order.
fn prepare(program: &[i32], lent: &Lent, budget: i32) -> Result<Ready, Early> {
    let budget = u32::try_from(budget).ok().filter(|b| *b <= LARGEST_BUDGET);
    let budget = budget.ok_or((Outcome::WrongSize, 0))?;
    let program = read_program(program, lent)?;
    let always = program.always();
    let tables = read_tables(&always, lent)?;
    Ok(Ready {
        program,
        always,
        tables,
        budget,
    })
}

/// Tries 1 for the tables, then 2.
pub fn read_program(program: &[i32], lent: &Lent) -> Result<Program, Early> {
    let sizes = (lent.0.len(), lent.1.len(), lent.2.len());
    if sizes != (ENVIRONMENT_WORDS, HEAP_WORDS, CONSTRAINT_WORDS) {
        return Err((Outcome::WrongSize, 0));
    }
    Program::decode(program).map_err(|place| (Outcome::UnfitProgram, place))
}

/// Tries 3, then 4, over the always-statements of the program.
pub fn read_tables(
    always: &Always,
    (environment, heap, constraints): &Lent,
) -> Result<Tables, Early> {
    let tables = Tables::decode(environment, heap, constraints, always)
        .map_err(|unfit| (Outcome::UnfitTable, unfit as usize))?;
    match unfit_at_start(&tables, always) {
        Some(position) => Err((Outcome::UnfitStart, position)),
        None => Ok(tables),
    }
}

/// The position of the first kept constraint that does not read or hold at
/// the start; values come before identities.
pub fn unfit_at_start(tables: &Tables, always: &Always) -> Option<usize> {
    let value_fits = |position: &usize| {
        always.constraints.get(position).is_some_and(|constraint| {
            constraints::reads(tables, constraint).is_ok()
                && constraints::required_parts_hold(tables, constraint)
        })
    };
    let identity_fits = |position: &usize| {
        let identity = always.identities.get(position);
        identity.is_some_and(|identity| identity::holds(tables, identity).is_ok())
    };
    let value = tables.values.iter().find(|p| !value_fits(p));
    let identity = || tables.identities.iter().find(|p| !identity_fits(p));
    value.or_else(identity).copied()
}
