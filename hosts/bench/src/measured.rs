//! The two programs on a case.

use crate::cases::Case;
use crate::clock;
use cordbasin::{Outcome, Tables};

/// Which program runs.
#[derive(Clone, Copy, Debug, PartialEq, Eq)]
pub enum Side {
    Proved,
    Independent,
}

impl Side {
    pub const BOTH: [Side; 2] = [Side::Proved, Side::Independent];

    pub fn name(self) -> &'static str {
        match self {
            Side::Proved => "proved",
            Side::Independent => "independent",
        }
    }
}

/// Outcome, place, steps, accepted proposals and unread words.
pub type Answer = (i32, usize, u32, u32, usize);

/// One run, or one list.
pub fn run(side: Side, case: &Case, tables: &mut Tables, budget: i32) -> Answer {
    match side {
        Side::Proved => proved(case, tables, budget),
        Side::Independent => independent(case, tables, budget),
    }
}

fn proved(case: &Case, tables: &mut Tables, budget: i32) -> Answer {
    let (program, proposals) = (&case.program, &case.proposals);
    let (outcome, place, steps, accepted, unread) = match &case.entries {
        None => {
            let own = cordbasin::run(program, tables, proposals, budget);
            (own.outcome, own.place, own.steps, own.accepted, own.unread)
        }
        Some(entries) => {
            let own = cordbasin::assign(program, tables, entries, proposals, budget);
            (own.outcome, own.place, own.steps, own.accepted, own.unread)
        }
    };
    (outcome.number(), place, steps, accepted, unread.len())
}

fn independent(case: &Case, tables: &mut Tables, budget: i32) -> Answer {
    let (program, proposals) = (&case.program, &case.proposals);
    let (environment, heap) = (&mut tables.environment, &mut tables.heap);
    let kept = &mut tables.constraints;
    let own = match &case.entries {
        None => reference::run::run(program, environment, heap, kept, proposals, budget),
        Some(entries) => {
            let assign = reference::entries::assign;
            assign(program, environment, heap, kept, entries, proposals, budget)
        }
    };
    (own.outcome, own.place, own.steps, own.accepted, own.unread)
}

/// Nanoseconds a run, over the case's runs, each on tables that were made
/// before the clock started.
pub fn time(side: Side, case: &Case) -> f64 {
    let mut tables = vec![case.tables.clone(); case.runs];
    let start = clock::nanoseconds();
    for tables in &mut tables {
        std::hint::black_box(run(side, case, tables, case.budget));
    }
    (clock::nanoseconds() - start) as f64 / case.runs as f64
}

/// The place of a case that finishes: the program's length, or how many entries
/// the list has.
fn end(case: &Case) -> usize {
    match case.entries {
        None => case.program.len(),
        Some(_) => case.steps as usize,
    }
}

/// Both programs give the case's known answer and the same tables.
pub fn agree(case: &Case) -> Result<(), String> {
    let run = |side| {
        let mut tables = case.tables.clone();
        (run(side, case, &mut tables, case.budget), tables)
    };
    let (proved, independent) = (run(Side::Proved), run(Side::Independent));
    let (answer, name) = (proved.0, case.name);
    let ends = case.outcome != Outcome::Finished || answer.1 == end(case);
    if !ends || (answer.0, answer.2) != (case.outcome.number(), case.steps) {
        return Err(format!("{name}: {answer:?} is not what the case says"));
    }
    if proved != independent {
        return Err(format!("{name}: {answer:?} and {:?}", independent.0));
    }
    Ok(())
}
