//! Both solvers on one statement: document 02, W6.

use crate::classes::Moves;
use crate::outcome::Outcome;
use crate::program::{Always, Program, Statement};
use crate::proposal::{Source, Whole};
use crate::run::{read_program, read_tables, Lent};
use crate::statements::{Machine, Refusal};
use crate::tables::Tables;

/// By which a proposal is turned down. All other refusals are the statement's.
pub const TURNED_DOWN: [Outcome; 5] = [
    Outcome::NoProposal,
    Outcome::UnfitProposal,
    Outcome::UnfitEntry,
    Outcome::NeedlessChange,
    Outcome::RequiredUnmet,
];

/// The solver is 1 or 2 where its slice was accepted, and words are those of
/// that slice; on a refusal both are 0.
#[derive(Clone, Copy, Debug, PartialEq, Eq)]
pub struct Answer {
    pub outcome: i32,
    pub place: i32,
    pub solver: i32,
    pub words: usize,
}

/// Asks two solvers about the statement that begins at a word. Each slice is
/// one whole proposal; the lent tables change only if one is accepted.
pub fn ask(
    program: &[i32],
    environment: &mut [i32],
    heap: &mut [i32],
    constraints: &mut [i32],
    word: i32,
    first: &[i32],
    second: &[i32],
) -> Answer {
    let lent = (environment, heap, constraints);
    match judge(program, &lent, word, first, second) {
        Ok((solver, tables)) => {
            let (environment, heap, constraints) = lent;
            tables.encode(environment, heap, constraints);
            let accepted = if solver == 1 { first } else { second };
            Answer {
                outcome: Outcome::Finished.number(),
                place: word,
                solver,
                words: accepted.len(),
            }
        }
        Err((outcome, place)) => Answer {
            outcome: outcome.number(),
            place,
            solver: 0,
            words: 0,
        },
    }
}

/// The solver that was accepted and the tables it leaves, or the outcome and
/// place of the refusal.
fn judge(
    program: &[i32],
    lent: &Lent,
    word: i32,
    first: &[i32],
    second: &[i32],
) -> Result<(i32, Tables), (Outcome, i32)> {
    let at = |(outcome, place)| (outcome, i32::try_from(place).unwrap_or(i32::MAX));
    let program = read_program(program, lent).map_err(at)?;
    let statement = named(&program, word).ok_or((Outcome::UnfitProgram, word))?;
    let always = program.always();
    let tables = read_tables(&always, lent).map_err(at)?;
    let asked = Asked {
        statement,
        always: &always,
        tables: &tables,
    };
    let refused = |refusal: Refusal| at((refusal.outcome, refusal.place));
    match asked.tried(first) {
        Ok(after) => Ok((1, after)),
        Err(refusal) if second.is_empty() || !TURNED_DOWN.contains(&refusal.outcome) => {
            Err(refused(refusal))
        }
        Err(_) => match asked.tried(second) {
            Ok(after) => Ok((2, after)),
            Err(refusal) => Err(refused(refusal)),
        },
    }
}

/// The statement 1 to 4 that begins at a word, on any depth.
pub fn named(program: &Program, word: i32) -> Option<&Statement> {
    let position = usize::try_from(word).ok()?;
    let mut all = program.statements().into_iter().map(|(_, own)| own);
    all.find(|own| own.position == position && own.reads_proposal())
}

/// A statement in the state that it is asked about.
pub struct Asked<'a> {
    pub statement: &'a Statement,
    pub always: &'a Always,
    pub tables: &'a Tables,
}

impl<'a> Asked<'a> {
    /// Before the statement, with a step left for it.
    pub fn machine<S: Source>(&self, source: S) -> Machine<'a, S> {
        Machine {
            always: self.always,
            tables: self.tables.clone(),
            source,
            budget: 1,
            steps: 0,
            accepted: 0,
            moves: Moves::default(),
        }
    }

    /// The tables after the statement with a slice as its proposal.
    pub fn tried(&self, words: &[i32]) -> Result<Tables, Refusal> {
        let mut machine = self.machine(Whole { words });
        machine.statement(self.statement)?;
        Ok(machine.tables)
    }
}
