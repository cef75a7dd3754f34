//! The independent program's answers.

use crate::proved::{Answer, Question};
use reference::program::{Action, Always, Block, Program, DEEPEST_BLOCK};
use reference::tables::{Tables, ENVIRONMENT_WORDS, HEAP_WORDS};
use std::collections::BTreeMap;

/// What a program that reads holds.
#[derive(Debug)]
pub struct Held {
    /// The number of each statement, by its place.
    pub statements: BTreeMap<usize, usize>,
    pub always: Always,
}

/// What a program holds, or the place of its first unfit word.
pub fn read(program: &[i32]) -> Result<Held, usize> {
    let program = Program::decode(program)?;
    let mut statements = BTreeMap::new();
    gather(&mut statements, &program.block, DEEPEST_BLOCK - 1);
    Ok(Held {
        statements,
        always: program.always(),
    })
}

fn gather(statements: &mut BTreeMap<usize, usize>, block: &Block, nest: usize) {
    for statement in &block.statements {
        let number = 1 + 16 * verb(&statement.action) + nest;
        statements.insert(statement.position, number);
        match &statement.action {
            Action::If(_, yes, no) => {
                gather(statements, yes, nest.saturating_sub(1));
                gather(statements, no, nest.saturating_sub(1));
            }
            Action::While(_, body) => gather(statements, body, nest.saturating_sub(1)),
            _ => {}
        }
    }
}

fn verb(action: &Action) -> usize {
    match action {
        Action::Skip => 0,
        Action::Assign(..) => 1,
        Action::New(..) => 2,
        Action::Always(_) => 3,
        Action::Once(_) => 4,
        Action::AlwaysIdentity(_) => 5,
        Action::OnceIdentity(_) => 6,
        Action::If(..) => 7,
        Action::While(..) => 8,
    }
}

/// The answer for a program that was read before.
pub fn answer(read: &Result<Held, usize>, question: &Question) -> Answer {
    match read {
        Ok(held) => Answer {
            program: 0,
            statements: question
                .places
                .iter()
                .map(|at| held.statement(*at))
                .collect(),
            tables: question
                .tables
                .iter()
                .map(|table| held.fits(table))
                .collect(),
        },
        Err(place) => Answer {
            program: 1 + place,
            statements: vec![0; question.places.len()],
            tables: vec![0; question.tables.len()],
        },
    }
}

impl Held {
    fn statement(&self, place: usize) -> usize {
        self.statements.get(&place).copied().unwrap_or(0)
    }

    fn fits(&self, table: &[i32]) -> usize {
        let environment = [0; ENVIRONMENT_WORDS];
        let heap = [0; HEAP_WORDS];
        let tables = Tables::decode(&environment, &heap, table, &self.always);
        usize::from(tables.is_ok())
    }
}
