//! A statement of a program in a state, before the solvers are asked.

use crate::asking::{named, Asked};
use crate::batch::{Asking, Sheet};
use crate::generator::numbers::Numbers;
use crate::generator::search::{Mistake, Searcher};
use crate::outcome::Outcome;
use crate::program::{Always, Program};
use crate::tables::Tables;

pub struct Question {
    program: Vec<i32>,
    tree: Program,
    always: Always,
    tables: Tables,
    word: i32,
}

impl Question {
    /// None where the program does not read.
    pub fn new(program: Vec<i32>, tables: Tables, word: i32) -> Option<Question> {
        let tree = Program::decode(&program).ok()?;
        Some(Question {
            always: tree.always(),
            program,
            tree,
            tables,
            word,
        })
    }

    fn asked(&self) -> Option<Asked<'_>> {
        Some(Asked {
            statement: named(&self.tree, self.word)?,
            always: &self.always,
            tables: &self.tables,
        })
    }

    /// What a slice gives by itself.
    pub fn judged(&self, words: &[i32]) -> Outcome {
        match self.asked().map(|asked| asked.tried(words)) {
            None => Outcome::UnfitProgram,
            Some(Ok(_)) => Outcome::Finished,
            Some(Err(refusal)) => refusal.outcome,
        }
    }

    /// A proposal for the statement, none where it is refused by itself.
    pub fn written(&self, numbers: &mut Numbers, mistake: Option<Mistake>) -> Vec<i32> {
        let Some(asked) = self.asked() else {
            return Vec::new();
        };
        let mut source = Searcher::new(Numbers::new(numbers.next(), 0));
        source.mistake = mistake;
        let mut machine = asked.machine(source);
        let _ = machine.statement(asked.statement);
        machine.source.words
    }

    pub fn asking(self, first: Vec<i32>, second: Vec<i32>) -> Asking {
        let mut sheet = Sheet::fresh(self.program, Vec::new(), 0);
        sheet.fill(&self.tables);
        of_sheet(sheet, self.word, first, second)
    }
}

/// Asks about a statement of a sheet's program in its tables.
pub fn of_sheet(sheet: Sheet, word: i32, first: Vec<i32>, second: Vec<i32>) -> Asking {
    Asking {
        program: sheet.program,
        environment: sheet.environment,
        heap: sheet.heap,
        constraints: sheet.constraints,
        word,
        first,
        second,
    }
}
