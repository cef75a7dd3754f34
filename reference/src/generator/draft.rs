//! A sheet under way: each statement is run as soon as it is written.

use super::compose::Composer;
use super::numbers::Numbers;
use super::search::Searcher;
use crate::batch::Sheet;
use crate::classes::Moves;
use crate::outcome::Outcome;
use crate::program::{Always, Path, Statement};
use crate::statements::Machine;
use crate::tables::{Tables, Value};
use std::mem::take;

/// Most steps that one statement of a draft may take.
const MOST_STEPS: u32 = 600;
const MOST_STATEMENTS: usize = 200;
const MOST_WORDS: usize = 3000;

#[derive(Debug, Default)]
pub struct Draft {
    pub numbers: Numbers,
    start: Tables,
    pub tables: Tables,
    statements: usize,
    words: Vec<i32>,
    always: Always,
    pub search: Searcher,
    pub steps: u32,
    /// The outcome that ended the draft.
    pub refused: Option<Outcome>,
}

fn path_words(path: &Path) -> Vec<i32> {
    let labels = path.labels.iter().copied();
    let numbers = [path.variable, path.labels.len()].into_iter().chain(labels);
    numbers.filter_map(|n| i32::try_from(n).ok()).collect()
}

impl Draft {
    /// A draft on start tables that keep no constraints yet.
    pub fn new(mut numbers: Numbers, start: Tables) -> Draft {
        let own = Numbers::new(numbers.next(), 0);
        Draft {
            numbers,
            tables: start.clone(),
            start,
            words: vec![0],
            search: Searcher::new(own),
            ..Draft::default()
        }
    }

    pub fn is_full(&self) -> bool {
        self.statements >= MOST_STATEMENTS || self.words.len() >= MOST_WORDS
    }

    /// Appends a statement that is not run, and gives its tree.
    pub fn append(&mut self, words: &[i32]) -> Option<Statement> {
        let start = self.words.len();
        self.words.extend(words);
        match Statement::decode(&self.words, start) {
            Ok((statement, end)) if end == self.words.len() => {
                self.always.gather(&statement);
                self.statements += 1;
                Some(statement)
            }
            _ => {
                self.words.truncate(start);
                None
            }
        }
    }

    fn run(&mut self, statement: &Statement) -> Result<(), Outcome> {
        let mut machine = Machine {
            always: &self.always,
            tables: take(&mut self.tables),
            source: take(&mut self.search),
            budget: self.steps.saturating_add(MOST_STEPS),
            steps: self.steps,
            accepted: 0,
            moves: Moves::default(),
        };
        let done = machine.statement(statement);
        self.tables = machine.tables;
        self.search = machine.source;
        self.steps = machine.steps;
        done.map_err(|refusal| refusal.outcome)
    }

    /// Appends and runs a statement; a refused one is taken back.
    pub fn attempt(&mut self, words: &[i32]) -> Result<(), Outcome> {
        let (before, steps) = (self.tables.clone(), self.steps);
        let (read, starts) = (self.search.read, self.search.starts.len());
        let start = self.words.len();
        let Some(statement) = self.append(words) else {
            return Err(Outcome::UnfitProgram);
        };
        let done = self.run(&statement);
        if done.is_err() {
            self.words.truncate(start);
            self.statements -= 1;
            self.always.constraints.split_off(&start);
            self.always.identities.split_off(&start);
            self.tables = before;
            self.steps = steps;
            self.search.read = read;
            self.search.starts.truncate(starts);
            self.search.forget_refused();
        }
        done
    }

    /// Appends and runs a statement; a refusal ends the draft.
    pub fn attempt_last(&mut self, words: &[i32]) -> bool {
        if let Some(statement) = self.append(words) {
            if let Err(outcome) = self.run(&statement) {
                self.refused = Some(outcome);
            }
        }
        self.refused.is_some()
    }

    pub fn composer(&mut self) -> Composer<'_> {
        let mut composer = Composer::new(&self.tables, &mut self.numbers);
        for position in self.tables.identities.iter().take(6) {
            if let Some(identity) = self.always.identities.get(position) {
                composer.tied.push(path_words(&identity.left));
                composer.tied.push(path_words(&identity.right));
            }
        }
        composer
    }

    /// Adds statements that run to their end, as many as can be had.
    pub fn grow(&mut self, count: usize) {
        for _ in 0..count {
            for _ in 0..3 {
                let depth = 1 + self.numbers.below(3);
                let words = self.composer().statement(depth);
                if self.is_full() || self.attempt(&words).is_ok() {
                    break;
                }
            }
        }
    }

    /// Adds statements behind a refused one, which are never reached.
    pub fn trail(&mut self) {
        for _ in 0..self.numbers.below(3) {
            let words = self.composer().statement(1);
            self.append(&words);
        }
    }

    /// Gives a variable a value in the start tables already.
    pub fn begin_with(&mut self, variable: usize, value: Value) {
        self.start.set(variable, value);
        self.tables.set(variable, value);
    }

    /// Keeps a never run block of always-statements from the start on.
    pub fn keep_unrun(&mut self, statements: &[&[i32]]) {
        let mut words = vec![7, 21, i32::try_from(statements.len()).unwrap_or(0)];
        let mut positions = Vec::new();
        for statement in statements {
            positions.push(self.words.len() + words.len());
            words.extend(*statement);
        }
        words.push(0);
        if self.attempt(&words).is_ok() {
            for tables in [&mut self.start, &mut self.tables] {
                let first = statements.first().and_then(|words| words.first());
                match first {
                    Some(3) => tables.values.clone_from(&positions),
                    _ => tables.identities.clone_from(&positions),
                }
            }
        }
    }

    /// Begins again from the tables as they stand; the proposals and steps so
    /// far are forgotten.
    pub fn start_anew(&mut self) {
        self.start = self.tables.clone();
        self.search.words.clear();
        self.search.starts.clear();
        self.search.read = 0;
        self.steps = 0;
    }

    pub fn program(&self) -> Vec<i32> {
        let mut program = self.words.clone();
        program.splice(0..1, [i32::try_from(self.statements).unwrap_or(0)]);
        program
    }

    /// The sheet as it stands, with a budget that lets the draft be run.
    pub fn sheet(&mut self) -> Sheet {
        let mut sheet = Sheet::fresh(self.program(), take(&mut self.search.words), 0);
        sheet.fill(&self.start);
        let steps = i32::try_from(self.steps).unwrap_or(0);
        sheet.budget = match self.numbers.below(4) {
            0 => steps,
            1 => steps + self.numbers.between(0, 3),
            2 => steps + 1000,
            _ => steps.max(100),
        };
        for _ in 0..self.numbers.below(3) {
            sheet.proposals.push(self.numbers.between(-1, 3));
        }
        sheet
    }
}
