//! Trees to words, each word with the place of the token it comes from.

use super::trees::{
    Action, Block, Constraint, Expression, Keeping, Named, New, Path, Statement, Term,
};

/// The words of a whole text and their origins.
pub fn of(block: &Block) -> (Vec<i32>, Vec<i32>) {
    let mut writer = Writer::default();
    writer.block(block);
    (writer.words, writer.origins)
}

#[derive(Default)]
struct Writer {
    words: Vec<i32>,
    origins: Vec<i32>,
}

/// Counts and places of a text that reads are small.
fn small(number: usize) -> i32 {
    i32::try_from(number).unwrap_or(i32::MAX)
}

impl Writer {
    fn word(&mut self, word: i32, origin: usize) {
        self.words.push(word);
        self.origins.push(small(origin));
    }

    fn name(&mut self, name: Named) {
        self.word(small(name.number), name.place);
    }

    fn block(&mut self, block: &Block) {
        self.word(small(block.statements.len()), block.place);
        for statement in &block.statements {
            self.statement(statement);
        }
    }

    fn statement(&mut self, statement: &Statement) {
        let number = match &statement.action {
            Action::Skip => 0,
            Action::Assign(..) => 1,
            Action::New(..) => 2,
            Action::Constraint(Keeping::Always, _) => 3,
            Action::Constraint(Keeping::Once, _) => 4,
            Action::Identity(Keeping::Always, ..) => 5,
            Action::Identity(Keeping::Once, ..) => 6,
            Action::If(..) => 7,
            Action::While(..) => 8,
        };
        self.word(number, statement.place);
        self.action(&statement.action);
    }

    fn action(&mut self, action: &Action) {
        match action {
            Action::Skip => {}
            Action::Assign(target, expression) => {
                self.path(target);
                self.expression(expression);
            }
            Action::New(new) => self.new_record(new),
            Action::Constraint(_, constraint) => self.constraint(constraint),
            Action::Identity(_, left, right) => {
                self.path(left);
                self.path(right);
            }
            Action::If(test, yes, no) => {
                self.expression(test);
                self.block(yes);
                self.block(no);
            }
            Action::While(test, body) => {
                self.expression(test);
                self.block(body);
            }
        }
    }

    fn new_record(&mut self, new: &New) {
        self.name(new.variable);
        self.word(small(new.fields.len()), new.brace);
        for (label, expression) in &new.fields {
            self.name(*label);
            self.expression(expression);
        }
    }

    fn constraint(&mut self, constraint: &Constraint) {
        self.word(small(constraint.parts.len()), constraint.place);
        for part in &constraint.parts {
            self.word(part.priority, part.place);
            self.expression(&part.expression);
        }
    }

    fn path(&mut self, path: &Path) {
        self.name(path.variable);
        self.word(small(path.labels.len()), path.variable.place);
        for label in &path.labels {
            self.name(*label);
        }
    }

    fn expression(&mut self, expression: &Expression) {
        let place = expression.place;
        match &expression.term {
            Term::Nil => self.word(20, place),
            Term::False => self.word(21, place),
            Term::True => self.word(22, place),
            Term::Integer(number) => {
                self.word(23, place);
                self.word(*number, place);
            }
            Term::Read(path) => {
                self.word(24, place);
                self.path(path);
            }
            Term::Apply(operator, left, right) => {
                self.word(25, place);
                self.word(*operator, place);
                self.expression(left);
                self.expression(right);
            }
            Term::Identical(left, right) => {
                self.word(26, place);
                self.path(left);
                self.path(right);
            }
        }
    }
}
