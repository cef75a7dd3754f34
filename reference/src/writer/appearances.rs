//! Where variables and labels stand in a program, in reading order.

use crate::program::{Action, Block, Constraint, Expression, Identity, Path};
use crate::program::{Program, Statement, Term};

#[derive(Clone, Copy, Debug, PartialEq, Eq)]
pub enum Sort {
    Variable,
    Label,
}

/// A variable or label, and the word that says its number.
#[derive(Clone, Copy, Debug, PartialEq, Eq)]
pub struct Appearance {
    pub sort: Sort,
    pub number: usize,
    pub word: usize,
}

pub fn appearances(program: &Program) -> Vec<Appearance> {
    let mut walk = Walk { found: Vec::new() };
    walk.block(&program.block);
    walk.found
}

struct Walk {
    found: Vec<Appearance>,
}

impl Walk {
    fn name(&mut self, sort: Sort, number: usize, word: usize) {
        self.found.push(Appearance { sort, number, word });
    }

    fn block(&mut self, block: &Block) {
        for statement in &block.statements {
            self.statement(statement);
        }
    }

    fn statement(&mut self, statement: &Statement) {
        match &statement.action {
            Action::Skip => {}
            Action::Assign(target, value) => {
                self.path(target);
                self.expression(value);
            }
            Action::New(variable, fields) => {
                self.name(Sort::Variable, *variable, statement.position + 1);
                for (label, value) in fields {
                    self.name(Sort::Label, *label, value.position - 1);
                    self.expression(value);
                }
            }
            Action::Always(constraint) => self.constraint(constraint),
            Action::Once(constraint) => self.constraint(constraint),
            Action::AlwaysIdentity(identity) => self.identity(identity),
            Action::OnceIdentity(identity) => self.identity(identity),
            Action::If(test, yes, no) => {
                self.expression(test);
                self.block(yes);
                self.block(no);
            }
            Action::While(test, body) => {
                self.expression(test);
                self.block(body);
            }
        }
    }

    fn path(&mut self, path: &Path) {
        self.name(Sort::Variable, path.variable, path.position);
        for (label, word) in path.labels.iter().zip(path.position + 2..) {
            self.name(Sort::Label, *label, word);
        }
    }

    fn identity(&mut self, identity: &Identity) {
        self.path(&identity.left);
        self.path(&identity.right);
    }

    fn constraint(&mut self, constraint: &Constraint) {
        for part in &constraint.parts {
            self.expression(&part.expression);
        }
    }

    fn expression(&mut self, expression: &Expression) {
        match &expression.term {
            Term::Nil | Term::Boolean(_) | Term::Integer(_) => {}
            Term::Read(path) => self.path(path),
            Term::Apply(_, left, right) => {
                self.expression(left);
                self.expression(right);
            }
            Term::Identical(identity) => self.identity(identity),
        }
    }
}
