//! Trees to bytes, piece by piece.

use super::names::Names;
use crate::program::{Action, Block, Constraint, Expression, Identity, Operator};
use crate::program::{Path, Priority, Statement, Term};
use std::borrow::Cow;

/// What a text is put together from. Long names are not copied for it.
pub type Pieces<'a> = Vec<Cow<'a, [u8]>>;

pub fn pieces<'a>(names: &Names<'a>, program: &Block) -> Pieces<'a> {
    let mut printer = Printer {
        names,
        pieces: Vec::new(),
        braces: 0,
    };
    printer.statements(program);
    printer.pieces
}

struct Printer<'a, 'n> {
    names: &'n Names<'a>,
    pieces: Pieces<'a>,
    /// How many braces of blocks are open.
    braces: usize,
}

/// How tightly an operator binds.
fn binding(operator: Operator) -> usize {
    match operator {
        Operator::Or => 1,
        Operator::And => 2,
        Operator::Less | Operator::AtMost | Operator::Equal => 3,
        Operator::Unequal | Operator::AtLeast | Operator::More => 3,
        Operator::Plus | Operator::Minus => 4,
        Operator::Times => 5,
    }
}

fn symbol(operator: Operator) -> &'static str {
    match operator {
        Operator::Plus => " + ",
        Operator::Minus => " - ",
        Operator::Times => " * ",
        Operator::Less => " < ",
        Operator::AtMost => " <= ",
        Operator::Equal => " = ",
        Operator::Unequal => " != ",
        Operator::AtLeast => " >= ",
        Operator::More => " > ",
        Operator::And => " and ",
        Operator::Or => " or ",
    }
}

impl Printer<'_, '_> {
    fn put(&mut self, text: &'static str) {
        self.pieces.push(Cow::Borrowed(text.as_bytes()));
    }

    fn variable(&mut self, number: usize) {
        self.pieces.push(self.names.variable(number));
    }

    fn label(&mut self, number: usize) {
        self.pieces.push(self.names.label(number));
    }

    fn new_line(&mut self) {
        self.put("\n");
        for _ in 0..self.braces {
            self.put("  ");
        }
    }

    fn statements(&mut self, block: &Block) {
        for (number, statement) in block.statements.iter().enumerate() {
            if number > 0 {
                self.put(";");
                self.new_line();
            }
            self.statement(statement);
        }
    }

    /// A block in its braces, the last one on a line of its own.
    fn block(&mut self, block: &Block) {
        if block.statements.is_empty() {
            return self.put("{}");
        }
        self.put("{");
        self.braces += 1;
        self.new_line();
        self.statements(block);
        self.braces -= 1;
        self.new_line();
        self.put("}");
    }

    fn statement(&mut self, statement: &Statement) {
        match &statement.action {
            Action::Skip => self.put("skip"),
            Action::Assign(target, value) => {
                self.path(target);
                self.put(" := ");
                self.expression(value, 0);
            }
            Action::New(variable, fields) => self.new_record(*variable, fields),
            Action::Always(constraint) => self.constraint("always ", constraint),
            Action::Once(constraint) => self.constraint("once ", constraint),
            Action::AlwaysIdentity(identity) => {
                self.put("always ");
                self.identity(identity);
            }
            Action::OnceIdentity(identity) => {
                self.put("once ");
                self.identity(identity);
            }
            Action::If(test, yes, no) => {
                self.put("if ");
                self.expression(test, 0);
                self.put(" then ");
                self.block(yes);
                self.put(" else ");
                self.block(no);
            }
            Action::While(test, body) => {
                self.put("while ");
                self.expression(test, 0);
                self.put(" do ");
                self.block(body);
            }
        }
    }

    fn new_record(&mut self, variable: usize, fields: &[(usize, Expression)]) {
        self.variable(variable);
        self.put(" := new {");
        for (number, (label, value)) in fields.iter().enumerate() {
            if number > 0 {
                self.put(", ");
            }
            self.label(*label);
            self.put(": ");
            self.expression(value, 0);
        }
        self.put("}");
    }

    fn constraint(&mut self, keyword: &'static str, constraint: &Constraint) {
        self.put(keyword);
        for (number, part) in constraint.parts.iter().enumerate() {
            if number > 0 {
                self.put(" /\\ ");
            }
            self.put(match part.priority {
                Priority::Weak => "weak ",
                Priority::Medium => "medium ",
                Priority::Required => "required ",
            });
            self.expression(&part.expression, 0);
        }
    }

    fn path(&mut self, path: &Path) {
        self.variable(path.variable);
        for label in &path.labels {
            self.put(".");
            self.label(*label);
        }
    }

    fn identity(&mut self, identity: &Identity) {
        self.path(&identity.left);
        self.put(" == ");
        self.path(&identity.right);
    }

    /// An expression where an operator that binds less than so much needs
    /// brackets.
    fn expression(&mut self, expression: &Expression, least: usize) {
        match &expression.term {
            Term::Nil => self.put("nil"),
            Term::Boolean(false) => self.put("false"),
            Term::Boolean(true) => self.put("true"),
            Term::Integer(number) => {
                let digits = number.to_string().into_bytes();
                self.pieces.push(Cow::Owned(digits));
            }
            Term::Read(path) => self.path(path),
            Term::Identical(identity) => self.identity(identity),
            Term::Apply(operator, left, right) => {
                let own = binding(*operator);
                if own < least {
                    self.put("(");
                }
                self.expression(left, own);
                self.put(symbol(*operator));
                self.expression(right, own + 1);
                if own < least {
                    self.put(")");
                }
            }
        }
    }
}
