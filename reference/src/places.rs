//! Where the words at fault stand in their programs, counted over many sheets.

use crate::batch::{Finish, Sheet};
use crate::outcome::Outcome;
use crate::program::{Action, Block, Constraint, Expression, Program, Statement, Term};
use crate::tables::VALUE_POSITIONS;
use std::fmt;

/// The outcomes whose place is inside a statement.
pub const INSIDE: [Outcome; 4] = [
    Outcome::NoCell,
    Outcome::WrongKind,
    Outcome::OutOfRange,
    Outcome::LostConstraint,
];

/// What is counted of their places; one place may be of several sorts.
pub const SORTS: [&str; 5] = [
    "later parts",
    "right operands",
    "paths under operators",
    "tests of while",
    "later kept constraints",
];

/// How often each outcome of `INSIDE` had a place that is no statement's word,
/// and how many of these places were of each sort.
#[derive(Clone, Debug, Default, PartialEq, Eq)]
pub struct Places {
    pub outcomes: [u64; INSIDE.len()],
    pub sorts: [u64; SORTS.len()],
}

/// What stands around a place.
#[derive(Clone, Copy, Debug, Default)]
struct Around {
    /// The statement's position.
    statement: usize,
    later_part: bool,
    right_operand: bool,
    inner_path: bool,
    while_test: bool,
}

impl Places {
    pub fn count(&mut self, sheet: &Sheet, finish: &Finish) {
        let numbers = INSIDE.map(Outcome::number);
        let outcome = numbers.iter().position(|n| *n == finish.answer.outcome);
        let (Some(outcome), Ok(program)) = (outcome, Program::decode(&sheet.program)) else {
            return;
        };
        let around = Around::default().block(&program.block, finish.answer.place);
        if around.statement == finish.answer.place {
            return;
        }
        self.outcomes[outcome] += 1;
        let lost = INSIDE[outcome] == Outcome::LostConstraint;
        let sorts = [
            around.later_part,
            around.right_operand,
            around.inner_path,
            around.while_test,
            lost && !is_first(&finish.constraints, around.statement),
        ];
        for (count, is) in self.sorts.iter_mut().zip(sorts) {
            *count += u64::from(is);
        }
    }

    pub fn add(&mut self, other: &Places) {
        let own = self.outcomes.iter_mut().chain(&mut self.sorts);
        for (count, more) in own.zip(other.outcomes.iter().chain(&other.sorts)) {
            *count += more;
        }
    }

    /// Whether each outcome came up so often, and each sort at all.
    pub fn are_met(&self, least: u64) -> bool {
        self.outcomes.iter().all(|count| *count >= least) && !self.sorts.contains(&0)
    }
}

/// The statement is the first kept value constraint.
fn is_first(constraints: &[i32], statement: usize) -> bool {
    let mut kept = constraints.iter().skip(2).take(VALUE_POSITIONS);
    kept.next().map(|word| usize::try_from(*word)) == Some(Ok(statement))
}

impl Around {
    fn block(self, block: &Block, place: usize) -> Around {
        let mut statements = block.statements.iter().rev();
        match statements.find(|statement| statement.position <= place) {
            Some(statement) => self.statement(statement, place),
            None => self,
        }
    }

    fn statement(mut self, statement: &Statement, place: usize) -> Around {
        self.statement = statement.position;
        match &statement.action {
            Action::Assign(_, value) => self.expression(value, place),
            Action::New(_, fields) => {
                let mut values = fields.iter().rev().map(|(_, value)| value);
                let value = values.find(|value| value.position <= place);
                value.map_or(self, |value| self.expression(value, place))
            }
            Action::Always(constraint) => self.constraint(constraint, place),
            Action::Once(constraint) => self.constraint(constraint, place),
            Action::If(_, _, no) if place >= no.position => self.block(no, place),
            Action::If(_, yes, _) if place >= yes.position => self.block(yes, place),
            Action::If(test, ..) => self.expression(test, place),
            Action::While(_, body) if place >= body.position => self.block(body, place),
            Action::While(test, _) => {
                self.while_test = place > statement.position;
                self.expression(test, place)
            }
            Action::Skip | Action::AlwaysIdentity(_) | Action::OnceIdentity(_) => self,
        }
    }

    fn constraint(mut self, constraint: &Constraint, place: usize) -> Around {
        let number = constraint.parts.iter().rposition(|p| p.position <= place);
        self.later_part = number > Some(0);
        let part = number.and_then(|number| constraint.parts.get(number));
        part.map_or(self, |part| self.expression(&part.expression, place))
    }

    fn expression(mut self, expression: &Expression, place: usize) -> Around {
        let Term::Apply(_, left, right) = &expression.term else {
            return self;
        };
        if place <= expression.position {
            return self;
        }
        let operand = if place < right.position { left } else { right };
        self.right_operand |= place >= right.position;
        self.inner_path = matches!(operand.term, Term::Read(_) | Term::Identical(_));
        self.expression(operand, place)
    }
}

impl fmt::Display for Places {
    fn fmt(&self, out: &mut fmt::Formatter<'_>) -> fmt::Result {
        write!(out, "inside the statement")?;
        for (outcome, count) in INSIDE.iter().zip(self.outcomes) {
            write!(out, " {}: {count}", outcome.number())?;
        }
        for (sort, count) in SORTS.iter().zip(self.sorts) {
            write!(out, ", {sort}: {count}")?;
        }
        Ok(())
    }
}
