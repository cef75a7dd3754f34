//! Paths and expressions in a state of the tables. A refusal has its word.

use crate::outcome::{Fault, Outcome};
use crate::program::{Expression, Identity, Operator, Path, Term};
use crate::tables::{Kind, Location, Tables, Value};

/// The next cell on a path: from a cell that holds a record to a field of it.
fn step(tables: &Tables, cell: Location, label: usize) -> Option<Location> {
    match tables.cell(cell) {
        Some(Value::Reference(record)) => tables.field(record, label),
        _ => None,
    }
}

/// 7, at the path's variable word.
fn no_cell(path: &Path) -> Fault {
    Outcome::NoCell.at(path.position)
}

/// The cell a path names, which may be an absent variable.
pub fn locate(tables: &Tables, path: &Path) -> Result<Location, Fault> {
    let mut cell = path.variable;
    for label in &path.labels {
        cell = step(tables, cell, *label).ok_or_else(|| no_cell(path))?;
    }
    Ok(cell)
}

/// The cells on the way to the one a path names, without that one itself.
pub fn prefix(tables: &Tables, path: &Path) -> Result<Vec<Location>, Fault> {
    let mut cells = Vec::with_capacity(path.labels.len());
    let mut cell = path.variable;
    for label in &path.labels {
        cells.push(cell);
        cell = step(tables, cell, *label).ok_or_else(|| no_cell(path))?;
    }
    Ok(cells)
}

pub fn read(tables: &Tables, path: &Path) -> Result<Value, Fault> {
    let cell = locate(tables, path)?;
    tables.cell(cell).ok_or_else(|| no_cell(path))
}

/// The value of an expression, with 7, 8 and 9 as they are met; 8 and 9 are at
/// the operator's first word.
pub fn value(tables: &Tables, expression: &Expression) -> Result<Value, Fault> {
    match &expression.term {
        Term::Nil => Ok(Value::Nil),
        Term::Boolean(truth) => Ok(Value::Boolean(*truth)),
        Term::Integer(number) => Ok(Value::Integer(*number)),
        Term::Read(path) => read(tables, path),
        Term::Apply(operator, left, right) => {
            let left = value(tables, left)?;
            let right = value(tables, right)?;
            takes(expression.position, *operator, left.kind(), right.kind())?;
            apply(*operator, left, right).map_err(|outcome| outcome.at(expression.position))
        }
        Term::Identical(identity) => identical(tables, identity).map(Value::Boolean),
    }
}

fn identical(tables: &Tables, identity: &Identity) -> Result<bool, Fault> {
    let left = read(tables, &identity.left)?;
    let right = read(tables, &identity.right)?;
    Ok(left == right)
}

/// The test of an if or a while, or 8 at its first word.
pub fn test(tables: &Tables, expression: &Expression) -> Result<bool, Fault> {
    match value(tables, expression)? {
        Value::Boolean(truth) => Ok(truth),
        _ => Err(Outcome::WrongKind.at(expression.position)),
    }
}

/// 8 at the operator's first word, unless it takes operands of these kinds.
fn takes(word: usize, operator: Operator, left: Kind, right: Kind) -> Result<(), Fault> {
    let wanted = match operator {
        Operator::Equal | Operator::Unequal => left != Kind::Reference,
        Operator::And | Operator::Or => left == Kind::Boolean,
        _ => left == Kind::Integer,
    };
    if wanted && left == right {
        return Ok(());
    }
    Err(Fault {
        operands: Some((operator, left, right)),
        ..Outcome::WrongKind.at(word)
    })
}

/// What an operator gives for operands that it takes, or 9.
fn apply(operator: Operator, left: Value, right: Value) -> Result<Value, Outcome> {
    match (left, right) {
        _ if operator == Operator::Equal => Ok(Value::Boolean(left == right)),
        _ if operator == Operator::Unequal => Ok(Value::Boolean(left != right)),
        (Value::Integer(left), Value::Integer(right)) => apply_integers(operator, left, right),
        (Value::Boolean(left), Value::Boolean(right)) => apply_booleans(operator, left, right),
        _ => Err(Outcome::WrongKind),
    }
}

fn apply_integers(operator: Operator, left: i32, right: i32) -> Result<Value, Outcome> {
    let fit = |number: Option<i32>| number.map(Value::Integer).ok_or(Outcome::OutOfRange);
    match operator {
        Operator::Plus => fit(left.checked_add(right)),
        Operator::Minus => fit(left.checked_sub(right)),
        Operator::Times => fit(left.checked_mul(right)),
        Operator::Less => Ok(Value::Boolean(left < right)),
        Operator::AtMost => Ok(Value::Boolean(left <= right)),
        Operator::AtLeast => Ok(Value::Boolean(left >= right)),
        Operator::More => Ok(Value::Boolean(left > right)),
        _ => Err(Outcome::WrongKind),
    }
}

fn apply_booleans(operator: Operator, left: bool, right: bool) -> Result<Value, Outcome> {
    match operator {
        Operator::And => Ok(Value::Boolean(left && right)),
        Operator::Or => Ok(Value::Boolean(left || right)),
        _ => Err(Outcome::WrongKind),
    }
}

/// The kind an expression inside C reads as. Numbers play no part in it, so
/// arithmetic that leaves 32 bits still reads as an integer.
pub fn kind(tables: &Tables, expression: &Expression) -> Result<Kind, Fault> {
    match &expression.term {
        Term::Nil => Ok(Kind::Nil),
        Term::Boolean(_) => Ok(Kind::Boolean),
        Term::Integer(_) => Ok(Kind::Integer),
        Term::Read(path) => Ok(read(tables, path)?.kind()),
        Term::Apply(operator, left, right) => {
            let left = kind(tables, left)?;
            let right = kind(tables, right)?;
            takes(expression.position, *operator, left, right)?;
            Ok(kind_of_result(*operator))
        }
        Term::Identical(_) => Err(Outcome::WrongKind.at(expression.position)),
    }
}

fn kind_of_result(operator: Operator) -> Kind {
    match operator {
        Operator::Plus | Operator::Minus | Operator::Times => Kind::Integer,
        _ => Kind::Boolean,
    }
}
