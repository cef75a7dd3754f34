//! Value constraints: whether they read and which parts hold.

use crate::evaluate;
use crate::outcome::{Fault, Outcome};
use crate::program::{Constraint, Part, Priority};
use crate::tables::{Kind, Tables, Value};

/// C reads if its paths exist, its operators get their kinds and each part
/// is boolean; parts are judged one after the other. A part that is no boolean
/// is 8 at its priority.
pub fn reads(tables: &Tables, constraint: &Constraint) -> Result<(), Fault> {
    for part in &constraint.parts {
        if evaluate::kind(tables, &part.expression)? != Kind::Boolean {
            return Err(Outcome::WrongKind.at(part.position));
        }
    }
    Ok(())
}

/// A part whose arithmetic leaves 32 bits anywhere does not hold.
pub fn part_holds(tables: &Tables, part: &Part) -> bool {
    evaluate::value(tables, &part.expression) == Ok(Value::Boolean(true))
}

pub fn required_parts_hold(tables: &Tables, constraint: &Constraint) -> bool {
    let mut parts = constraint.parts.iter();
    parts.all(|part| part.priority != Priority::Required || part_holds(tables, part))
}

pub fn all_parts_hold(tables: &Tables, constraint: &Constraint) -> bool {
    let mut parts = constraint.parts.iter();
    parts.all(|part| part_holds(tables, part))
}
