//! Small repairs: changing cells so that an expression gets a wanted value.

use super::numbers::Numbers;
use crate::evaluate;
use crate::program::{Expression, Operator, Term};
use crate::tables::{Location, Tables, Value};

/// A state under repair; the target cell may not be changed.
pub struct Repair<'a> {
    pub tables: Tables,
    pub target: Option<Location>,
    pub numbers: &'a mut Numbers,
}

impl Repair<'_> {
    fn value(&self, expression: &Expression) -> Option<Value> {
        evaluate::value(&self.tables, expression).ok()
    }

    fn number(&self, expression: &Expression) -> Option<i64> {
        match self.value(expression)? {
            Value::Integer(number) => Some(i64::from(number)),
            _ => None,
        }
    }

    fn change(&mut self, location: Location, value: Value) -> bool {
        let old = self.tables.cell(location);
        if old == Some(value) {
            return true;
        }
        let same_kind = old.is_some_and(|old| old.kind() == value.kind());
        if !same_kind || self.target == Some(location) {
            return false;
        }
        self.tables.set(location, value);
        true
    }

    /// Tries to give a boolean expression a truth.
    pub fn meet(&mut self, expression: &Expression, truth: bool) -> bool {
        match &expression.term {
            Term::Boolean(own) => *own == truth,
            Term::Read(path) => match evaluate::locate(&self.tables, path) {
                Ok(location) => self.change(location, Value::Boolean(truth)),
                Err(_) => false,
            },
            Term::Apply(Operator::And, left, right) => self.meet_both(left, right, truth, truth),
            Term::Apply(Operator::Or, left, right) => self.meet_both(left, right, truth, !truth),
            Term::Apply(operator, left, right) => self.compare(*operator, left, right, truth),
            _ => false,
        }
    }

    fn meet_both(&mut self, left: &Expression, right: &Expression, truth: bool, all: bool) -> bool {
        if all {
            return self.meet(left, truth) && self.meet(right, truth);
        }
        match self.numbers.chance(50) {
            true => self.meet(left, truth) || self.meet(right, truth),
            false => self.meet(right, truth) || self.meet(left, truth),
        }
    }

    fn compare(
        &mut self,
        operator: Operator,
        left: &Expression,
        right: &Expression,
        truth: bool,
    ) -> bool {
        if let (Some(low), Some(high)) = (self.number(left), self.number(right)) {
            let more = i64::from(self.numbers.between(0, 3));
            let gap = difference(operator, truth, more);
            return match self.numbers.chance(60) {
                true => self.aim(left, high + gap) || self.aim(right, low - gap),
                false => self.aim(right, low - gap) || self.aim(left, high + gap),
            };
        }
        let same = (operator == Operator::Equal) == truth;
        match (self.value(left), self.value(right)) {
            (Some(Value::Boolean(first)), Some(Value::Boolean(second))) => {
                self.meet(left, second == same) || self.meet(right, first == same)
            }
            _ => false,
        }
    }

    /// Tries to give an integer expression a number.
    fn aim(&mut self, expression: &Expression, number: i64) -> bool {
        match &expression.term {
            Term::Integer(own) => i64::from(*own) == number,
            Term::Read(path) => {
                let location = evaluate::locate(&self.tables, path);
                match (location, i32::try_from(number)) {
                    (Ok(location), Ok(number)) => self.change(location, Value::Integer(number)),
                    _ => false,
                }
            }
            Term::Apply(operator, left, right) => self.aim_side(*operator, left, right, number),
            _ => false,
        }
    }

    fn aim_side(
        &mut self,
        operator: Operator,
        left: &Expression,
        right: &Expression,
        number: i64,
    ) -> bool {
        let (Some(first), Some(second)) = (self.number(left), self.number(right)) else {
            return false;
        };
        match operator {
            Operator::Plus => self.aim(left, number - second) || self.aim(right, number - first),
            Operator::Minus => self.aim(left, number + second) || self.aim(right, first - number),
            Operator::Times => {
                let divides = |by: i64| by != 0 && number % by == 0;
                (divides(second) && self.aim(left, number / second))
                    || (divides(first) && self.aim(right, number / first))
            }
            _ => false,
        }
    }
}

/// How much the left side should lie above the right one.
fn difference(operator: Operator, truth: bool, more: i64) -> i64 {
    match (operator, truth) {
        (Operator::Less, true) | (Operator::AtLeast, false) => -1 - more,
        (Operator::AtMost, true) | (Operator::More, false) => -more,
        (Operator::More, true) | (Operator::AtMost, false) => 1 + more,
        (Operator::AtLeast, true) | (Operator::Less, false) => more,
        (Operator::Equal, true) | (Operator::Unequal, false) => 0,
        _ => 1 + more,
    }
}
