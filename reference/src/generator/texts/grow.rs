//! Random trees within the limits of document 01, names apart.

use super::tree::{Block, Expression, Path, Statement};
use crate::generator::numbers::Numbers;

/// Names that are taken up one after the other.
#[derive(Clone, Copy, Debug)]
pub struct Supply {
    pub used: usize,
    pub all: usize,
}

impl Supply {
    pub fn of(all: usize) -> Supply {
        Supply { used: 0, all }
    }

    pub fn is_spent(&self) -> bool {
        self.used >= self.all
    }

    /// The next name, or one of those before it.
    fn draw(&mut self, numbers: &mut Numbers, fresh: usize) -> usize {
        if !self.is_spent() && (self.used == 0 || numbers.chance(fresh)) {
            self.used += 1;
            return self.used - 1;
        }
        numbers.below(self.used)
    }
}

pub struct Grower<'a> {
    pub numbers: &'a mut Numbers,
    pub variables: Supply,
    pub labels: Supply,
    /// How many names in a hundred are taken up anew.
    pub fresh: usize,
}

/// Whether `==` may stand in an expression.
#[derive(Clone, Copy, PartialEq, Eq)]
pub enum Within {
    Statement,
    Constraint,
}

impl<'a> Grower<'a> {
    /// Trees of few names.
    pub fn new(numbers: &'a mut Numbers) -> Grower<'a> {
        let (variables, labels) = (1 + numbers.below(8), 1 + numbers.below(8));
        Grower {
            numbers,
            variables: Supply::of(variables),
            labels: Supply::of(labels),
            fresh: 30,
        }
    }

    pub fn variable(&mut self) -> usize {
        self.variables.draw(self.numbers, self.fresh)
    }

    pub fn label(&mut self) -> usize {
        self.labels.draw(self.numbers, self.fresh)
    }

    pub fn path(&mut self) -> Path {
        let count = match self.numbers.below(20) {
            0..=9 => 0,
            10..=17 => 1 + self.numbers.below(2),
            18 => 7,
            _ => self.numbers.below(8),
        };
        self.path_of(count)
    }

    pub fn path_of(&mut self, labels: usize) -> Path {
        let variable = self.variable();
        let labels = (0..labels).map(|_| self.label()).collect();
        Path { variable, labels }
    }

    pub fn operator(&mut self) -> i32 {
        self.numbers.between(1, 11)
    }

    pub fn leaf(&mut self, within: Within) -> Expression {
        match self.numbers.below(14) {
            0 => Expression::Nil,
            1 => Expression::False,
            2 => Expression::True,
            3..=7 => Expression::Integer(i64::from(self.numbers.literal())),
            8 if within == Within::Statement => {
                let left = self.path();
                Expression::Identical(left, self.path())
            }
            _ => Expression::Read(self.path()),
        }
    }

    /// An expression of no more than so many levels.
    pub fn expression(&mut self, levels: usize, within: Within) -> Expression {
        if levels <= 1 || self.numbers.chance(35) {
            return self.leaf(within);
        }
        let operator = self.operator();
        let left = self.expression(levels - 1, within);
        Expression::apply(operator, left, self.expression(levels - 1, within))
    }

    /// Of a few levels mostly.
    pub fn any_expression(&mut self, within: Within) -> Expression {
        let levels = match self.numbers.below(12) {
            0 => 5,
            1..=3 => 3,
            _ => 1 + self.numbers.below(2),
        };
        self.expression(levels, within)
    }

    /// An expression of just so many levels: one spine of operators that turns
    /// left and right, with little beside it.
    pub fn spine(&mut self, levels: usize, within: Within) -> Expression {
        if levels <= 1 {
            return self.leaf(within);
        }
        let operator = self.operator();
        let beside = 1 + self.numbers.below(levels.min(4) - 1);
        match self.numbers.chance(50) {
            true => {
                let left = self.spine(levels - 1, within);
                Expression::apply(operator, left, self.expression(beside, within))
            }
            false => {
                let left = self.expression(beside, within);
                Expression::apply(operator, left, self.spine(levels - 1, within))
            }
        }
    }

    /// A record with so many fields, or as many as there are labels for.
    pub fn new_record(&mut self, fields: usize) -> Statement {
        let variable = self.variable();
        let mut labels: Vec<usize> = Vec::new();
        for _ in 0..20 * fields {
            if labels.len() == fields {
                break;
            }
            let label = self.label();
            if !labels.contains(&label) {
                labels.push(label);
            }
        }
        let fields = labels.into_iter();
        let fields = fields.map(|label| (label, self.any_expression(Within::Statement)));
        Statement::New(variable, fields.collect())
    }

    pub fn constraint(&mut self, parts: usize) -> Statement {
        let word = self.numbers.between(3, 4);
        let parts = (0..parts).map(|_| {
            let priority = self.numbers.one_of(&[3, 3, 3, 2, 1]);
            (priority, self.any_expression(Within::Constraint))
        });
        Statement::Constraint(word, parts.collect())
    }

    pub fn identity(&mut self) -> Statement {
        let word = self.numbers.between(5, 6);
        let left = self.path();
        Statement::Identity(word, left, self.path())
    }

    pub fn assignment(&mut self) -> Statement {
        let target = self.path();
        Statement::Assign(target, self.any_expression(Within::Statement))
    }

    /// A statement that opens no more than so many levels of blocks.
    pub fn statement(&mut self, blocks: usize) -> Statement {
        match self.numbers.below(20) {
            0 | 1 => Statement::Skip,
            2..=6 => self.assignment(),
            7 | 8 => {
                let fields = self.numbers.below(4);
                self.new_record(fields)
            }
            9..=13 => {
                let parts = self.numbers.one_of(&[1, 1, 1, 2, 2, 3, 5]);
                self.constraint(usize::try_from(parts).unwrap_or(1))
            }
            14 | 15 => self.identity(),
            16 | 17 if blocks > 0 => self.branch(blocks),
            18 | 19 if blocks > 0 => self.repeated(blocks),
            _ => self.assignment(),
        }
    }

    fn branch(&mut self, blocks: usize) -> Statement {
        let test = self.any_expression(Within::Statement);
        let yes = self.some(blocks - 1);
        Statement::If(test, yes, self.some(blocks - 1))
    }

    fn repeated(&mut self, blocks: usize) -> Statement {
        let test = self.any_expression(Within::Statement);
        Statement::While(test, self.some(blocks - 1))
    }

    fn some(&mut self, blocks: usize) -> Block {
        let count = self.numbers.below(4);
        self.block(count, blocks)
    }

    pub fn block(&mut self, count: usize, blocks: usize) -> Block {
        (0..count).map(|_| self.statement(blocks)).collect()
    }
}
