//! Programs to print: trees whose names are numbers of a spelling.

pub type Block = Vec<Statement>;

#[derive(Clone, Debug)]
pub enum Statement {
    Skip,
    Assign(Path, Expression),
    New(usize, Vec<(usize, Expression)>),
    /// Its statement word, 3 or 4, and its parts with their priorities.
    Constraint(i32, Vec<(i32, Expression)>),
    /// Its statement word, 5 or 6, and its sides.
    Identity(i32, Path, Path),
    If(Expression, Block, Block),
    While(Expression, Block),
}

#[derive(Clone, Debug)]
pub struct Path {
    pub variable: usize,
    pub labels: Vec<usize>,
}

#[derive(Clone, Debug)]
pub enum Expression {
    Nil,
    False,
    True,
    /// Also numbers that no word holds.
    Integer(i64),
    Read(Path),
    Apply(i32, Box<Expression>, Box<Expression>),
    Identical(Path, Path),
}

impl Path {
    pub fn variable(variable: usize) -> Path {
        Path {
            variable,
            labels: Vec::new(),
        }
    }
}

impl Expression {
    pub fn apply(operator: i32, left: Expression, right: Expression) -> Expression {
        Expression::Apply(operator, Box::new(left), Box::new(right))
    }

    pub fn read(variable: usize) -> Expression {
        Expression::Read(Path::variable(variable))
    }
}

/// How tightly an expression holds together: an operator's level, or a leaf's.
pub fn binding(expression: &Expression) -> i32 {
    match expression {
        Expression::Apply(11, ..) => 1,
        Expression::Apply(10, ..) => 2,
        Expression::Apply(4..=9, ..) => 3,
        Expression::Apply(1 | 2, ..) => 4,
        Expression::Apply(..) => 5,
        _ => 6,
    }
}
