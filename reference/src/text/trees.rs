//! Trees of a text: each piece knows the places of the tokens it comes from.

#[derive(Debug)]
pub struct Block {
    pub place: usize,
    pub statements: Vec<Statement>,
}

#[derive(Debug)]
pub struct Statement {
    pub place: usize,
    pub action: Action,
}

#[derive(Debug)]
pub enum Action {
    Skip,
    Assign(Path, Expression),
    New(New),
    Constraint(Keeping, Constraint),
    Identity(Keeping, Path, Path),
    If(Expression, Block, Block),
    While(Expression, Block),
}

#[derive(Clone, Copy, Debug, PartialEq, Eq)]
pub enum Keeping {
    Always,
    Once,
}

/// A variable or a label under its number.
#[derive(Clone, Copy, Debug)]
pub struct Named {
    pub number: usize,
    pub place: usize,
}

#[derive(Debug)]
pub struct Path {
    pub variable: Named,
    pub labels: Vec<Named>,
}

/// `brace` is the place of the `{`.
#[derive(Debug)]
pub struct New {
    pub variable: Named,
    pub brace: usize,
    pub fields: Vec<(Named, Expression)>,
}

#[derive(Debug)]
pub struct Constraint {
    pub place: usize,
    pub parts: Vec<Part>,
}

/// `place` is that of the part's first token, a priority where one is written.
#[derive(Debug)]
pub struct Part {
    pub place: usize,
    pub priority: i32,
    pub expression: Expression,
}

/// `place` is that of the literal, the path, the `==` or the operator.
#[derive(Debug)]
pub struct Expression {
    pub place: usize,
    pub depth: usize,
    pub term: Term,
}

#[derive(Debug)]
pub enum Term {
    Nil,
    False,
    True,
    Integer(i32),
    Read(Path),
    Apply(i32, Box<Expression>, Box<Expression>),
    Identical(Path, Path),
}

impl Expression {
    pub fn leaf(place: usize, term: Term) -> Expression {
        Expression {
            place,
            depth: 1,
            term,
        }
    }

    pub fn read(path: Path) -> Expression {
        Expression::leaf(path.variable.place, Term::Read(path))
    }

    pub fn apply(place: usize, operator: i32, left: Expression, right: Expression) -> Expression {
        Expression {
            place,
            depth: 1 + left.depth.max(right.depth),
            term: Term::Apply(operator, Box::new(left), Box::new(right)),
        }
    }
}
