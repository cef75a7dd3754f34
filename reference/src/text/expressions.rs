//! Tokens to trees: paths and expressions.

use super::reader::{Reader, Refusal, Within};
use super::tokens::Kind;
use super::trees::{Expression, Path, Term};
use super::Limit;

const MOST_LABELS: usize = 7;
const DEEPEST_LEVEL: usize = 16;

/// An operator: its word, and how tightly it binds.
#[derive(Clone, Copy)]
struct Operator {
    word: i32,
    binding: usize,
}

fn operator(kind: Kind) -> Option<Operator> {
    let (word, binding) = match kind {
        Kind::Mark("*") => (3, 5),
        Kind::Mark("+") => (1, 4),
        Kind::Mark("-") => (2, 4),
        Kind::Mark("<") => (4, 3),
        Kind::Mark("<=") => (5, 3),
        Kind::Mark("=") => (6, 3),
        Kind::Mark("!=") => (7, 3),
        Kind::Mark(">=") => (8, 3),
        Kind::Mark(">") => (9, 3),
        Kind::Mark("and") => (10, 2),
        Kind::Mark("or") => (11, 1),
        _ => return None,
    };
    Some(Operator { word, binding })
}

/// What has been begun and waits for what follows.
enum Open {
    Bracket,
    Operation {
        operator: Operator,
        place: usize,
        left: Expression,
    },
}

/// The open brackets and operations, the outermost first.
#[derive(Default)]
struct Pile {
    open: Vec<Open>,
    brackets: usize,
    operations: usize,
}

impl Pile {
    fn begin_bracket(&mut self) {
        self.open.push(Open::Bracket);
        self.brackets += 1;
    }

    fn begin_operation(&mut self, operator: Operator, place: usize, left: Expression) {
        self.open.push(Open::Operation {
            operator,
            place,
            left,
        });
        self.operations += 1;
    }

    /// Ends the operations back to the last bracket that bind as tightly as
    /// that or more: the operand is the right one of the last of them.
    fn end_operations(&mut self, operand: Expression, binding: usize) -> Expression {
        let mut operand = operand;
        loop {
            match self.open.pop() {
                Some(Open::Operation {
                    operator,
                    place,
                    left,
                }) if operator.binding >= binding => {
                    self.operations -= 1;
                    operand = Expression::apply(place, operator.word, left, operand);
                }
                other => {
                    self.open.extend(other);
                    return operand;
                }
            }
        }
    }

    fn end_bracket(&mut self, operand: Expression) -> Expression {
        let whole = self.end_operations(operand, 0);
        self.open.pop();
        self.brackets -= 1;
        whole
    }
}

impl Reader<'_> {
    /// An L. Its variable has so many words, 24 among them or not.
    pub fn path(&mut self, words: usize) -> Result<Path, Refusal> {
        let variable = self.variable(words)?;
        let mut labels = Vec::new();
        while self.is(".") {
            self.take(0)?;
            if labels.len() == MOST_LABELS {
                self.pass(Limit::Labels);
            }
            labels.push(self.label()?);
        }
        Ok(Path { variable, labels })
    }

    pub fn expression(&mut self, within: Within) -> Result<Expression, Refusal> {
        let mut pile = Pile::default();
        let first = self.bracketed(&mut pile, within)?;
        self.operations(pile, first, within)
    }

    /// An expression of which the first operand has been read.
    pub fn expression_after(
        &mut self,
        first: Expression,
        within: Within,
    ) -> Result<Expression, Refusal> {
        self.operations(Pile::default(), first, within)
    }

    /// An operand and the brackets that open before it.
    fn bracketed(&mut self, pile: &mut Pile, within: Within) -> Result<Expression, Refusal> {
        while self.is("(") {
            self.take(0)?;
            pile.begin_bracket();
        }
        self.operand(within)
    }

    /// Operators with their right operands, and the brackets that close.
    fn operations(
        &mut self,
        mut pile: Pile,
        mut operand: Expression,
        within: Within,
    ) -> Result<Expression, Refusal> {
        loop {
            if self.is(")") && pile.brackets > 0 {
                self.take(0)?;
                operand = pile.end_bracket(operand);
            } else if let Some(operator) = operator(self.token().kind) {
                let left = pile.end_operations(operand, operator.binding);
                let place = self.operation(&pile, &left)?;
                pile.begin_operation(operator, place, left);
                operand = self.bracketed(&mut pile, within)?;
            } else if pile.brackets > 0 {
                return self.unfit();
            } else {
                return Ok(pile.end_operations(operand, 0));
            }
        }
    }

    /// Takes an operator under the open ones, over its left operand.
    fn operation(&mut self, pile: &Pile, left: &Expression) -> Result<usize, Refusal> {
        let own_level = pile.operations + 1;
        if own_level + left.depth > DEEPEST_LEVEL {
            self.pass(Limit::Levels);
        }
        self.take(2)
    }

    /// An operand without brackets around it.
    fn operand(&mut self, within: Within) -> Result<Expression, Refusal> {
        let (term, words) = match self.token().kind {
            Kind::Name(_) => return self.read_or_compare(within),
            Kind::Mark("nil") => (Term::Nil, 1),
            Kind::Mark("false") => (Term::False, 1),
            Kind::Mark("true") => (Term::True, 1),
            Kind::Number(Some(number)) => (Term::Integer(number), 2),
            Kind::Number(None) => {
                self.pass(Limit::Number);
                (Term::Integer(0), 2)
            }
            _ => return self.unfit(),
        };
        Ok(Expression::leaf(self.take(words)?, term))
    }

    /// A path, or two with `==` between them, which takes the path's 24.
    fn read_or_compare(&mut self, within: Within) -> Result<Expression, Refusal> {
        let path = self.path(3)?;
        if within == Within::Constraint || !self.is("==") {
            return Ok(Expression::read(path));
        }
        let place = self.take(0)?;
        let right = self.path(2)?;
        Ok(Expression::leaf(place, Term::Identical(path, right)))
    }
}
