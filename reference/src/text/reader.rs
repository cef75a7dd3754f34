//! Tokens to trees: blocks, statements and constraints.

use super::names::Names;
use super::tokens::{Kind, Token};
use super::trees::{Action, Block, Constraint, Expression, Keeping, Named, New, Part, Statement};
use super::{Limit, PROGRAM_WORDS};

const DEEPEST_BLOCK: usize = 8;
const MOST_STATEMENTS: usize = 255;
const MOST_PARTS: usize = 16;
const MOST_FIELDS: usize = 8;

/// A text refused: the number, and the token's place.
#[derive(Debug)]
pub struct Refusal {
    pub outcome: i32,
    pub place: usize,
    pub limit: Option<Limit>,
}

impl Refusal {
    fn limit(place: usize, limit: Limit) -> Refusal {
        Refusal {
            outcome: 22,
            place,
            limit: Some(limit),
        }
    }
}

/// Whether an expression stands inside a C, where `==` is not allowed.
#[derive(Clone, Copy, PartialEq, Eq)]
pub enum Within {
    Statement,
    Constraint,
}

/// Goes from token to token. What it finds of the next token before it takes
/// it, words that are certain with it and a limit that it passes, waits until
/// the token is known to fit.
pub struct Reader<'a> {
    tokens: Vec<Token<'a>>,
    next: usize,
    pub names: Names<'a>,
    words: usize,
    owed: usize,
    passed: Option<Limit>,
}

impl<'a> Reader<'a> {
    /// The outermost n is certain from the start.
    pub fn new(tokens: Vec<Token<'a>>) -> Reader<'a> {
        Reader {
            tokens,
            next: 0,
            names: Names::default(),
            words: 1,
            owed: 0,
            passed: None,
        }
    }

    /// The token to be judged; the last one is never left behind.
    pub fn token(&self) -> Token<'a> {
        let token = self.tokens.get(self.next).or(self.tokens.last());
        token.copied().unwrap_or(Token {
            kind: Kind::End,
            place: 0,
            length: 0,
        })
    }

    pub fn is(&self, mark: &str) -> bool {
        matches!(self.token().kind, Kind::Mark(own) if own == mark)
    }

    /// 20 at the token, or 22 where the text is too long for it to be judged.
    pub fn unfit<T>(&self) -> Result<T, Refusal> {
        let place = self.token().place;
        Err(match self.token().kind {
            Kind::Beyond => Refusal::limit(place, Limit::Size),
            _ => Refusal {
                outcome: 20,
                place,
                limit: None,
            },
        })
    }

    /// Words that become certain with the next token, whichever it is.
    pub fn owe(&mut self, words: usize) {
        self.owed += words;
    }

    /// The next token passes a limit, if it may stand there at all.
    pub fn pass(&mut self, limit: Limit) {
        self.passed = self.passed.or(Some(limit));
    }

    /// Takes a token that may stand here, with its words: 22. Its place.
    pub fn take(&mut self, words: usize) -> Result<usize, Refusal> {
        let place = self.token().place;
        self.words += self.owed + words;
        self.owed = 0;
        if self.words > PROGRAM_WORDS {
            self.pass(Limit::Words);
        }
        if let Some(limit) = self.passed {
            return Err(Refusal::limit(place, limit));
        }
        self.next += 1;
        Ok(place)
    }

    /// Takes a keyword or symbol that has to stand here.
    pub fn mark(&mut self, mark: &str, words: usize) -> Result<usize, Refusal> {
        match self.is(mark) {
            true => self.take(words),
            false => self.unfit(),
        }
    }

    fn too_many(&self) -> Refusal {
        Refusal {
            outcome: 21,
            place: self.token().place,
            limit: None,
        }
    }

    /// Takes a variable with its words: 20, 21, 22.
    pub fn variable(&mut self, words: usize) -> Result<Named, Refusal> {
        let Kind::Name(name) = self.token().kind else {
            return self.unfit();
        };
        let number = self.names.variable(name, self.token().place);
        let number = number.ok_or_else(|| self.too_many())?;
        let place = self.take(words)?;
        Ok(Named { number, place })
    }

    /// Takes a label, which has one word: 20, 21, 22.
    pub fn label(&mut self) -> Result<Named, Refusal> {
        let Kind::Name(name) = self.token().kind else {
            return self.unfit();
        };
        let number = self.names.label(name, self.token().place);
        let number = number.ok_or_else(|| self.too_many())?;
        let place = self.take(1)?;
        Ok(Named { number, place })
    }

    /// The whole text. Words may become certain with its end.
    pub fn text(&mut self) -> Result<Block, Refusal> {
        let statements = match self.token().kind {
            Kind::End => Vec::new(),
            _ => self.statements(1)?,
        };
        if self.token().kind != Kind::End {
            return self.unfit();
        }
        self.take(0)?;
        Ok(Block {
            place: 0,
            statements,
        })
    }

    fn block(&mut self, depth: usize) -> Result<Block, Refusal> {
        if depth > DEEPEST_BLOCK {
            self.pass(Limit::Blocks);
        }
        let place = self.mark("{", 1)?;
        let statements = match self.is("}") {
            true => Vec::new(),
            false => self.statements(depth)?,
        };
        self.mark("}", 0)?;
        Ok(Block { place, statements })
    }

    /// One statement or more, up to a token that is no `;`.
    fn statements(&mut self, depth: usize) -> Result<Vec<Statement>, Refusal> {
        let mut statements = vec![self.statement(depth)?];
        while self.is(";") {
            self.take(0)?;
            if statements.len() == MOST_STATEMENTS {
                self.pass(Limit::Statements);
            }
            statements.push(self.statement(depth)?);
        }
        Ok(statements)
    }

    fn statement(&mut self, depth: usize) -> Result<Statement, Refusal> {
        let place = self.token().place;
        self.owe(1);
        let action = match self.token().kind {
            Kind::Name(_) => self.assignment()?,
            Kind::Mark("skip") => self.take(0).map(|_| Action::Skip)?,
            Kind::Mark("always") => self.stated(Keeping::Always)?,
            Kind::Mark("once") => self.stated(Keeping::Once)?,
            Kind::Mark("if") => self.branch(depth)?,
            Kind::Mark("while") => self.repeated(depth)?,
            _ => return self.unfit(),
        };
        Ok(Statement { place, action })
    }

    fn branch(&mut self, depth: usize) -> Result<Action, Refusal> {
        self.mark("if", 0)?;
        let test = self.expression(Within::Statement)?;
        self.mark("then", 0)?;
        let yes = self.block(depth + 1)?;
        self.mark("else", 0)?;
        let no = self.block(depth + 1)?;
        Ok(Action::If(test, yes, no))
    }

    fn repeated(&mut self, depth: usize) -> Result<Action, Refusal> {
        self.mark("while", 0)?;
        let test = self.expression(Within::Statement)?;
        self.mark("do", 0)?;
        Ok(Action::While(test, self.block(depth + 1)?))
    }

    /// The n at the first name is the path's, or that of `new`.
    fn assignment(&mut self) -> Result<Action, Refusal> {
        let target = self.path(2)?;
        self.mark(":=", 0)?;
        if self.is("new") && target.labels.is_empty() {
            return self.new_record(target.variable);
        }
        Ok(Action::Assign(target, self.expression(Within::Statement)?))
    }

    fn new_record(&mut self, variable: Named) -> Result<Action, Refusal> {
        self.mark("new", 0)?;
        let brace = self.mark("{", 0)?;
        let mut fields = Vec::new();
        if !self.is("}") {
            fields.push(self.field(&fields)?);
            while self.is(",") {
                self.take(0)?;
                fields.push(self.field(&fields)?);
            }
        }
        self.mark("}", 0)?;
        Ok(Action::New(New {
            variable,
            brace,
            fields,
        }))
    }

    /// A field; a label that an earlier one has may not stand there.
    fn field(&mut self, earlier: &[(Named, Expression)]) -> Result<(Named, Expression), Refusal> {
        if earlier.len() == MOST_FIELDS {
            self.pass(Limit::Fields);
        }
        if let Kind::Name(name) = self.token().kind {
            let known = self.names.known_label(name);
            let mut labels = earlier.iter().map(|(label, _)| Some(label.number));
            if known.is_some() && labels.any(|label| label == known) {
                return self.unfit();
            }
        }
        let label = self.label()?;
        self.mark(":", 0)?;
        Ok((label, self.expression(Within::Statement)?))
    }

    /// What follows `always` or `once`. Of a path that comes first it shows
    /// at the token after it whether it is a side of an identity; if not,
    /// m, a priority and 24 are certain with that token.
    fn stated(&mut self, keeping: Keeping) -> Result<Action, Refusal> {
        self.take(0)?;
        let place = self.token().place;
        let Kind::Name(_) = self.token().kind else {
            self.owe(1);
            let first = self.part()?;
            return self.constraint(keeping, place, first);
        };
        let path = self.path(2)?;
        if self.is("==") {
            self.take(0)?;
            return Ok(Action::Identity(keeping, path, self.path(2)?));
        }
        self.owe(3);
        let expression = self.expression_after(Expression::read(path), Within::Constraint)?;
        let first = Part {
            place,
            priority: 3,
            expression,
        };
        self.constraint(keeping, place, first)
    }

    /// The parts behind the first one.
    fn constraint(
        &mut self,
        keeping: Keeping,
        place: usize,
        first: Part,
    ) -> Result<Action, Refusal> {
        let mut parts = vec![first];
        while self.is("/\\") {
            self.take(0)?;
            if parts.len() == MOST_PARTS {
                self.pass(Limit::Parts);
            }
            parts.push(self.part()?);
        }
        Ok(Action::Constraint(keeping, Constraint { place, parts }))
    }

    /// A part; its priority is certain with its first token, written or not.
    fn part(&mut self) -> Result<Part, Refusal> {
        let place = self.token().place;
        self.owe(1);
        let written = match self.token().kind {
            Kind::Mark("weak") => Some(1),
            Kind::Mark("medium") => Some(2),
            Kind::Mark("required") => Some(3),
            _ => None,
        };
        if written.is_some() {
            self.take(0)?;
        }
        Ok(Part {
            place,
            priority: written.unwrap_or(3),
            expression: self.expression(Within::Constraint)?,
        })
    }
}
