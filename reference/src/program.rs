//! Programs as trees: each piece knows the word it begins at.

use std::collections::BTreeMap;
use std::rc::Rc;

pub const LONGEST_PROGRAM: usize = 4096;
pub const DEEPEST_BLOCK: usize = 8;
pub const DEEPEST_EXPRESSION: usize = 16;

#[derive(Debug)]
pub struct Program {
    pub length: usize,
    pub block: Block,
}

#[derive(Debug)]
pub struct Block {
    pub position: usize,
    pub statements: Vec<Statement>,
}

#[derive(Debug)]
pub struct Statement {
    pub position: usize,
    pub action: Action,
}

#[derive(Debug)]
pub enum Action {
    Skip,
    Assign(Path, Expression),
    New(usize, Vec<(usize, Expression)>),
    Always(Rc<Constraint>),
    Once(Constraint),
    AlwaysIdentity(Rc<Identity>),
    OnceIdentity(Identity),
    If(Expression, Block, Block),
    While(Expression, Block),
}

/// An L of document 01: a variable and the labels that lead on from it.
#[derive(Debug)]
pub struct Path {
    pub position: usize,
    pub variable: usize,
    pub labels: Vec<usize>,
}

#[derive(Debug)]
pub struct Identity {
    pub left: Path,
    pub right: Path,
}

#[derive(Debug)]
pub struct Constraint {
    pub position: usize,
    pub parts: Vec<Part>,
}

#[derive(Debug)]
pub struct Part {
    pub position: usize,
    pub priority: Priority,
    pub expression: Expression,
}

#[derive(Clone, Copy, Debug, PartialEq, Eq)]
pub enum Priority {
    Weak,
    Medium,
    Required,
}

#[derive(Debug)]
pub struct Expression {
    pub position: usize,
    pub term: Term,
}

#[derive(Debug)]
pub enum Term {
    Nil,
    Boolean(bool),
    Integer(i32),
    Read(Path),
    Apply(Operator, Box<Expression>, Box<Expression>),
    Identical(Identity),
}

#[derive(Clone, Copy, Debug, PartialEq, Eq)]
pub enum Operator {
    Plus,
    Minus,
    Times,
    Less,
    AtMost,
    Equal,
    Unequal,
    AtLeast,
    More,
    And,
    Or,
}

/// The always-statements of a program by position, in blocks never run too.
#[derive(Debug, Default)]
pub struct Always {
    pub constraints: BTreeMap<usize, Rc<Constraint>>,
    pub identities: BTreeMap<usize, Rc<Identity>>,
}

impl Program {
    /// Reads a whole program; the error is the place of the first unfit word.
    pub fn decode(words: &[i32]) -> Result<Program, usize> {
        if words.len() > LONGEST_PROGRAM {
            return Err(LONGEST_PROGRAM);
        }
        let mut reader = Reader { words, next: 0 };
        let block = reader.block(1)?;
        if reader.next < words.len() {
            return Err(reader.next);
        }
        Ok(Program {
            length: words.len(),
            block,
        })
    }

    pub fn always(&self) -> Always {
        let mut always = Always::default();
        for statement in &self.block.statements {
            always.gather(statement);
        }
        always
    }

    /// All statements in the order of their words, each with its block's depth.
    pub fn statements(&self) -> Vec<(usize, &Statement)> {
        let mut all = Vec::new();
        self.block.list(1, &mut all);
        all
    }
}

impl Block {
    fn list<'a>(&'a self, depth: usize, all: &mut Vec<(usize, &'a Statement)>) {
        for statement in &self.statements {
            statement.list(depth, all);
        }
    }
}

impl Statement {
    fn list<'a>(&'a self, depth: usize, all: &mut Vec<(usize, &'a Statement)>) {
        all.push((depth, self));
        match &self.action {
            Action::If(_, yes, no) => {
                yes.list(depth + 1, all);
                no.list(depth + 1, all);
            }
            Action::While(_, body) => body.list(depth + 1, all),
            _ => {}
        }
    }

    /// Statements 1 to 4 read a proposal.
    pub fn reads_proposal(&self) -> bool {
        use Action::{Always, Assign, New, Once};
        matches!(self.action, Assign(..) | New(..) | Always(_) | Once(_))
    }

    /// Reads one statement of the outermost block from the middle of a
    /// program, with the word after it.
    pub fn decode(words: &[i32], start: usize) -> Result<(Statement, usize), usize> {
        let mut reader = Reader { words, next: start };
        let statement = reader.statement(1)?;
        Ok((statement, reader.next))
    }
}

impl Path {
    /// Reads an L from the middle of a program, with the word after it.
    pub fn decode(words: &[i32], start: usize) -> Result<(Path, usize), usize> {
        let mut reader = Reader { words, next: start };
        let path = reader.path()?;
        Ok((path, reader.next))
    }
}

impl Constraint {
    /// Reads a C from the middle of a program, with the word after it.
    pub fn decode(words: &[i32], start: usize) -> Result<(Constraint, usize), usize> {
        let mut reader = Reader { words, next: start };
        let constraint = reader.constraint()?;
        Ok((constraint, reader.next))
    }
}

impl Expression {
    /// Reads an expression outside C from the middle of a program, with the
    /// word after it.
    pub fn decode(words: &[i32], start: usize) -> Result<(Expression, usize), usize> {
        let mut reader = Reader { words, next: start };
        let expression = reader.expression(1, Within::Statement)?;
        Ok((expression, reader.next))
    }
}

impl Always {
    /// Those that a statement is or holds.
    pub fn gather(&mut self, statement: &Statement) {
        let mut all = Vec::new();
        statement.list(1, &mut all);
        for (_, statement) in all {
            self.add(statement);
        }
    }

    fn add(&mut self, statement: &Statement) {
        let position = statement.position;
        match &statement.action {
            Action::Always(constraint) => {
                self.constraints.insert(position, Rc::clone(constraint));
            }
            Action::AlwaysIdentity(identity) => {
                self.identities.insert(position, Rc::clone(identity));
            }
            _ => {}
        }
    }
}

/// Whether an expression stands inside a C, where 26 is not allowed.
#[derive(Clone, Copy, PartialEq, Eq)]
enum Within {
    Statement,
    Constraint,
}

struct Reader<'a> {
    words: &'a [i32],
    next: usize,
}

impl Reader<'_> {
    fn word(&mut self) -> Result<i32, usize> {
        let word = self.words.get(self.next).ok_or(self.words.len())?;
        self.next += 1;
        Ok(*word)
    }

    /// Reads a word that must lie in a range of numbers not below 0.
    fn number(&mut self, low: usize, high: usize) -> Result<usize, usize> {
        let place = self.next;
        let number = usize::try_from(self.word()?).map_err(|_| place)?;
        if number < low || number > high {
            return Err(place);
        }
        Ok(number)
    }

    fn block(&mut self, depth: usize) -> Result<Block, usize> {
        let position = self.next;
        if depth > DEEPEST_BLOCK {
            return Err(position);
        }
        let count = self.number(0, 255)?;
        let mut statements = Vec::new();
        for _ in 0..count {
            statements.push(self.statement(depth)?);
        }
        Ok(Block {
            position,
            statements,
        })
    }

    fn statement(&mut self, depth: usize) -> Result<Statement, usize> {
        let position = self.next;
        let action = match self.number(0, 8)? {
            0 => Action::Skip,
            1 => Action::Assign(self.path()?, self.expression(1, Within::Statement)?),
            2 => self.new_record()?,
            3 => Action::Always(Rc::new(self.constraint()?)),
            4 => Action::Once(self.constraint()?),
            5 => Action::AlwaysIdentity(Rc::new(self.identity()?)),
            6 => Action::OnceIdentity(self.identity()?),
            7 => Action::If(
                self.expression(1, Within::Statement)?,
                self.block(depth + 1)?,
                self.block(depth + 1)?,
            ),
            _ => Action::While(
                self.expression(1, Within::Statement)?,
                self.block(depth + 1)?,
            ),
        };
        Ok(Statement { position, action })
    }

    fn new_record(&mut self) -> Result<Action, usize> {
        let variable = self.number(0, 63)?;
        let count = self.number(0, 8)?;
        let mut fields: Vec<(usize, Expression)> = Vec::new();
        for _ in 0..count {
            let place = self.next;
            let label = self.number(0, 31)?;
            if fields.iter().any(|(earlier, _)| *earlier == label) {
                return Err(place);
            }
            fields.push((label, self.expression(1, Within::Statement)?));
        }
        Ok(Action::New(variable, fields))
    }

    fn path(&mut self) -> Result<Path, usize> {
        let position = self.next;
        let variable = self.number(0, 63)?;
        let count = self.number(0, 7)?;
        let mut labels = Vec::new();
        for _ in 0..count {
            labels.push(self.number(0, 31)?);
        }
        Ok(Path {
            position,
            variable,
            labels,
        })
    }

    fn identity(&mut self) -> Result<Identity, usize> {
        Ok(Identity {
            left: self.path()?,
            right: self.path()?,
        })
    }

    fn constraint(&mut self) -> Result<Constraint, usize> {
        let position = self.next;
        let count = self.number(1, 16)?;
        let mut parts = Vec::new();
        for _ in 0..count {
            parts.push(self.part()?);
        }
        Ok(Constraint { position, parts })
    }

    fn part(&mut self) -> Result<Part, usize> {
        let position = self.next;
        let priority = match self.number(1, 3)? {
            1 => Priority::Weak,
            2 => Priority::Medium,
            _ => Priority::Required,
        };
        let expression = self.expression(1, Within::Constraint)?;
        Ok(Part {
            position,
            priority,
            expression,
        })
    }

    fn expression(&mut self, level: usize, within: Within) -> Result<Expression, usize> {
        let position = self.next;
        if level > DEEPEST_EXPRESSION {
            return Err(position);
        }
        let term = match self.number(20, 26)? {
            20 => Term::Nil,
            21 => Term::Boolean(false),
            22 => Term::Boolean(true),
            23 => Term::Integer(self.word()?),
            24 => Term::Read(self.path()?),
            25 => Term::Apply(
                self.operator()?,
                Box::new(self.expression(level + 1, within)?),
                Box::new(self.expression(level + 1, within)?),
            ),
            _ if within == Within::Constraint => return Err(position),
            _ => Term::Identical(self.identity()?),
        };
        Ok(Expression { position, term })
    }

    fn operator(&mut self) -> Result<Operator, usize> {
        Ok(match self.number(1, 11)? {
            1 => Operator::Plus,
            2 => Operator::Minus,
            3 => Operator::Times,
            4 => Operator::Less,
            5 => Operator::AtMost,
            6 => Operator::Equal,
            7 => Operator::Unequal,
            8 => Operator::AtLeast,
            9 => Operator::More,
            10 => Operator::And,
            _ => Operator::Or,
        })
    }
}
