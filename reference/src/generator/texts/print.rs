//! Trees to tokens, and beside them the words that a reader has to find.

use super::spelling::Spelling;
use super::tree::{binding, Block, Expression, Path, Statement};
use crate::generator::numbers::Numbers;

/// A word and the number of the token it comes from; the outermost n has none.
pub type Word = (i32, Option<usize>);

/// How a text is written where the grammar leaves it open.
#[derive(Clone, Copy, Debug)]
pub struct Manner {
    /// How many expressions in a hundred are given brackets they do not need.
    pub brackets: usize,
    /// Most of such brackets around one expression.
    pub most: usize,
    /// How many required parts in a hundred go without their keyword.
    pub bare: usize,
    /// How many numbers in a hundred begin with zeros.
    pub zeros: usize,
}

impl Manner {
    pub fn any(numbers: &mut Numbers) -> Manner {
        let loose = numbers.chance(40);
        Manner {
            brackets: if loose { numbers.below(40) } else { 0 },
            most: if numbers.chance(10) { 30 } else { 2 },
            bare: numbers.below(101),
            zeros: if loose { 10 } else { 0 },
        }
    }

    /// Nothing but what is needed, for long texts.
    pub fn plain(numbers: &mut Numbers) -> Manner {
        Manner {
            brackets: 0,
            most: 1,
            bare: numbers.below(101),
            zeros: 0,
        }
    }
}

/// A program as tokens, with its words and the tokens where names come first.
#[derive(Clone, Debug, Default)]
pub struct Printed {
    pub tokens: Vec<Vec<u8>>,
    pub words: Vec<Word>,
    pub variables: Vec<usize>,
    pub labels: Vec<usize>,
}

pub fn print(
    numbers: &mut Numbers,
    spelling: &Spelling,
    manner: Manner,
    program: &Block,
) -> Printed {
    let mut printer = Printer {
        numbers,
        spelling,
        manner,
        printed: Printed::default(),
        known_variables: Vec::new(),
        known_labels: Vec::new(),
    };
    let words = printer.block(program, None);
    printer.printed.words = words;
    printer.printed
}

struct Printer<'a> {
    numbers: &'a mut Numbers,
    spelling: &'a Spelling,
    manner: Manner,
    printed: Printed,
    known_variables: Vec<usize>,
    known_labels: Vec<usize>,
}

fn small(number: usize) -> i32 {
    i32::try_from(number).unwrap_or(i32::MAX)
}

impl Printer<'_> {
    /// The number that the next token will have.
    fn next(&self) -> usize {
        self.printed.tokens.len()
    }

    fn token(&mut self, token: &str) -> usize {
        self.printed.tokens.push(token.as_bytes().to_vec());
        self.next() - 1
    }

    fn variable(&mut self, name: usize) -> Word {
        let token = self.next();
        let spelling = self.spelling.variable(name).to_vec();
        self.printed.tokens.push(spelling);
        let known = &mut self.known_variables;
        if !known.contains(&name) {
            known.push(name);
            self.printed.variables.push(token);
        }
        let number = known.iter().position(|earlier| *earlier == name);
        (small(number.unwrap_or(0)), Some(token))
    }

    fn label(&mut self, name: usize) -> Word {
        let token = self.next();
        let spelling = self.spelling.label(name).to_vec();
        self.printed.tokens.push(spelling);
        let known = &mut self.known_labels;
        if !known.contains(&name) {
            known.push(name);
            self.printed.labels.push(token);
        }
        let number = known.iter().position(|earlier| *earlier == name);
        (small(number.unwrap_or(0)), Some(token))
    }

    fn path(&mut self, path: &Path) -> Vec<Word> {
        let variable = self.variable(path.variable);
        let mut words = vec![variable, (small(path.labels.len()), variable.1)];
        for label in &path.labels {
            self.token(".");
            words.push(self.label(*label));
        }
        words
    }

    /// The statements of a block, with the token of its n.
    fn block(&mut self, block: &Block, count: Option<usize>) -> Vec<Word> {
        let mut words = vec![(small(block.len()), count)];
        for (number, statement) in block.iter().enumerate() {
            if number > 0 {
                self.token(";");
            }
            words.extend(self.statement(statement));
        }
        words
    }

    fn braces(&mut self, block: &Block) -> Vec<Word> {
        let brace = self.token("{");
        let words = self.block(block, Some(brace));
        self.token("}");
        words
    }

    fn statement(&mut self, statement: &Statement) -> Vec<Word> {
        let first = Some(self.next());
        let (word, rest) = match statement {
            Statement::Skip => {
                self.token("skip");
                (0, Vec::new())
            }
            Statement::Assign(target, expression) => {
                let mut words = self.path(target);
                self.token(":=");
                words.extend(self.expression(expression, 0));
                (1, words)
            }
            Statement::New(variable, fields) => (2, self.new_record(*variable, fields)),
            Statement::Constraint(word, parts) => (*word, self.constraint(*word, parts)),
            Statement::Identity(word, left, right) => {
                self.token(if *word == 5 { "always" } else { "once" });
                let mut words = self.path(left);
                self.token("==");
                words.extend(self.path(right));
                (*word, words)
            }
            Statement::If(test, yes, no) => (7, self.branch(test, yes, no)),
            Statement::While(test, body) => {
                self.token("while");
                let mut words = self.expression(test, 0);
                self.token("do");
                words.extend(self.braces(body));
                (8, words)
            }
        };
        [vec![(word, first)], rest].concat()
    }

    fn branch(&mut self, test: &Expression, yes: &Block, no: &Block) -> Vec<Word> {
        self.token("if");
        let mut words = self.expression(test, 0);
        self.token("then");
        words.extend(self.braces(yes));
        self.token("else");
        words.extend(self.braces(no));
        words
    }

    fn new_record(&mut self, variable: usize, fields: &[(usize, Expression)]) -> Vec<Word> {
        let variable = self.variable(variable);
        self.token(":=");
        self.token("new");
        let brace = self.token("{");
        let mut words = vec![variable, (small(fields.len()), Some(brace))];
        for (number, (label, expression)) in fields.iter().enumerate() {
            if number > 0 {
                self.token(",");
            }
            words.push(self.label(*label));
            self.token(":");
            words.extend(self.expression(expression, 0));
        }
        self.token("}");
        words
    }

    fn constraint(&mut self, word: i32, parts: &[(i32, Expression)]) -> Vec<Word> {
        self.token(if word == 3 { "always" } else { "once" });
        let mut words = vec![(small(parts.len()), Some(self.next()))];
        for (number, (priority, expression)) in parts.iter().enumerate() {
            if number > 0 {
                self.token("/\\");
            }
            words.push((*priority, Some(self.next())));
            match priority {
                1 => _ = self.token("weak"),
                2 => _ = self.token("medium"),
                _ if self.numbers.chance(self.manner.bare) => {}
                _ => _ = self.token("required"),
            }
            words.extend(self.expression(expression, 0));
        }
        words
    }

    /// An expression where nothing looser than so much may stand bare.
    fn expression(&mut self, expression: &Expression, least: i32) -> Vec<Word> {
        let mut brackets = usize::from(binding(expression) < least);
        if self.numbers.chance(self.manner.brackets) {
            brackets += 1 + self.numbers.below(self.manner.most);
        }
        for _ in 0..brackets {
            self.token("(");
        }
        let words = self.bare(expression);
        for _ in 0..brackets {
            self.token(")");
        }
        words
    }

    fn bare(&mut self, expression: &Expression) -> Vec<Word> {
        match expression {
            Expression::Nil => vec![(20, Some(self.token("nil")))],
            Expression::False => vec![(21, Some(self.token("false")))],
            Expression::True => vec![(22, Some(self.token("true")))],
            Expression::Integer(number) => self.number(*number),
            Expression::Read(path) => {
                let words = self.path(path);
                let variable = words.first().and_then(|(_, token)| *token);
                [vec![(24, variable)], words].concat()
            }
            Expression::Apply(operator, left, right) => {
                let level = binding(expression);
                let left = self.expression(left, level);
                let token = Some(self.token(symbol(*operator)));
                let right = self.expression(right, level + 1);
                [vec![(25, token), (*operator, token)], left, right].concat()
            }
            Expression::Identical(left, right) => {
                let left = self.path(left);
                let token = Some(self.token("=="));
                [vec![(26, token)], left, self.path(right)].concat()
            }
        }
    }

    fn number(&mut self, number: i64) -> Vec<Word> {
        let zeros = match self.numbers.chance(self.manner.zeros) {
            true => "0".repeat(1 + self.numbers.below(12)),
            false => String::new(),
        };
        let minus = number < 0 || (number == 0 && !zeros.is_empty());
        let sign = if minus { "-" } else { "" };
        let token = Some(self.token(&format!("{sign}{zeros}{}", number.unsigned_abs())));
        let word = i32::try_from(number).unwrap_or(0);
        vec![(23, token), (word, token)]
    }
}

fn symbol(operator: i32) -> &'static str {
    match operator {
        1 => "+",
        2 => "-",
        3 => "*",
        4 => "<",
        5 => "<=",
        6 => "=",
        7 => "!=",
        8 => ">=",
        9 => ">",
        10 => "and",
        _ => "or",
    }
}
