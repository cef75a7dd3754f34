//! Programs with one limit at its edge or one past it.

use super::grow::{Grower, Supply, Within};
use super::tree::{Block, Expression, Path, Statement};
use crate::generator::numbers::Numbers;

/// Numbers about the ends of 32 bits.
const NUMBERS: [i64; 9] = [
    2_147_483_647,
    -2_147_483_648,
    2_147_483_648,
    -2_147_483_649,
    -2_147_483_647,
    4_294_967_296,
    -4_294_967_295,
    9_999_999_999,
    9_223_372_036_854_775_807,
];

/// A program, and whether it is within every limit but those of words and size.
pub struct Edge {
    pub program: Block,
    pub fits: bool,
}

/// A program with one limit of trees met or passed, or with something that
/// the grammar has elsewhere only.
pub fn tree(numbers: &mut Numbers) -> Edge {
    let past = numbers.below(2);
    let grower = &mut Grower::new(numbers);
    let statement = match grower.numbers.below(9) {
        0 => {
            let program = statements(grower, 255 + past);
            return edge(program, past == 0);
        }
        1 => {
            let program = nested(grower, 8 + past);
            return edge(program, past == 0);
        }
        2 => return number(grower),
        3 => grower.constraint(16 + past),
        4 => fields(grower, 8 + past),
        5 => long_path(grower, 7 + past),
        6 => deep(grower, 16 + past),
        7 => twice(grower, past),
        _ => identity_inside(grower, past),
    };
    edge(around(grower, statement), past == 0)
}

fn edge(program: Block, fits: bool) -> Edge {
    Edge { program, fits }
}

/// A statement among a few others, in the outermost block or an inner one.
fn around(grower: &mut Grower, statement: Statement) -> Block {
    let mut block = vec![statement];
    for _ in 0..grower.numbers.below(3) {
        let place = grower.numbers.below(block.len() + 1);
        block.insert(place, grower.statement(2));
    }
    match grower.numbers.below(5) {
        0 => vec![Statement::While(Expression::True, block)],
        1 => vec![Statement::If(Expression::read(0), Vec::new(), block)],
        2 => vec![Statement::If(Expression::read(0), block, Vec::new())],
        _ => block,
    }
}

fn small_statement(grower: &mut Grower) -> Statement {
    match grower.numbers.below(12) {
        0 => Statement::Assign(Path::variable(grower.variable()), Expression::Nil),
        1 => Statement::Constraint(3, vec![(3, Expression::read(grower.variable()))]),
        2 => Statement::While(Expression::False, Vec::new()),
        3 => Statement::If(Expression::True, Vec::new(), Vec::new()),
        4 => Statement::New(grower.variable(), Vec::new()),
        _ => Statement::Skip,
    }
}

fn statements(grower: &mut Grower, count: usize) -> Block {
    let block: Block = (0..count).map(|_| small_statement(grower)).collect();
    match grower.numbers.below(4) {
        0 => vec![Statement::While(Expression::True, block)],
        1 => vec![
            Statement::If(Expression::False, Vec::new(), block),
            Statement::Skip,
        ],
        _ => block,
    }
}

fn fields(grower: &mut Grower, count: usize) -> Statement {
    let variable = grower.variable();
    let start = grower.numbers.below(9);
    let fields = (0..count).map(|n| (start + n, grower.any_expression(Within::Statement)));
    Statement::New(variable, fields.collect())
}

/// A record with labels that differ, or with a label twice.
fn twice(grower: &mut Grower, past: usize) -> Statement {
    let count = 2 + grower.numbers.below(6);
    let earlier = grower.numbers.below(count);
    let last = if past == 1 { earlier } else { count };
    let labels = (0..count).chain([last]);
    let fields = labels.map(|label| (label, grower.any_expression(Within::Statement)));
    Statement::New(0, fields.collect())
}

/// `==` in an expression outside C, or inside it.
fn identity_inside(grower: &mut Grower, past: usize) -> Statement {
    let identical = Expression::Identical(grower.path(), grower.path());
    let operator = grower.operator();
    let expression = match grower.numbers.below(3) {
        0 => identical,
        1 => Expression::apply(operator, Expression::Nil, identical),
        _ => Expression::apply(operator, identical, Expression::read(0)),
    };
    if past == 0 {
        return Statement::Assign(Path::variable(0), expression);
    }
    let part = (grower.numbers.between(1, 3), expression);
    match grower.numbers.below(3) {
        0 => Statement::Constraint(3, vec![part]),
        1 => Statement::Constraint(4, vec![part, (3, Expression::True)]),
        _ => Statement::Constraint(4, vec![(3, Expression::read(0)), part]),
    }
}

fn long_path(grower: &mut Grower, labels: usize) -> Statement {
    let long = grower.path_of(labels);
    let short = grower.path();
    match grower.numbers.below(7) {
        0 => Statement::Assign(long, Expression::Nil),
        1 => Statement::Assign(short, Expression::Read(long)),
        2 => Statement::Assign(short, Expression::Identical(long, Path::variable(0))),
        3 => Statement::Assign(short, Expression::Identical(Path::variable(0), long)),
        4 => Statement::Identity(5, long, short),
        5 => Statement::Identity(6, short, long),
        _ => Statement::Constraint(4, vec![(3, Expression::Read(long))]),
    }
}

/// Blocks in blocks, so many with the outermost.
fn nested(grower: &mut Grower, depth: usize) -> Block {
    let count = grower.numbers.below(2);
    let mut block = grower.block(count, 0);
    for _ in 1..depth {
        let test = Expression::read(grower.variable());
        let outer = match grower.numbers.below(3) {
            0 => Statement::While(test, block),
            1 => Statement::If(test, block, Vec::new()),
            _ => Statement::If(test, Vec::new(), block),
        };
        block = vec![outer];
        if grower.numbers.chance(20) {
            block.insert(0, Statement::Skip);
        }
    }
    block
}

fn deep(grower: &mut Grower, levels: usize) -> Statement {
    match grower.numbers.below(5) {
        0 => Statement::Constraint(
            grower.numbers.between(3, 4),
            vec![(3, grower.spine(levels, Within::Constraint))],
        ),
        1 => Statement::New(0, vec![(0, grower.spine(levels, Within::Statement))]),
        2 => Statement::While(grower.spine(levels, Within::Statement), Vec::new()),
        3 => {
            let operator = grower.operator();
            let sum = (1..levels).fold(Expression::Integer(1), |sum, _| {
                Expression::apply(operator, sum, Expression::Integer(1))
            });
            Statement::Assign(Path::variable(0), sum)
        }
        _ => {
            let target = grower.path();
            Statement::Assign(target, grower.spine(levels, Within::Statement))
        }
    }
}

fn number(grower: &mut Grower) -> Edge {
    let number = grower.numbers.pick(&NUMBERS).unwrap_or(0);
    let literal = Expression::Integer(number);
    let expression = match grower.numbers.below(4) {
        0 => literal,
        1 => Expression::apply(2, grower.leaf(Within::Constraint), literal),
        2 => Expression::apply(grower.operator(), literal, Expression::Integer(0)),
        _ => {
            let inner = Expression::apply(1, Expression::read(0), literal);
            Expression::apply(2, Expression::Integer(-1), inner)
        }
    };
    let statement = match grower.numbers.below(3) {
        0 => Statement::Constraint(4, vec![(grower.numbers.between(1, 3), expression)]),
        1 => Statement::New(0, vec![(0, Expression::Nil), (1, expression)]),
        _ => Statement::Assign(Path::variable(0), expression),
    };
    edge(around(grower, statement), i32::try_from(number).is_ok())
}

/// As many names as there may be, or one more, in all their roles.
pub fn names(numbers: &mut Numbers) -> Edge {
    let past = numbers.below(4);
    let mut grower = Grower::new(numbers);
    grower.fresh = 20 + grower.numbers.below(75);
    grower.variables = Supply::of(if past & 1 == 0 { 64 } else { 65 });
    grower.labels = Supply::of(if past < 2 { 32 } else { 33 });
    let mut program = Vec::new();
    let spent = |grower: &Grower| grower.variables.is_spent() && grower.labels.is_spent();
    while program.len() < 200 && !spent(&grower) {
        program.push(grower.statement(1));
    }
    let fits = grower.variables.used < 65 && grower.labels.used < 33;
    edge(program, fits)
}

/// Two limits that are passed at one token: names, and one of trees.
pub fn meeting(numbers: &mut Numbers) -> Block {
    let past = numbers.chance(70);
    let (variable, label) = if past { (64, 32) } else { (63, 31) };
    let assigned = |n| Statement::Assign(Path::variable(n), Expression::Nil);
    let labelled = |n| Statement::Assign(chain(&[n]), Expression::Nil);
    let mut program: Block = match numbers.chance(50) {
        true => (0..64).map(assigned).chain((1..32).map(labelled)).collect(),
        false => (0..32).map(labelled).chain((1..64).map(assigned)).collect(),
    };
    program.insert(0, labelled(0));
    let last = match numbers.below(4) {
        0 => {
            let more = 255 - program.len();
            program.extend(vec![Statement::Skip; more]);
            assigned(variable)
        }
        1 => {
            let mut parts = vec![(3, Expression::True); 16];
            parts.push((3, Expression::read(variable)));
            Statement::Constraint(3, parts)
        }
        2 => {
            let last = if numbers.chance(30) { 3 } else { label };
            let labels = (0..8).chain([last]);
            Statement::New(0, labels.map(|label| (label, Expression::Nil)).collect())
        }
        _ => Statement::Assign(chain(&[0, 1, 2, 3, 4, 5, 6, label]), Expression::True),
    };
    program.push(last);
    program
}

fn chain(labels: &[usize]) -> Path {
    Path {
        variable: 0,
        labels: labels.to_vec(),
    }
}
