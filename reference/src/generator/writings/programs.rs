//! Programs to write, most of them with numbers by first appearance.

use crate::generator::damage::{random_words, spoil_list};
use crate::generator::numbers::Numbers;
use crate::generator::texts::grow::{Grower, Within};
use crate::generator::texts::print::{print, Manner};
use crate::generator::texts::spelling::Spelling;
use crate::generator::texts::tree::{Block, Expression, Path, Statement};
use crate::generator::texts::{self, edges, sizes};
use crate::program::Program;
use crate::writer::{appearances, Appearance, Sort};
use std::collections::BTreeMap;

/// The words of a tree, whose numbers are then by first appearance.
fn words(numbers: &mut Numbers, program: &Block) -> Vec<i32> {
    let manner = Manner::plain(numbers);
    let printed = print(numbers, &Spelling::none(), manner, program);
    printed.words.iter().map(|(word, _)| *word).collect()
}

/// A program that reads, of any sort.
pub fn any(numbers: &mut Numbers) -> Vec<i32> {
    let tree = match numbers.below(20) {
        0..=6 => return small(numbers),
        7..=9 => fitting(numbers, edges::tree),
        10 => fitting(numbers, edges::names),
        11..=13 => deep(numbers),
        14 | 15 => pairs(numbers),
        16 | 17 => {
            let depth = 1 + numbers.below(8);
            nested(&mut Grower::new(numbers), depth)
        }
        18 => wide(numbers),
        _ => return run(numbers),
    };
    words(numbers, &tree)
}

pub fn small(numbers: &mut Numbers) -> Vec<i32> {
    let tree = texts::program(numbers);
    words(numbers, &tree)
}

/// A program at a limit that it does not pass.
fn fitting(numbers: &mut Numbers, edge: fn(&mut Numbers) -> edges::Edge) -> Block {
    loop {
        let edge = edge(numbers);
        if edge.fits {
            return edge.program;
        }
    }
}

/// An expression where one may stand outside C, or inside.
fn holding(
    grower: &mut Grower,
    expression: impl Fn(&mut Grower, Within) -> Expression,
) -> Statement {
    match grower.numbers.below(6) {
        0 => {
            let count = 1 + grower.numbers.below(3);
            let part = |grower: &mut Grower| {
                let priority = grower.numbers.between(1, 3);
                (priority, expression(grower, Within::Constraint))
            };
            let parts = (0..count).map(|_| part(grower)).collect();
            Statement::Constraint(grower.numbers.between(3, 4), parts)
        }
        1 => Statement::New(0, vec![(0, expression(grower, Within::Statement))]),
        2 => Statement::While(expression(grower, Within::Statement), Vec::new()),
        3 => {
            let test = expression(grower, Within::Statement);
            Statement::If(test, Vec::new(), vec![Statement::Skip])
        }
        _ => Statement::Assign(Path::variable(0), expression(grower, Within::Statement)),
    }
}

/// Operators on many levels, on either side, and extreme numbers below them.
fn deep(numbers: &mut Numbers) -> Block {
    numbers.extremes = 20;
    let mut grower = Grower::new(numbers);
    let count = 1 + grower.numbers.below(2);
    let statement = |grower: &mut Grower| {
        holding(grower, |grower, within| match grower.numbers.below(3) {
            0 => grower.expression(5, within),
            _ => {
                let levels = 2 + grower.numbers.below(15);
                grower.spine(levels, within)
            }
        })
    };
    (0..count).map(|_| statement(&mut grower)).collect()
}

/// An operator over two others.
fn pairs(numbers: &mut Numbers) -> Block {
    let mut grower = Grower::new(numbers);
    let pair = |grower: &mut Grower, within| {
        let operator = grower.operator();
        let left = grower.leaf(within);
        Expression::apply(operator, left, grower.leaf(within))
    };
    let over = |grower: &mut Grower, within| {
        let operator = grower.operator();
        let left = pair(grower, within);
        Expression::apply(operator, left, pair(grower, within))
    };
    let count = 1 + grower.numbers.below(4);
    (0..count).map(|_| holding(&mut grower, over)).collect()
}

/// Blocks in blocks, so many with the outermost, empty ones among them.
fn nested(grower: &mut Grower, depth: usize) -> Block {
    let count = grower.numbers.below(2);
    let mut block = grower.block(count, 0);
    if depth > 1 {
        let test = grower.any_expression(Within::Statement);
        let inner = nested(grower, depth - 1);
        let count = grower.numbers.below(2);
        let other = grower.block(count, 0);
        let statement = match grower.numbers.below(3) {
            0 => Statement::While(test, inner),
            1 => Statement::If(test, inner, other),
            _ => Statement::If(test, other, inner),
        };
        let place = grower.numbers.below(block.len() + 1);
        block.insert(place, statement);
    }
    block
}

/// Records with any number of fields, and constraints of many parts.
fn wide(numbers: &mut Numbers) -> Block {
    let mut grower = Grower::new(numbers);
    grower.labels.all = 8;
    let count = 1 + grower.numbers.below(3);
    let statement = |grower: &mut Grower| match grower.numbers.below(3) {
        0 => {
            let parts = 1 + grower.numbers.below(16);
            grower.constraint(parts)
        }
        _ => {
            let fields = grower.numbers.below(9);
            grower.new_record(fields)
        }
    };
    (0..count).map(|_| statement(&mut grower)).collect()
}

/// The program of a sheet, with its own numbers now and then.
fn run(numbers: &mut Numbers) -> Vec<i32> {
    let program = crate::generator::sheet(numbers.next(), 0).program;
    match numbers.chance(85) {
        true => in_order(&program).unwrap_or(program),
        false => program,
    }
}

/// The same program with variables and labels numbered by first appearance,
/// if it reads.
pub fn in_order(program: &[i32]) -> Option<Vec<i32>> {
    let tree = Program::decode(program).ok()?;
    let (mut variables, mut labels) = (BTreeMap::new(), BTreeMap::new());
    Some(renumbered(program, &appearances(&tree), |name| {
        let known = match name.sort {
            Sort::Variable => &mut variables,
            Sort::Label => &mut labels,
        };
        let next = known.len();
        *known.entry(name.number).or_insert(next)
    }))
}

fn renumbered(
    program: &[i32],
    names: &[Appearance],
    mut number: impl FnMut(&Appearance) -> usize,
) -> Vec<i32> {
    let mut words = program.to_vec();
    for name in names {
        if let Some(word) = words.get_mut(name.word) {
            *word = i32::try_from(number(name)).unwrap_or(0);
        }
    }
    words
}

/// A program with two numbers exchanged, with a gap, or with a number changed.
pub fn out_of_order(numbers: &mut Numbers) -> Vec<i32> {
    let program = match numbers.chance(70) {
        true => small(numbers),
        false => any(numbers),
    };
    let Ok(tree) = Program::decode(&program) else {
        return program;
    };
    let names = appearances(&tree);
    let Some(chosen) = numbers.pick(&names) else {
        return program;
    };
    let of_sort: Vec<Appearance> = names
        .iter()
        .filter(|n| n.sort == chosen.sort)
        .copied()
        .collect();
    let other = numbers.pick(&of_sort).unwrap_or(chosen).number;
    let most = if chosen.sort == Sort::Variable {
        63
    } else {
        31
    };
    let way = numbers.below(3);
    let changed = numbers.below(most + 1);
    renumbered(&program, &names, |name| match way {
        _ if name.sort != chosen.sort => name.number,
        0 if name.number == chosen.number => other,
        0 if name.number == other => chosen.number,
        1 if name.number >= chosen.number => (name.number + 1).min(most),
        2 if name.word == chosen.word => changed,
        _ => name.number,
    })
}

/// A program that does not read, mostly.
pub fn unfit(numbers: &mut Numbers) -> Vec<i32> {
    match numbers.below(20) {
        0 => random_words(numbers).program,
        1 => {
            let tree = sizes::words(numbers, &Spelling::none());
            words(numbers, &tree)
        }
        2..=7 => {
            let tree = edges::tree(numbers).program;
            words(numbers, &tree)
        }
        8 => Vec::new(),
        _ => {
            let mut program = small(numbers);
            for _ in 0..=numbers.below(3) / 2 {
                spoil_list(numbers, &mut program);
            }
            program
        }
    }
}
