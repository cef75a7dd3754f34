//! The words of programs, as document 01 writes them.

pub type Words = Vec<i32>;

pub fn block(statements: &[Words]) -> Words {
    let mut words = vec![statements.len() as i32];
    words.extend(statements.iter().flatten());
    words
}

pub fn skip() -> Words {
    vec![0]
}

/// The target is the expression that reads it.
pub fn assign(target: &[i32], value: Words) -> Words {
    joined(&[&[1], &entry(target, value)])
}

/// A list's entry, where the value is a literal: an assignment without its
/// first word.
pub fn entry(target: &[i32], value: Words) -> Words {
    joined(&[&target[1..], &value])
}

/// A record of labels and integers.
pub fn new(own: i32, fields: &[(i32, i32)]) -> Words {
    let mut words = vec![2, own, fields.len() as i32];
    for (label, number) in fields {
        words.extend([*label, 23, *number]);
    }
    words
}

/// The parts with their priorities: 1 weak, 2 medium, 3 required.
pub fn always(parts: &[(i32, Words)]) -> Words {
    let mut words = vec![3, parts.len() as i32];
    for (priority, part) in parts {
        words.push(*priority);
        words.extend(part);
    }
    words
}

/// Always one variable == another.
pub fn always_same(one: i32, other: i32) -> Words {
    vec![5, one, 0, other, 0]
}

/// Always a variable's field == the variable.
pub fn always_same_field(own: i32, label: i32) -> Words {
    vec![5, own, 1, label, own, 0]
}

pub fn choose(test: Words, yes: &[Words], no: &[Words]) -> Words {
    joined(&[&[7], &test, &block(yes), &block(no)])
}

pub fn repeat(test: Words, body: &[Words]) -> Words {
    joined(&[&[8], &test, &block(body)])
}

pub fn falsity() -> Words {
    vec![21]
}

pub fn truth() -> Words {
    vec![22]
}

pub fn integer(number: i32) -> Words {
    vec![23, number]
}

pub fn variable(own: i32) -> Words {
    vec![24, own, 0]
}

pub fn field(own: i32, label: i32) -> Words {
    vec![24, own, 1, label]
}

pub fn path(own: i32, labels: &[i32]) -> Words {
    joined(&[&[24, own, labels.len() as i32], labels])
}

pub fn operator(number: i32, left: Words, right: Words) -> Words {
    joined(&[&[25, number], &left, &right])
}

/// A statement of one sort after another, each some twenty words long.
pub fn statement(turn: i32) -> Words {
    let sum = operator(
        1,
        field(turn % 64, 1),
        operator(3, integer(4), variable(turn % 50)),
    );
    let less = operator(4, variable(turn % 60), integer(turn));
    match turn % 5 {
        0 => assign(&field(turn % 64, 7), operator(2, sum, integer(1))),
        1 => always(&[(3, less), (1, operator(6, sum, integer(turn)))]),
        2 => choose(less, &[assign(&variable(1), sum)], &[skip()]),
        3 => repeat(less, &[skip(), new(5, &[(0, 1), (1, 2), (2, 3)])]),
        _ => joined(&[
            &[4, 1, 2],
            &operator(10, less, operator(7, sum, integer(0))),
        ]),
    }
}

fn joined(pieces: &[&[i32]]) -> Words {
    pieces.concat()
}
