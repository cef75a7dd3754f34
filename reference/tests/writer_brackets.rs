//! Brackets where reading would give other words without them, and nowhere
//! else.

mod common;

use common::writer::{expression, writes};
use reference::generator::writings::case;
use reference::text::read;

const SYMBOLS: [&str; 11] = ["+", "-", "*", "<", "<=", "=", "!=", ">=", ">", "and", "or"];

const COMPARISONS: &str = "< <= = != >= >";

/// The operators that need brackets on the left of one, and on its right.
fn bracketed(outer: &str) -> (String, String) {
    let (left, right) = match outer {
        "*" => ("+ - C and or", "* + - C and or"),
        "+" | "-" => ("C and or", "+ - C and or"),
        "and" => ("or", "and or"),
        "or" => ("", "or"),
        _ => ("and or", "C and or"),
    };
    let spelled = |list: &str| list.replace('C', COMPARISONS);
    (spelled(left), spelled(right))
}

fn has(list: &str, symbol: &str) -> bool {
    list.split(' ').any(|own| own == symbol)
}

#[test]
fn every_operator_beside_every_other() {
    for (outer, number) in SYMBOLS.iter().zip(1..) {
        let (left, right) = bracketed(outer);
        for (inner, below) in SYMBOLS.iter().zip(1..) {
            let text = match has(&left, inner) {
                true => format!("(1 {inner} 2) {outer} 3"),
                false => format!("1 {inner} 2 {outer} 3"),
            };
            expression(&[25, number, 25, below, 23, 1, 23, 2, 23, 3], &text);
            let text = match has(&right, inner) {
                true => format!("1 {outer} (2 {inner} 3)"),
                false => format!("1 {outer} 2 {inner} 3"),
            };
            expression(&[25, number, 23, 1, 25, below, 23, 2, 23, 3], &text);
        }
    }
}

#[test]
fn sums_and_products() {
    expression(&[25, 1, 25, 1, 23, 1, 23, 2, 23, 3], "1 + 2 + 3");
    expression(&[25, 1, 23, 1, 25, 1, 23, 2, 23, 3], "1 + (2 + 3)");
    expression(&[25, 2, 25, 1, 23, 1, 23, 2, 23, 3], "1 + 2 - 3");
    expression(&[25, 2, 23, 1, 25, 1, 23, 2, 23, 3], "1 - (2 + 3)");
    expression(&[25, 3, 25, 1, 23, 1, 23, 2, 23, 3], "(1 + 2) * 3");
    expression(&[25, 3, 23, 1, 25, 1, 23, 2, 23, 3], "1 * (2 + 3)");
    expression(&[25, 1, 25, 3, 23, 1, 23, 2, 23, 3], "1 * 2 + 3");
    expression(&[25, 1, 23, 1, 25, 3, 23, 2, 23, 3], "1 + 2 * 3");
    expression(&[25, 3, 25, 3, 23, 1, 23, 2, 23, 3], "1 * 2 * 3");
    expression(&[25, 3, 23, 1, 25, 3, 23, 2, 23, 3], "1 * (2 * 3)");
    expression(
        &[25, 3, 25, 2, 23, 1, 23, -2, 25, 2, 23, -3, 23, 4],
        "(1 - -2) * (-3 - 4)",
    );
}

#[test]
fn comparisons_and_truths() {
    expression(&[25, 4, 25, 5, 23, 1, 23, 2, 23, 3], "1 <= 2 < 3");
    expression(&[25, 6, 23, 1, 25, 7, 23, 2, 23, 3], "1 = (2 != 3)");
    expression(&[25, 9, 25, 1, 23, 1, 23, 2, 23, 3], "1 + 2 > 3");
    expression(&[25, 8, 23, 1, 25, 2, 23, 2, 23, 3], "1 >= 2 - 3");
    expression(&[25, 10, 25, 11, 21, 22, 20], "(false or true) and nil");
    expression(&[25, 11, 25, 10, 21, 22, 20], "false and true or nil");
    expression(&[25, 11, 21, 25, 11, 22, 20], "false or (true or nil)");
    expression(&[25, 10, 21, 25, 10, 22, 20], "false and (true and nil)");
    expression(&[25, 11, 21, 25, 10, 22, 20], "false or true and nil");
    expression(
        &[25, 6, 25, 10, 21, 22, 25, 11, 20, 21],
        "(false and true) = (nil or false)",
    );
}

/// `==` makes one operand, on either side of everything.
#[test]
fn identity_is_never_bracketed() {
    for (symbol, number) in SYMBOLS.iter().zip(1..) {
        expression(
            &[25, number, 26, 1, 0, 2, 1, 0, 26, 1, 0, 1, 0],
            &format!("v1 == v2.f0 {symbol} v1 == v1"),
        );
    }
    expression(
        &[25, 3, 23, 2, 25, 1, 26, 1, 0, 1, 0, 22],
        "2 * (v1 == v1 + true)",
    );
}

/// Nothing around a whole expression, wherever it stands.
#[test]
fn whole_expressions_are_bare() {
    let or = [25, 11, 21, 22];
    let of = |before: &[i32], after: &[i32]| [before, &or, after].concat();
    writes(&of(&[1, 2, 0, 1, 0], &[]), "v0 := new {f0: false or true}");
    writes(&of(&[1, 7], &[0, 0]), "if false or true then {} else {}");
    writes(&of(&[1, 8], &[0]), "while false or true do {}");
    writes(
        &[of(&[1, 4, 2, 1], &[]), of(&[2], &[])].concat(),
        "once weak false or true /\\ medium false or true",
    );
}

#[test]
fn many_levels() {
    let left = [[25, 2].repeat(15), [23, 1].repeat(16)].concat();
    expression(&left, &vec!["1"; 16].join(" - "));
    let right = [[25, 2, 23, 1].repeat(15), vec![23, 1]].concat();
    let text = format!("{}1 - 1{}", "1 - (".repeat(14), ")".repeat(14));
    expression(&right, &text);
}

/// The places of each pair of brackets.
fn brackets(text: &[u8]) -> Vec<(usize, usize)> {
    let (mut open, mut pairs) = (Vec::new(), Vec::new());
    for (place, byte) in text.iter().enumerate() {
        match byte {
            b'(' => open.push(place),
            b')' => pairs.push((open.pop().expect("an open bracket"), place)),
            _ => {}
        }
    }
    pairs
}

/// Without any one pair the text is refused, or read to other words.
#[test]
fn no_pair_can_be_left_out() {
    let mut tried = 0;
    for index in 0..4000 {
        let case = case(3, index);
        let (answer, text) = case.answer();
        let text = &text[..answer.bytes];
        if text.len() > 3000 {
            continue;
        }
        for (open, close) in brackets(text).into_iter().take(6) {
            let without = [&text[..open], &text[open + 1..close], &text[close + 1..]].concat();
            assert_ne!(read(&without).words, case.program);
            tried += 1;
        }
    }
    assert!(tried > 1000, "only {tried}");
}
