//! The grammar of a text: statements, blocks, constraints and expressions.

mod common;

use common::texts::{accepted, expression, reads, refused};
use reference::text::read;

#[test]
fn an_empty_text() {
    reads("", &[0]);
    reads(" \n\t\r ", &[0]);
}

#[test]
fn statements_are_parted() {
    reads("skip", &[1, 0]);
    reads("skip;skip ; skip", &[3, 0, 0, 0]);
    refused(20, "skip;|");
    refused(20, "skip; |");
    refused(20, "|;skip");
    refused(20, "skip;|;skip");
    refused(20, "skip |skip");
    refused(20, "skip |x := 1");
    refused(20, "x := 1 |y := 2");
    refused(20, "skip |, skip");
    refused(20, "|{skip}");
    refused(20, "skip|}");
    refused(20, "|}");
    refused(20, "|)");
    refused(20, "while true do {skip;|}");
    refused(20, "while true do {|;}");
    refused(20, "while true do {} |skip");
    reads("while true do {}; skip", &[2, 8, 22, 0, 0]);
}

#[test]
fn every_form_of_statement() {
    reads("x := 1", &[1, 1, 0, 0, 23, 1]);
    reads("x.a.b := 1", &[1, 1, 0, 2, 0, 1, 23, 1]);
    reads("x := new {}", &[1, 2, 0, 0]);
    reads("x := new {a: 1, b: nil}", &[1, 2, 0, 2, 0, 23, 1, 1, 20]);
    reads("always true", &[1, 3, 1, 3, 22]);
    reads("once true", &[1, 4, 1, 3, 22]);
    reads("always x == y", &[1, 5, 0, 0, 1, 0]);
    reads("once x.a == y.b.a", &[1, 6, 0, 1, 0, 1, 2, 1, 0]);
    reads("if x then {skip} else {}", &[1, 7, 24, 0, 0, 1, 0, 0]);
    reads("if x then {} else {skip}", &[1, 7, 24, 0, 0, 0, 1, 0]);
    reads("while x do {skip; skip}", &[1, 8, 24, 0, 0, 2, 0, 0]);
}

#[test]
fn the_example_of_the_request() {
    let text = "x := new {bytes: 64, samples: 16}; always required x.bytes = 4 * x.samples";
    let p = &common::P[..27];
    reads(text, &[&[2], &p[1..]].concat());
    let whole = format!("{text}; x.samples := 32");
    reads(&whole, &common::P);
}

#[test]
fn targets() {
    refused(20, "x|");
    refused(20, "x |= 1");
    refused(20, "x |== y");
    refused(20, "x |: 1");
    refused(20, "|(x) := 1");
    refused(20, "|1 := x");
    refused(20, "|nil := x");
    refused(20, "x |+ 1 := 2");
    refused(20, "x.|1 := 2");
    refused(20, "x.|(a) := 2");
    refused(20, "x.a|");
    refused(20, "x.a.|:= 1");
    refused(20, "x := |:= 1");
    refused(20, "x := y |:= 1");
    reads("x . a . b := 1", &[1, 1, 0, 2, 0, 1, 23, 1]);
}

#[test]
fn new_records() {
    refused(20, "x.a := |new {}");
    refused(20, "x.a.b := |new {}");
    refused(20, "x := (|new {})");
    refused(20, "x := 1 + |new {}");
    refused(20, "x := new {a: |new {}}");
    refused(20, "|new {}");
    refused(20, "x := |{}");
    refused(20, "x := new |1");
    refused(20, "x := new|");
    refused(20, "x := new {a: 1,|}");
    refused(20, "x := new {|,}");
    refused(20, "x := new {|, a: 1}");
    refused(20, "x := new {a: 1,|, b: 2}");
    refused(20, "x := new {a: 1 |b: 2}");
    refused(20, "x := new {a: 1|; b: 2}");
    refused(20, "x := new {a|}");
    refused(20, "x := new {a: |}");
    refused(20, "x := new {a |:= 1}");
    refused(20, "x := new {a|.b: 1}");
    refused(20, "x := new {|1: 1}");
    refused(20, "x := new {a: 1|");
    refused(20, "x := new {} |+ 1");
    refused(20, "x := new {} |{}");
    let fields = [1, 2, 0, 2, 0, 26, 0, 0, 1, 0, 1, 25, 1, 23, 1, 23, 2];
    reads("x := new {a: x == y, b: 1 + 2}", &fields);
}

#[test]
fn a_label_twice_in_new() {
    refused(20, "x := new {a: 1, |a: 2}");
    refused(20, "x := new {a: 1, b: 2, c: 3, |b: 4}");
    refused(20, "x := new {a: 1, |a");
    reads(
        "x := new {a: 1}; x := new {a: 1}",
        &[2, 2, 0, 1, 0, 23, 1, 2, 0, 1, 0, 23, 1],
    );
    reads(
        "x := new {a: x.a, b: x.a.a}",
        &[1, 2, 0, 2, 0, 24, 0, 1, 0, 1, 24, 0, 2, 0, 0],
    );
    reads("x.a.a := new0", &[1, 1, 0, 2, 0, 0, 24, 1, 0]);
    reads("x := new {x: 1}", &[1, 2, 0, 1, 0, 23, 1]);
}

#[test]
fn branches_and_loops() {
    refused(20, "if true then {}|");
    refused(20, "if true then {}|; skip");
    refused(20, "if true then |skip else skip");
    refused(20, "if true then {} else |skip");
    refused(20, "if true |{} else {}");
    refused(20, "if true |do {}");
    refused(20, "if |then {} else {}");
    refused(20, "if true then {} |then {}");
    refused(20, "if true then {skip|");
    refused(20, "while true |then {}");
    refused(20, "while true do |skip");
    refused(20, "while |do {}");
    refused(20, "while true do {} |else {}");
    refused(20, "while |always");
    refused(20, "|else {}");
    reads(
        "if a then {while b do {}} else {if c then {} else {}}",
        &[1, 7, 24, 0, 0, 1, 8, 24, 1, 0, 0, 1, 7, 24, 2, 0, 0, 0],
    );
}

#[test]
fn parts_of_a_constraint() {
    reads(
        "always weak x = 1 /\\ y /\\ medium true /\\ required nil",
        &[
            1, 3, 4, 1, 25, 6, 24, 0, 0, 23, 1, 3, 24, 1, 0, 2, 22, 3, 20,
        ],
    );
    refused(20, "always|");
    refused(20, "always |; skip");
    refused(20, "always weak|");
    refused(20, "always weak |weak x");
    refused(20, "always x |weak y");
    refused(20, "always x |/ y");
    refused(20, "always x /\\|");
    refused(20, "always x /\\ |/\\ y");
    refused(20, "always |/\\ x");
    refused(20, "always (x |/\\ y)");
    refused(20, "always (|weak x)");
    refused(20, "always |once x");
    refused(20, "always x |:= 1");
    refused(20, "x := 1 |/\\ 2");
    refused(20, "|weak x");
    refused(20, "x := |weak y");
    refused(20, "always x |, y");
    refused(20, "always |new {}");
}

#[test]
fn identities() {
    reads(
        "always x == y; once a == b",
        &[2, 5, 0, 0, 1, 0, 6, 2, 0, 3, 0],
    );
    refused(20, "always x ==|");
    refused(20, "always x == |1");
    refused(20, "always x == |nil");
    refused(20, "always x == |(y)");
    refused(20, "always x == |weak y");
    refused(20, "always x == y |/\\ z");
    refused(20, "always x == y |and z");
    refused(20, "always x == y |+ 1");
    refused(20, "always x == y |== z");
    refused(20, "once x.a == y.|");
}

#[test]
fn no_other_identity_inside_a_constraint() {
    refused(20, "always required x |== y");
    refused(20, "always weak x.a |== y");
    refused(20, "once (x |== y)");
    refused(20, "once (x) |== y");
    refused(20, "once x = y |== z");
    refused(20, "once true /\\ x |== y");
    refused(20, "once true and x |== y");
    refused(20, "once (1 + x |== y)");
    refused(20, "once 1 |== x");
}

#[test]
fn identities_as_operands() {
    expression("a == b", &[26, 1, 0, 2, 0]);
    expression("a.f.g == b.g", &[26, 1, 2, 0, 1, 2, 1, 1]);
    expression("(a == b)", &[26, 1, 0, 2, 0]);
    expression(
        "1 + a == b * 2",
        &[25, 1, 23, 1, 25, 3, 26, 1, 0, 2, 0, 23, 2],
    );
    expression("a == b = c == d", &[25, 6, 26, 1, 0, 2, 0, 26, 3, 0, 4, 0]);
    reads("if a == b then {} else {}", &[1, 7, 26, 0, 0, 1, 0, 0, 0]);
    reads("while a == b do {}", &[1, 8, 26, 0, 0, 1, 0, 0]);
    refused(20, "x := a == b |== c");
    refused(20, "x := (a) |== b");
    refused(20, "x := a == |(b)");
    refused(20, "x := 1 |== b");
    refused(20, "x := a == |1");
    refused(20, "x := a == |true");
    refused(20, "x := (a == b) |== c");
    refused(20, "x := a + b == c |== d");
    refused(20, "x := |== a");
    refused(20, "x := a ==|");
}

#[test]
fn leaves() {
    expression("nil", &[20]);
    expression("false", &[21]);
    expression("true", &[22]);
    expression("64", &[23, 64]);
    expression("y", &[24, 1, 0]);
    expression("result", &[24, 0, 0]);
    expression("y.a.b.a", &[24, 1, 3, 0, 1, 0]);
    refused(20, "x := |skip");
    refused(20, "x := |then");
    refused(20, "x := 1|.a");
    refused(20, "x := (y)|.a");
    refused(20, "x := y.|");
    refused(20, "x := y |y");
    refused(20, "x := y |true");
}

#[test]
fn every_operator_has_its_number() {
    let operators = ["+", "-", "*", "<", "<=", "=", "!=", ">=", ">", "and", "or"];
    for (operator, number) in operators.iter().zip(1..) {
        expression(&format!("y {operator} nil"), &[25, number, 24, 1, 0, 20]);
    }
    refused(20, "x := 1 + |* 2");
    refused(20, "x := |* 2");
    refused(20, "x := |and true");
    refused(20, "x := 1 + |; skip");
    refused(20, "x := 1 |(2)");
}

/// The operators of each level, the loosest first.
const LEVELS: [&[(&str, i32)]; 5] = [
    &[("or", 11)],
    &[("and", 10)],
    &[
        ("<", 4),
        ("<=", 5),
        ("=", 6),
        ("!=", 7),
        (">=", 8),
        (">", 9),
    ],
    &[("+", 1), ("-", 2)],
    &[("*", 3)],
];

/// Every two operators in a row: the tighter one groups, of one level the left.
#[test]
fn what_binds_tighter() {
    let all = LEVELS.iter().enumerate();
    let all: Vec<(usize, &str, i32)> = all
        .flat_map(|(level, row)| row.iter().map(move |(text, word)| (level, *text, *word)))
        .collect();
    for (left_level, left, one) in &all {
        for (right_level, right, two) in &all {
            let text = format!("1 {left} 2 {right} 3");
            match left_level >= right_level {
                true => expression(&text, &[25, *two, 25, *one, 23, 1, 23, 2, 23, 3]),
                false => expression(&text, &[25, *one, 23, 1, 25, *two, 23, 2, 23, 3]),
            }
        }
    }
}

#[test]
fn three_and_more_operators() {
    expression(
        "1 + 2 * 3 + 4",
        &[25, 1, 25, 1, 23, 1, 25, 3, 23, 2, 23, 3, 23, 4],
    );
    expression(
        "1 - 2 - 3 - 4",
        &[25, 2, 25, 2, 25, 2, 23, 1, 23, 2, 23, 3, 23, 4],
    );
    expression(
        "a or b and c = d + e * f",
        &[
            25, 11, 24, 1, 0, 25, 10, 24, 2, 0, 25, 6, 24, 3, 0, 25, 1, 24, 4, 0, 25, 3, 24, 5, 0,
            24, 6, 0,
        ],
    );
    expression(
        "a * b + c = d and e or f",
        &[
            25, 11, 25, 10, 25, 6, 25, 1, 25, 3, 24, 1, 0, 24, 2, 0, 24, 3, 0, 24, 4, 0, 24, 5, 0,
            24, 6, 0,
        ],
    );
}

#[test]
fn brackets() {
    expression("(1)", &[23, 1]);
    expression("(((y.a)))", &[24, 1, 1, 0]);
    expression("1 - (2 - 3)", &[25, 2, 23, 1, 25, 2, 23, 2, 23, 3]);
    expression("(1 - 2) - 3", &[25, 2, 25, 2, 23, 1, 23, 2, 23, 3]);
    expression("(1 + 2) * 3", &[25, 3, 25, 1, 23, 1, 23, 2, 23, 3]);
    expression("1 * ((2) + 3)", &[25, 3, 23, 1, 25, 1, 23, 2, 23, 3]);
    expression(
        "((1 or 2) and 3) * 4",
        &[25, 3, 25, 10, 25, 11, 23, 1, 23, 2, 23, 3, 23, 4],
    );
    refused(20, "x := (|)");
    refused(20, "x := (1|");
    refused(20, "x := (1|; skip");
    refused(20, "x := 1|)");
    refused(20, "x := (1)|)");
    refused(20, "x := ((1)|");
    refused(20, "x := (1 |2)");
    refused(20, "x := (1|, 2)");
    refused(20, "x := new {a: (1|, b: 2}");
    refused(20, "x := new {a: 1|)}");
    refused(20, "if (true |then {} else {}");
    refused(20, "while (true|} do {}");
    reads("always (true) /\\ ((nil))", &[1, 3, 2, 3, 22, 3, 20]);
}

#[test]
fn thirty_thousand_brackets() {
    for text in [
        format!("x := {}7{}", "(".repeat(30_000), ")".repeat(30_000)),
        format!("x := {}7{}", "( ".repeat(16_000), ")".repeat(16_000)),
    ] {
        assert_eq!(accepted(&text).words, [1, 1, 0, 0, 23, 7]);
    }
    let open = format!("x := {}", "(".repeat(60_000));
    refused(20, &format!("{open}|"));
    refused(20, &format!("{open}|)"));
    let one_short = format!("x := {}7{}", "(".repeat(30_000), ")".repeat(29_999));
    refused(20, &format!("{one_short}|"));
    refused(20, &format!("{one_short}|; skip"));
    refused(20, &format!("{one_short})|)"));
    let many = format!("{}7{}", "(".repeat(2000), ")".repeat(2000));
    let sum = vec![many; 16].join("+");
    assert_eq!(accepted(&format!("x := {sum}")).words.len(), 66);
}

/// Brackets take no stack: a small one is enough for as many as there can be.
#[test]
fn brackets_on_a_small_stack() {
    let around =
        |text: &str, count: usize| format!("x := {}{text}{}", "(".repeat(count), ")".repeat(count));
    let texts = [around("7", 32_765), around("1 + 1", 32_763)];
    let small = std::thread::Builder::new().stack_size(128 * 1024);
    let read = small.spawn(move || texts.map(|text| read(text.as_bytes()).words));
    let words = read.expect("a thread").join().expect("words");
    assert_eq!(words[0], [1, 1, 0, 0, 23, 7]);
    assert_eq!(words[1], [1, 1, 0, 0, 25, 1, 23, 1, 23, 1]);
}
