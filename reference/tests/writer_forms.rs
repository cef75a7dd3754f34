//! Every form of the notation as it is written, by hand.

mod common;

use common::block;
use common::writer::{expression, writes, writes_with};
use reference::writer::printed;

#[test]
fn simple_statements() {
    writes(&[0], "");
    writes(&[1, 0], "skip");
    writes(&[2, 0, 0], "skip;\nskip");
    writes(&[1, 1, 0, 0, 23, 5], "v0 := 5");
    writes(&[1, 1, 0, 2, 0, 1, 20], "v0.f0.f1 := nil");
    writes(&[1, 1, 0, 1, 0, 24, 0, 1, 0], "v0.f0 := v0.f0");
    writes(&[2, 0, 1, 0, 0, 24, 1, 1, 0], "skip;\nv0 := v1.f0");
    writes(
        &[1, 1, 0, 7, 0, 1, 2, 3, 4, 5, 6, 22],
        "v0.f0.f1.f2.f3.f4.f5.f6 := true",
    );
}

#[test]
fn records() {
    writes(&[1, 2, 0, 0], "v0 := new {}");
    writes(&[1, 2, 0, 1, 0, 23, -1], "v0 := new {f0: -1}");
    writes(
        &[1, 2, 0, 2, 0, 23, 1, 1, 23, 2],
        "v0 := new {f0: 1, f1: 2}",
    );
    writes(
        &[1, 2, 0, 3, 0, 24, 1, 0, 1, 25, 1, 23, 1, 23, 2, 2, 21],
        "v0 := new {f0: v1, f1: 1 + 2, f2: false}",
    );
    writes(
        &[1, 2, 0, 2, 0, 26, 0, 0, 1, 1, 0, 1, 20],
        "v0 := new {f0: v0 == v1.f0, f1: nil}",
    );
    let fields: Vec<i32> = (0..8).flat_map(|label| [label, 20]).collect();
    writes(
        &[&[1, 2, 0, 8][..], &fields].concat(),
        "v0 := new {f0: nil, f1: nil, f2: nil, f3: nil, f4: nil, f5: nil, f6: nil, f7: nil}",
    );
}

#[test]
fn constraints() {
    writes(&[1, 3, 1, 3, 22], "always required true");
    writes(&[1, 4, 1, 1, 24, 0, 0], "once weak v0");
    writes(&[1, 4, 1, 2, 24, 0, 1, 0], "once medium v0.f0");
    writes(
        &[
            1, 3, 2, 3, 25, 6, 24, 0, 0, 23, 1, 1, 25, 6, 24, 1, 0, 23, 2,
        ],
        "always required v0 = 1 /\\ weak v1 = 2",
    );
    writes(
        &[1, 4, 1, 3, 25, 11, 22, 25, 10, 21, 22],
        "once required true or false and true",
    );
    writes(
        &[1, 4, 3, 1, 23, -3, 2, 20, 3, 25, 2, 23, 1, 23, -1],
        "once weak -3 /\\ medium nil /\\ required 1 - -1",
    );
    let parts = [3, 22].repeat(16);
    let text = vec!["required true"; 16].join(" /\\ ");
    writes(
        &[&[1, 3, 16][..], &parts].concat(),
        &format!("always {text}"),
    );
}

#[test]
fn identities() {
    writes(&[1, 5, 0, 0, 1, 0], "always v0 == v1");
    writes(&[1, 6, 0, 0, 0, 0], "once v0 == v0");
    writes(&[1, 5, 0, 1, 0, 1, 0], "always v0.f0 == v1");
    writes(&[1, 6, 0, 0, 1, 2, 0, 1], "once v0 == v1.f0.f1");
}

#[test]
fn branches() {
    writes(&[1, 7, 22, 0, 0], "if true then {} else {}");
    writes(&[1, 7, 22, 1, 0, 0], "if true then {\n  skip\n} else {}");
    writes(&[1, 7, 22, 0, 1, 0], "if true then {} else {\n  skip\n}");
    writes(
        &[1, 7, 24, 0, 0, 2, 0, 1, 0, 0, 20, 1, 0],
        "if v0 then {\n  skip;\n  v0 := nil\n} else {\n  skip\n}",
    );
    writes(
        &[2, 7, 26, 0, 0, 1, 0, 0, 0, 0],
        "if v0 == v1 then {} else {};\nskip",
    );
    writes(
        &[1, 7, 25, 11, 21, 22, 0, 1, 7, 20, 0, 1, 0],
        "if false or true then {} else {\n  if nil then {} else {\n    skip\n  }\n}",
    );
}

#[test]
fn loops() {
    writes(&[1, 8, 21, 0], "while false do {}");
    writes(&[2, 8, 21, 1, 0, 0], "while false do {\n  skip\n};\nskip");
    writes(
        &[
            1, 8, 25, 4, 24, 0, 0, 23, 9, 1, 1, 0, 0, 25, 1, 24, 0, 0, 23, 1,
        ],
        "while v0 < 9 do {\n  v0 := v0 + 1\n}",
    );
    writes(
        &[1, 8, 22, 2, 8, 21, 1, 0, 8, 20, 0],
        "while true do {\n  while false do {\n    skip\n  };\n  while nil do {}\n}",
    );
}

/// Blocks on all the levels there are, the innermost empty or not.
#[test]
fn deepest_blocks() {
    let levels = [1, 8, 22].repeat(7);
    let open: Vec<String> = (0..7)
        .map(|depth| format!("{}while true do {{", "  ".repeat(depth)))
        .collect();
    let closed: Vec<String> = (0..6)
        .rev()
        .map(|d| format!("{}}}", "  ".repeat(d)))
        .collect();
    let (open, closed) = (open.join("\n"), closed.join("\n"));
    writes(
        &[&levels[..], &[0]].concat(),
        &format!("{open}}}\n{closed}"),
    );
    writes(
        &[&levels[..], &[2, 0, 0]].concat(),
        &format!(
            "{open}\n{indent}skip;\n{indent}skip\n            }}\n{closed}",
            indent = " ".repeat(14)
        ),
    );
}

#[test]
fn a_longer_program() {
    let program = block(&[
        &[2, 0, 2, 0, 23, 64, 1, 23, 16],
        &[3, 1, 3, 25, 6, 24, 0, 1, 0, 25, 3, 23, 4, 24, 0, 1, 1],
        &[
            7, 25, 9, 24, 0, 1, 1, 23, 8, 2, 1, 0, 1, 1, 23, 8, 8, 21, 0, 1, 0,
        ],
        &[5, 0, 0, 1, 0],
    ]);
    let text = "\
file := new {bytes: 64, samples: 16};
always required file.bytes = 4 * file.samples;
if file.samples > 8 then {
  file.samples := 8;
  while false do {}
} else {
  skip
};
always file == f";
    let names = [(0, "file"), (1, "f"), (64, "bytes"), (65, "samples")];
    let answer = writes_with(&names, &program, text);
    assert_eq!((answer.variables, answer.labels), (2, 2));
    assert_eq!(answer.bytes, text.len());
}

#[test]
fn operands() {
    expression(&[20], "nil");
    expression(&[21], "false");
    expression(&[22], "true");
    expression(&[23, 0], "0");
    expression(&[23, -7], "-7");
    expression(&[23, i32::MAX], "2147483647");
    expression(&[23, i32::MIN], "-2147483648");
    expression(&[24, 1, 2, 0, 0], "v1.f0.f0");
    expression(&[26, 1, 0, 2, 1, 0], "v1 == v2.f0");
    expression(&[25, 2, 23, 1, 23, -1], "1 - -1");
    expression(&[25, 2, 23, -1, 23, i32::MIN], "-1 - -2147483648");
    expression(&[25, 3, 23, -2, 23, 3], "-2 * 3");
    expression(&[25, 7, 26, 1, 0, 2, 0, 22], "v1 == v2 != true");
    expression(&[25, 3, 23, 2, 26, 0, 0, 0, 0], "2 * v0 == v0");
    expression(&[25, 3, 26, 0, 0, 0, 0, 23, 2], "v0 == v0 * 2");
}

/// A name is written as it is given; all others have their number.
#[test]
fn names() {
    let assigned = [1, 1, 0, 1, 0, 24, 1, 1, 1];
    writes(&assigned, "v0.f0 := v1.f1");
    writes_with(&[(0, "x")], &assigned, "x.f0 := v1.f1");
    writes_with(&[(65, "x_Y9?")], &assigned, "v0.f0 := v1.x_Y9?");
    let all = [(0, "news"), (1, "if?"), (64, "a"), (65, "b")];
    writes_with(&all, &assigned, "news.a := if?.b");
    // One name for a variable and a label, and a default of the other sort.
    writes_with(&[(0, "x"), (64, "x")], &assigned, "x.x := v1.f1");
    writes_with(&[(0, "f1"), (64, "v1")], &assigned, "f1.v1 := v1.f1");
    // Its own default, and that of a number that is not used.
    writes_with(&[(1, "v1"), (0, "v2")], &assigned, "v2.f0 := v1.f1");
    // Names of numbers that are not used are not written.
    writes_with(&[(63, "x"), (95, "x")], &assigned, "v0.f0 := v1.f1");
}

#[test]
fn all_numbers() {
    let variables: Vec<Vec<i32>> = (0..64).map(|n| vec![1, n, 0, 20]).collect();
    let labels: Vec<Vec<i32>> = (0..32).map(|n| vec![1, 0, 1, n, 20]).collect();
    let all: Vec<&[i32]> = variables.iter().chain(&labels).map(Vec::as_slice).collect();
    let lines = (0..64).map(|n| format!("v{n} := nil"));
    let lines = lines.chain((0..32).map(|n| format!("v0.f{n} := nil")));
    let lines: Vec<String> = lines.collect();
    let answer = writes(&block(&all), &lines.join(";\n"));
    assert_eq!((answer.variables, answer.labels), (64, 32));
}

#[test]
fn printed_for_a_page() {
    let text = printed(&[1, 1, 0, 0, 23, 5]);
    assert_eq!(text.as_deref(), Some("v0 := 5"));
    assert_eq!(printed(&[0]).as_deref(), Some(""));
    assert_eq!(printed(&[1]), None);
    assert_eq!(printed(&[1, 1, 1, 0, 23, 5]), None);
}
