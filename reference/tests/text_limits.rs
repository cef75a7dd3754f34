//! What a text is refused with 21 and 22 for, and which number comes first.

mod common;

use common::texts::{accepted, check_refused, filler, past, reads, refused};
use reference::text::Limit;

/// `v0 := nil; v1 := nil;` and so on, for so many variables.
fn variables(count: usize) -> String {
    (0..count).map(|n| format!("v{n}:=nil;")).collect()
}

/// Paths that name so many labels, each a statement that ends in `;`.
fn labels(count: usize) -> String {
    (0..count).map(|n| format!("v0.f{n}:=nil;")).collect()
}

#[test]
fn the_65th_variable() {
    let before = variables(64);
    assert_eq!(accepted(&format!("{before}v0 := v63")).variables, 64);
    refused(21, &format!("{before}|v64 := 1"));
    refused(21, &format!("{before}v1 := |v64"));
    refused(21, &format!("{before}v1 := v2 == |v64"));
    refused(21, &format!("{before}v1 := new {{a: |v64}}"));
    refused(21, &format!("{before}always |v64"));
    refused(21, &format!("{before}once v1 == |v64"));
    refused(21, &format!("{before}once true /\\ weak ((|v64))"));
    refused(21, &format!("{before}if |v64 then {{}} else {{}}"));
    refused(21, &format!("{before}while |v64 do {{}}"));
    refused(21, &format!("{before}while true do {{|v64 := 1}}"));
    assert_eq!(accepted(&format!("{before}v0.v64 := 1")).labels, 1);
}

#[test]
fn the_33rd_label() {
    let before = labels(32);
    let reading = accepted(&format!("{before}v0 := v1.f31"));
    assert_eq!((reading.variables, reading.labels), (2, 32));
    refused(21, &format!("{before}v0.|f32 := 1"));
    refused(21, &format!("{before}v0 := v0.f1.|f32"));
    refused(21, &format!("{before}v0 := new {{f0: 1, |f32: 2}}"));
    refused(21, &format!("{before}once v0 == v1.|f32"));
    refused(21, &format!("{before}v0.|v0 := 1"));
    assert_eq!(accepted(&format!("{before}f32 := 1")).variables, 2);
}

#[test]
fn numbers_of_32_bits() {
    reads("x := 2147483647", &[1, 1, 0, 0, 23, i32::MAX]);
    reads("x := -2147483648", &[1, 1, 0, 0, 23, i32::MIN]);
    past(Limit::Number, "x := |2147483648");
    past(Limit::Number, "x := |-2147483649");
    past(Limit::Number, "x := y - |2147483648");
    past(Limit::Number, "x := y -|2147483648");
    past(Limit::Number, "x := 1 + (|4294967296)");
    past(Limit::Number, "x := |18446744073709551616");
    past(Limit::Number, &format!("x := |{}", "9".repeat(5000)));
    past(
        Limit::Number,
        &format!("x := |-{}5", "0".repeat(50) + "10000000000"),
    );
    past(Limit::Number, "x := |2147483648 2147483648");
    past(Limit::Number, "x := |2147483648 !");
    refused(20, "x := 1 |2147483648");
    refused(20, "|2147483648 := x");
    accepted(&format!("x := {}5", "0".repeat(5000)));
}

#[test]
fn the_256th_statement() {
    let before = "skip;".repeat(254);
    assert_eq!(accepted(&format!("{before}skip")).words.len(), 256);
    let before = format!("{before}skip;");
    for statement in [
        "skip",
        "x := 1",
        "x.a := 1",
        "always x",
        "once x",
        "if true then {} else {}",
        "while true do {}",
    ] {
        past(Limit::Statements, &format!("{before}|{statement}"));
        let inner = format!("while true do {{{before}|{statement}}}");
        past(Limit::Statements, &inner);
        let other = format!("if x then {{}} else {{{before}|{statement}}}");
        past(Limit::Statements, &other);
    }
    refused(20, &format!("{before}|"));
    refused(20, &format!("{before}|;"));
    refused(20, &format!("{before}|5"));
    refused(20, &format!("while true do {{{before}|}}"));
    let nested = format!("while true do {{{before}skip}}");
    refused(22, &nested.replace("skip;skip}", "skip;|skip}"));
    let blocks = format!(
        "if x then {{{0}}} else {{{0}}}",
        "skip;".repeat(254) + "skip"
    );
    accepted(&blocks);
}

#[test]
fn the_17th_part() {
    let parts = vec!["true"; 16].join("/\\");
    assert_eq!(accepted(&format!("once {parts}")).words.len(), 35);
    for part in [
        "true",
        "weak x",
        "medium 1",
        "required nil",
        "x",
        "(x)",
        "-5",
        "5",
    ] {
        past(Limit::Parts, &format!("once {parts} /\\ |{part}"));
    }
    let named = vec!["x"; 16].join("/\\");
    accepted(&format!("always {named}"));
    past(Limit::Parts, &format!("always {named} /\\ |x"));
    refused(20, &format!("once {parts} /\\ |"));
    refused(20, &format!("once {parts} /\\ |; skip"));
    refused(20, &format!("once {parts} /\\ |skip"));
    refused(20, &format!("once {parts} /\\ |- 5"));
}

#[test]
fn the_9th_field() {
    let fields: Vec<String> = (0..8).map(|n| format!("f{n}: {n}")).collect();
    let fields = fields.join(", ");
    assert_eq!(accepted(&format!("x := new {{{fields}}}")).words.len(), 28);
    past(Limit::Fields, &format!("x := new {{{fields}, |f8: 8}}"));
    past(Limit::Fields, &format!("x := new {{{fields}, |f8"));
    refused(20, &format!("x := new {{{fields}, |f3: 8}}"));
    refused(20, &format!("x := new {{{fields}, |}}"));
    refused(20, &format!("x := new {{{fields}, |8: 8}}"));
}

#[test]
fn the_8th_label_of_a_path() {
    let seven = ".a.b.a.b.a.b.a";
    accepted(&format!("x{seven} := x{seven} == x{seven}"));
    past(Limit::Labels, &format!("x{seven}.|b := 1"));
    past(Limit::Labels, &format!("x := x{seven}.|b"));
    past(Limit::Labels, &format!("x := x == x{seven}.|b"));
    past(Limit::Labels, &format!("always x{seven}.|b == x"));
    past(Limit::Labels, &format!("always x == x{seven}.|b"));
    past(Limit::Labels, &format!("x{seven}.|c.d.e"));
    refused(20, &format!("x{seven}.|5 := 1"));
    refused(20, &format!("x{seven}.|if := 1"));
}

#[test]
fn a_block_on_depth_9() {
    let eight = "while true do {".repeat(7);
    let end = "}".repeat(7);
    accepted(&format!("{eight}skip{end}"));
    past(Limit::Blocks, &format!("{eight}while x do |{{}}{end}"));
    past(
        Limit::Blocks,
        &format!("{eight}if x then |{{}} else {{}}{end}"),
    );
    past(Limit::Blocks, &format!("{eight}skip; while x do |{{"));
    refused(20, &format!("{eight}while x do |skip"));
    refused(20, &format!("{eight}if x then |;"));
    accepted(&format!("{eight}x := new {{}}{end}"));
    let branches = "if x then {} else {".repeat(7);
    past(Limit::Blocks, &format!("{branches}while x do |{{}}{end}"));
    accepted(&format!("{eight}{end}; {eight}{end}"));
}

/// So many operators that group left, each deeper than the next.
fn left(operators: usize) -> String {
    format!("1{}", " + 1".repeat(operators))
}

/// So many operators that group right, by brackets.
fn right(operators: usize) -> String {
    format!("{}1{}", "1 + (".repeat(operators), ")".repeat(operators))
}

#[test]
fn an_operand_on_level_17() {
    accepted(&format!("x := {}", left(15)));
    past(Limit::Levels, &format!("x := {} |+ 1", left(15)));
    accepted(&format!("x := {}", right(15)));
    past(Limit::Levels, &format!("x := {}1 |+ 1", "1 + (".repeat(15)));
    past(Limit::Levels, &format!("x := {} |- (", left(15)));
    past(Limit::Levels, &format!("x := ({}) |+ 1", left(15)));
    past(Limit::Levels, &format!("x := {} |+ 1", right(15)));
    accepted(&format!("x := 1 + ({})", left(14)));
    past(Limit::Levels, &format!("x := 1 + ({} |+ 1)", left(14)));
    accepted(&format!("x := 1 * ({}) + 1", left(13)));
    past(Limit::Levels, &format!("x := 1 * ({}) |+ 1", left(14)));
    past(Limit::Levels, &format!("x := 1 = {} |and true", left(14)));
    accepted(&format!("x := 1 = {} and true", left(13)));
    refused(20, &format!("x := {}1 |1", "1 + (".repeat(15)));
}

/// Each operator stands under the looser ones before it, and over all that
/// it takes as its left operand.
#[test]
fn levels_of_operators_that_bind_apart() {
    accepted(&format!("x := {} * 1 * 1", left(15)));
    past(Limit::Levels, &format!("x := {} * 1 * 1 |+ 1", left(15)));
    let product = format!("1 + 1{}", " * 1".repeat(14));
    accepted(&format!("x := {product}"));
    past(Limit::Levels, &format!("x := {product} |* 1"));
    past(Limit::Levels, &format!("x := {product} |- 1"));
    past(Limit::Levels, &format!("x := {product} |= 1"));
    accepted(&format!("x := 1 + 1{} = 1", " * 1".repeat(13)));
    let full = format!("({}) * ({})", left(14), left(14));
    accepted(&format!("x := {full}"));
    past(Limit::Levels, &format!("x := {full} |* 1"));
    past(Limit::Levels, &format!("x := {full} |or 1"));
    past(Limit::Levels, &format!("x := 1 * ({} |= 2)", left(14)));
}

#[test]
fn levels_begin_anew() {
    let deep = left(15);
    accepted(&format!("x := new {{a: {deep}, b: {deep}}}"));
    accepted(&format!("always {deep} /\\ weak {deep} /\\ {deep}"));
    accepted(&format!(
        "if {deep} then {{x := {deep}}} else {{x := {deep}}}"
    ));
    accepted(&format!("x := {deep}; x := {deep}"));
    let named = deep.replacen('1', "x", 1);
    accepted(&format!("always {named}"));
    past(Limit::Levels, &format!("always {named} |+ 1"));
    past(Limit::Levels, &format!("always x /\\ {named} |+ 1"));
    accepted(&format!("x := {}", deep.replacen('1', "a.b.c == d.e", 1)));
    let many = format!("{}1{}", "(".repeat(500), ")".repeat(500));
    accepted(&format!("x := {}", deep.replace('1', &many)));
}

/// 20 before 21 before 22 where they meet at one token.
#[test]
fn three_numbers_at_one_token() {
    let full = variables(64);
    let skips = "skip;".repeat(255 - 64);
    refused(21, &format!("{full}{skips}|v64 := 1"));
    past(Limit::Statements, &format!("{full}{skips}|v63 := 1"));
    let parts = "true/\\".repeat(16);
    refused(21, &format!("{full}once {parts}|v64"));
    past(Limit::Parts, &format!("{full}once {parts}|v63"));
    let labels = labels(32);
    let fields: String = (0..8).map(|n| format!("f{n}: 1, ")).collect();
    refused(21, &format!("{labels}v0 := new {{{fields}|f32: 1}}"));
    past(
        Limit::Fields,
        &format!("{labels}v0 := new {{{fields}|f31: 1}}"),
    );
    refused(20, &format!("{labels}v0 := new {{{fields}|f7: 1}}"));
    refused(21, &format!("{labels}v0.f0.f1.f2.f3.f4.f5.f6.|f32 := 1"));
    past(
        Limit::Labels,
        &format!("{labels}v0.f0.f1.f2.f3.f4.f5.f6.|f31 := 1"),
    );
    let words = full.clone() + &filler(4096 - 4 * 64).replace("x:=", "v0:=");
    refused(21, &format!("{words}|v64 := 1"));
    past(Limit::Words, &format!("{words}|v63 := 1"));
    refused(20, &format!("{words}|;"));
}

/// The first place decides, whichever number is met there.
#[test]
fn the_first_place_decides() {
    refused(22, "x := |2147483648; y := !");
    refused(20, "x := |!; y := 2147483648");
    refused(21, &format!("{}|v64 := 2147483648; !", variables(64)));
    refused(22, &format!("{}v0 := |2147483648; v64 := !", variables(64)));
    check_refused(b"skip skip !", 20, 5);
}
