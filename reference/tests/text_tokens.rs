//! The tokens of a text: white space, names, numbers, symbols and places.

mod common;

use common::texts::{accepted, check_refused, expression, reads, refused};
use reference::text::read;

const KEYWORDS: [&str; 17] = [
    "new", "skip", "always", "once", "weak", "medium", "required", "if", "then", "else", "while",
    "do", "true", "false", "nil", "and", "or",
];

#[test]
fn white_space_between_any_two_tokens() {
    let words = [1, 2, 0, 1, 0, 25, 1, 23, -5, 24, 1, 1, 1];
    reads("x:=new{a:-5+y.b}", &words);
    reads(" x := new { a : -5 + y . b } ", &words);
    reads("\tx\t:=\tnew\t{\ta\t:\t-5\t+\ty\t.\tb\t}\t", &words);
    reads("\nx\n:=\nnew\n{\na\n:\n-5\n+\ny\n.\nb\n}\n", &words);
    reads("\rx\r:=\rnew\r{\ra\r:\r-5\r+\ry\r.\rb\r}\r", &words);
    reads("\r\n \tx:=new{a:-5+y.b}\r\n \t", &words);
}

#[test]
fn white_space_only_where_tokens_run_together() {
    reads("while true do{skip;skip}", &[1, 8, 22, 2, 0, 0]);
    refused(20, "whiletrue |do{}");
    refused(20, "while truedo|{}");
    expression("1and 2or 3", &[25, 11, 25, 10, 23, 1, 23, 2, 23, 3]);
    expression("x?and y", &[25, 10, 24, 1, 0, 24, 2, 0]);
    refused(20, "x := 1|and2");
    refused(20, "x := 1 |2");
    expression("12", &[23, 12]);
    refused(20, "x := a |b");
    refused(20, "x := a|:=b");
}

#[test]
fn no_other_white_space() {
    for byte in [0, 1, 8, 11, 12, 14, 27, 127, 128, 133, 160, 194, 255] {
        check_refused(&[b's', b'k', b'i', b'p', byte], 20, 4);
        check_refused(&[byte], 20, 0);
    }
}

#[test]
fn no_comments() {
    refused(20, "skip |// nothing");
    refused(20, "skip |/* nothing */");
    refused(20, "skip |# nothing");
    refused(20, "skip |-- nothing");
}

#[test]
fn names() {
    for name in [
        "x",
        "a9",
        "aB_9",
        "x?",
        "x_?",
        "camelCase",
        "z__",
        "if?",
        "news",
        "do_",
        "iff",
        "nil0",
        "orx",
        "andY?",
        "trueFalse",
        "new_",
        "x0123456789",
    ] {
        let reading = accepted(&format!("{name} := nil"));
        assert_eq!(reading.words, [1, 1, 0, 0, 20]);
        assert_eq!(reading.names[..3], [0, name.len() as i32, 0]);
    }
}

#[test]
fn the_longest_name_counts() {
    reads("news := new {newer: nil}", &[1, 2, 0, 1, 0, 20]);
    refused(20, "x?|y := 1");
    refused(20, "x?|? := 1");
    refused(20, "x?|if := 1");
    reads("x? := 1; x := 2", &[2, 1, 0, 0, 23, 1, 1, 1, 0, 23, 2]);
    reads("ab := 1; a := 2", &[2, 1, 0, 0, 23, 1, 1, 1, 0, 23, 2]);
}

#[test]
fn names_begin_with_a_lower_case_letter() {
    refused(20, "|X := 1");
    refused(20, "|_x := 1");
    refused(20, "|?x := 1");
    refused(20, "|9x := 1");
    refused(20, "x.|A := 1");
    refused(20, "x := |Y");
    refused(20, "x := 1|_");
    refused(20, "x := y |?");
}

#[test]
fn keywords_are_no_names() {
    for keyword in KEYWORDS {
        refused(20, &format!("x.|{keyword} := 1"));
        refused(20, &format!("x := new {{|{keyword}: 1}}"));
        refused(20, &format!("once x == |{keyword}"));
        refused(20, &format!("x := y.|{keyword}"));
        for ending in ["?", "s", "_", "0", "A"] {
            let name = format!("{keyword}{ending}");
            reads(&format!("{name} := 1"), &[1, 1, 0, 0, 23, 1]);
            reads(&format!("x.{name} := 1"), &[1, 1, 0, 1, 0, 23, 1]);
        }
    }
    for keyword in ["new", "weak", "then", "else", "do", "true", "nil", "and"] {
        refused(20, &format!("|{keyword} := 1"));
    }
    for keyword in ["skip", "always", "once", "if", "while"] {
        refused(20, &format!("{keyword} |:= 1"));
    }
}

#[test]
fn numbers() {
    expression("0", &[23, 0]);
    expression("007", &[23, 7]);
    expression("-007", &[23, -7]);
    expression("-0", &[23, 0]);
    expression("00000000000000000000002147483647", &[23, i32::MAX]);
    expression("-00000000000000000000002147483648", &[23, i32::MIN]);
    refused(20, "x := |+5");
    refused(20, "x := 1|.5");
    refused(20, "x := 1|e5");
}

#[test]
fn a_sign_where_an_operand_is_due() {
    let five = [1, 1, 0, 0, 23, -5];
    reads("x := -5", &five);
    reads("x:=-5", &five);
    expression("(-5)", &[23, -5]);
    reads(
        "x := new {a: -5, b:-6}",
        &[1, 2, 0, 2, 0, 23, -5, 1, 23, -6],
    );
    reads("if -5 then {} else {}", &[1, 7, 23, -5, 0, 0]);
    reads("while -5 do {}", &[1, 8, 23, -5, 0]);
    reads("always -5", &[1, 3, 1, 3, 23, -5]);
    reads("once -5 /\\ -6", &[1, 4, 2, 3, 23, -5, 3, 23, -6]);
    for (priority, number) in [("weak", 1), ("medium", 2), ("required", 3)] {
        reads(&format!("once {priority} -5"), &[1, 4, 1, number, 23, -5]);
    }
    let operators = ["+", "-", "*", "<", "<=", "=", "!=", ">=", ">", "and", "or"];
    for (operator, number) in operators.iter().zip(1..) {
        expression(&format!("1 {operator}-5"), &[25, number, 23, 1, 23, -5]);
    }
}

#[test]
fn a_difference_where_an_operator_is_due() {
    let difference = [25, 2, 24, 1, 0, 23, 5];
    for text in ["x -5", "x-5", "x - 5", "x- 5", "(x)-5", "x -(5)"] {
        expression(text, &difference);
    }
    for text in ["x - -5", "x--5", "x -(-5)"] {
        expression(text, &[25, 2, 24, 1, 0, 23, -5]);
    }
    expression("1-1", &[25, 2, 23, 1, 23, 1]);
    expression("nil-1", &[25, 2, 20, 23, 1]);
    expression("true-1", &[25, 2, 22, 23, 1]);
    reads("once x-5", &[1, 4, 1, 3, 25, 2, 24, 0, 0, 23, 5]);
    expression("a == b-5", &[25, 2, 26, 1, 0, 2, 0, 23, 5]);
}

#[test]
fn a_minus_that_is_neither() {
    refused(20, "x := |- 5");
    refused(20, "x := |--5");
    refused(20, "x := y - |--5");
    refused(20, "x := |-y");
    refused(20, "x := |-(5)");
    refused(20, "x := |-");
    refused(20, "x := y -|");
    refused(20, "|-5 := x");
    refused(20, "x |-5");
    refused(20, "x.|-5 := 1");
    refused(20, "x := y.|-5");
    refused(20, "x := y == |-5");
    refused(20, "skip; |-5");
    refused(20, "skip |-5");
    refused(20, "x := new |-5");
    refused(20, "x := new {|-5: 1}");
    refused(20, "x := new {a |-5}");
    refused(20, "if x then |-5");
    refused(20, "while x do {|-5}");
    refused(20, "if x then {} else |-5");
}

#[test]
fn the_longest_symbol_fits_first() {
    refused(20, "x :=|= 5");
    refused(20, "x |: = 5");
    refused(20, "x|=5");
    expression("a<=b", &[25, 5, 24, 1, 0, 24, 2, 0]);
    refused(20, "x := a< |=b");
    refused(20, "x := a > |= b");
    expression("a==b", &[26, 1, 0, 2, 0]);
    refused(20, "x := a= |=b");
    refused(20, "x := a==|=b");
    refused(20, "x := a<=|=b");
    refused(20, "x := a!=|=b");
    expression("a>=b", &[25, 8, 24, 1, 0, 24, 2, 0]);
    expression("a!=b", &[25, 7, 24, 1, 0, 24, 2, 0]);
    reads("once a/\\b", &[1, 4, 2, 3, 24, 0, 0, 3, 24, 1, 0]);
}

#[test]
fn bytes_that_begin_no_token() {
    refused(20, "x := a |! b");
    refused(20, "x := a |! = b");
    refused(20, "x := |!a");
    refused(20, "once a |/ b");
    refused(20, "once a |/ \\ b");
    refused(20, "once a |\\/ b");
    refused(20, "once a |\\ b");
    for byte in "\"#$%&'?@ABCXYZ[]^_`~".bytes() {
        check_refused(&[b"x := 1 ", &[byte][..]].concat(), 20, 7);
        check_refused(&[b"x := ", &[byte][..], b"1"].concat(), 20, 5);
    }
    check_refused("x := 1 \u{2264} 2".as_bytes(), 20, 7);
}

#[test]
fn the_end_is_a_token_at_the_length() {
    refused(20, "x|");
    refused(20, "x :=|");
    refused(20, "x :=  |");
    refused(20, "x := 1 +\n\n|");
    refused(20, "if true then {} |");
    refused(20, "skip; |");
    refused(20, "x := (1|");
    assert_eq!(read(b"  skip \n").place, 8);
}
