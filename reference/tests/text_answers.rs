//! What comes back of a text: words, origins, names and counts; and texts
//! about 65,536 bytes.

mod common;

use common::texts::{accepted, check_refused, filler};
use reference::text::{read, read_into, Answer, Limit};

fn check(text: &str, words: &[i32], origins: &[i32]) {
    let reading = accepted(text);
    assert_eq!(reading.words, words, "for {text:?}");
    assert_eq!(reading.origins, origins, "for {text:?}");
}

#[test]
fn origins_of_statements() {
    check("", &[0], &[0]);
    check("   ", &[0], &[0]);
    check(" x := 5", &[1, 1, 0, 0, 23, 5], &[0, 1, 1, 1, 6, 6]);
    check(
        "  skip; x.aa.b := -7",
        &[2, 0, 1, 0, 2, 0, 1, 23, -7],
        &[0, 2, 8, 8, 8, 10, 13, 18, 18],
    );
    check(
        "p := new {a: 1, b: nil}",
        &[1, 2, 0, 2, 0, 23, 1, 1, 20],
        &[0, 0, 0, 9, 10, 13, 13, 16, 19],
    );
    check("x := new {}", &[1, 2, 0, 0], &[0, 0, 0, 9]);
    check(
        "if a then {skip} else {}",
        &[1, 7, 24, 0, 0, 1, 0, 0],
        &[0, 0, 3, 3, 3, 10, 11, 22],
    );
    check("while nil do {}", &[1, 8, 20, 0], &[0, 0, 6, 13]);
}

#[test]
fn origins_of_expressions() {
    check(
        "x := (a + 2) * b.c",
        &[1, 1, 0, 0, 25, 3, 25, 1, 24, 1, 0, 23, 2, 24, 2, 1, 0],
        &[0, 0, 0, 0, 13, 13, 8, 8, 6, 6, 6, 10, 10, 15, 15, 15, 17],
    );
    check(
        "x := a.f == b",
        &[1, 1, 0, 0, 26, 1, 1, 0, 2, 0],
        &[0, 0, 0, 0, 9, 5, 5, 7, 12, 12],
    );
    check(
        "x := false and true",
        &[1, 1, 0, 0, 25, 10, 21, 22],
        &[0, 0, 0, 0, 11, 11, 5, 15],
    );
}

#[test]
fn origins_of_constraints() {
    check(
        "always weak x = 1 /\\ (y)",
        &[1, 3, 2, 1, 25, 6, 24, 0, 0, 23, 1, 3, 24, 1, 0],
        &[0, 0, 7, 7, 14, 14, 12, 12, 12, 16, 16, 21, 22, 22, 22],
    );
    check(
        "once x.a",
        &[1, 4, 1, 3, 24, 0, 1, 0],
        &[0, 0, 5, 5, 5, 5, 5, 7],
    );
    check(
        "once x /\\ y",
        &[1, 4, 2, 3, 24, 0, 0, 3, 24, 1, 0],
        &[0, 0, 5, 5, 5, 5, 5, 10, 10, 10, 10],
    );
    check("once ((-3))", &[1, 4, 1, 3, 23, -3], &[0, 0, 5, 5, 7, 7]);
    check(
        "once x + -1",
        &[1, 4, 1, 3, 25, 1, 24, 0, 0, 23, -1],
        &[0, 0, 5, 5, 7, 7, 5, 5, 5, 9, 9],
    );
    check(
        "always x == y.a",
        &[1, 5, 0, 0, 1, 1, 0],
        &[0, 0, 7, 7, 12, 12, 14],
    );
}

#[test]
fn names_by_first_appearance() {
    let reading = accepted("x := new {bytes: 64}; y? := x.bytes; bytes := y?.x");
    assert_eq!(
        reading.words,
        [3, 2, 0, 1, 0, 23, 64, 1, 1, 0, 24, 0, 1, 0, 1, 2, 0, 24, 1, 1, 1]
    );
    assert_eq!((reading.variables, reading.labels), (3, 2));
    let mut names = vec![0; 192];
    names[..6].copy_from_slice(&[0, 1, 22, 2, 37, 5]);
    names[128..132].copy_from_slice(&[10, 5, 49, 1]);
    assert_eq!(reading.names, names);
    let nothing = accepted(" ");
    assert_eq!((nothing.variables, nothing.labels), (0, 0));
    assert_eq!(nothing.names, vec![0; 192]);
}

#[test]
fn all_names_there_can_be() {
    let variables: String = (0..64).map(|n| format!("v{n:02}:=nil;")).collect();
    let labels: String = (0..32).map(|n| format!("v00.f{n:02}:=nil;")).collect();
    let reading = accepted(&format!("{variables}{labels}skip"));
    assert_eq!((reading.variables, reading.labels), (64, 32));
    let variables = (0..64).flat_map(|n| [9 * n, 3]);
    let labels = (0..32).flat_map(|n| [64 * 9 + 13 * n + 4, 3]);
    assert_eq!(reading.names, variables.chain(labels).collect::<Vec<i32>>());
}

/// The start, as much white space as needed, and the end at a place.
fn spread(start: &str, place: usize, end: &str) -> String {
    format!("{start}{}{end}", " ".repeat(place - start.len()))
}

fn too_large(text: &str) {
    let limit = check_refused(text.as_bytes(), 22, 65_536);
    assert_eq!(limit, Some(Limit::Size));
}

#[test]
fn texts_of_65536_bytes_fit() {
    assert_eq!(accepted(&" ".repeat(65_536)).words, [0]);
    assert_eq!(accepted(&spread("", 65_532, "skip")).words, [1, 0]);
    assert_eq!(accepted(&spread("skip", 65_536, "")).words, [1, 0]);
    let name = accepted(&format!("{}:=1", "x".repeat(65_533)));
    assert_eq!(name.names[..2], [0, 65_533]);
    too_large(&" ".repeat(65_537));
    too_large(&spread("skip", 65_537, ""));
    too_large(&format!("{}:=1", "x".repeat(65_534)));
    too_large(&spread("", 65_532, "skip "));
    too_large(&spread("", 65_532, "skip;skip"));
    too_large(&" ".repeat(200_000));
    check_refused(spread("x :=", 65_536, "").as_bytes(), 20, 65_536);
    too_large(&spread("x :=", 65_537, ""));
}

#[test]
fn tokens_up_to_byte_65536_are_judged() {
    check_refused(spread("skip skip", 70_000, "").as_bytes(), 20, 5);
    check_refused(spread("x := 2147483648", 70_000, "").as_bytes(), 22, 5);
    check_refused(spread("skip", 65_534, "yy ").as_bytes(), 20, 65_534);
    too_large(&spread("skip", 65_534, "yyy"));
    too_large(&spread("skip", 65_534, "yy? "));
    too_large(&spread("skip", 65_535, "yy"));
    too_large(&spread("skip", 65_536, "y"));
    too_large(&spread("", 65_534, "skip"));
    check_refused(spread("x := 1", 65_535, "1 ").as_bytes(), 20, 65_535);
    too_large(&spread("x := 1", 65_535, "11"));
    too_large(&spread("x := ", 65_530, "1000000000000"));
    check_refused(
        spread("x := ", 65_526, "1000000000 ").as_bytes(),
        22,
        65_536,
    );
    check_refused(
        spread("x := ", 65_526, "5000000000 ").as_bytes(),
        22,
        65_526,
    );
    check_refused(spread("skip", 65_535, "! ").as_bytes(), 20, 65_535);
    check_refused(spread("skip", 65_535, "\u{e9}").as_bytes(), 20, 65_535);
    too_large(&spread("skip", 65_536, "! "));
}

#[test]
fn symbols_about_byte_65536() {
    too_large(&spread("skip", 65_535, "!="));
    too_large(&spread("skip", 65_535, ":="));
    check_refused(spread("skip", 65_534, ":= ").as_bytes(), 20, 65_534);
    check_refused(spread("x", 65_535, ": =").as_bytes(), 20, 65_535);
    too_large(&spread("x", 65_534, ":= "));
    too_large(&spread("once x", 65_535, "/\\"));
    check_refused(spread("once x", 65_535, "/ \\").as_bytes(), 20, 65_535);
    too_large(&spread("x := y", 65_535, "<="));
    too_large(&spread("x := y", 65_535, "< ="));
}

#[test]
fn signs_about_byte_65536() {
    too_large(&spread("x :=", 65_535, "-5"));
    check_refused(spread("x :=", 65_535, "- 5").as_bytes(), 20, 65_535);
    check_refused(spread("x :=", 65_535, "--5").as_bytes(), 20, 65_535);
    too_large(&spread("x := 1", 65_535, "-5"));
    check_refused(spread("skip", 65_535, "-5").as_bytes(), 20, 65_535);
    check_refused(spread("x := y ==", 65_535, "-5").as_bytes(), 20, 65_535);
    let deep = format!("x := 1{}", " + 1".repeat(15));
    let text = spread(&deep, 65_535, "-5");
    assert_eq!(
        check_refused(text.as_bytes(), 22, 65_535),
        Some(Limit::Levels)
    );
}

#[test]
fn names_and_words_about_byte_65536() {
    let full: String = (0..64).map(|n| format!("v{n}:=nil;")).collect();
    check_refused(spread(&full, 65_533, "v64 ").as_bytes(), 21, 65_533);
    too_large(&spread(&full, 65_533, "v640"));
    let owing = filler(4096 - 3) + "once x";
    check_refused(spread(&owing, 65_536, "").as_bytes(), 22, 65_536);
    assert_eq!(
        read(spread(&owing, 65_536, "").as_bytes()).limit,
        Some(Limit::Words)
    );
    too_large(&spread(&owing, 65_537, ""));
    check_refused(spread(&owing, 65_535, "; ").as_bytes(), 22, 65_535);
}

/// The three lent tables, each word of them 7.
fn lent() -> [Vec<i32>; 3] {
    [vec![7; 4096], vec![7; 4096], vec![7; 192]]
}

#[test]
fn words_are_written_from_the_start() {
    let [mut program, mut origins, mut names] = lent();
    let text = b"x.a := 5";
    let answer = read_into(text, &mut program, &mut origins, &mut names);
    let expected = Answer {
        outcome: 0,
        place: 8,
        variables: 1,
        labels: 1,
        words: 7,
    };
    assert_eq!(answer, expected);
    assert_eq!(program[..8], [1, 1, 0, 1, 0, 23, 5, 7]);
    assert_eq!(origins[..8], [0, 0, 0, 0, 2, 7, 7, 7]);
    assert!(program[7..].iter().all(|word| *word == 7));
    assert!(origins[7..].iter().all(|word| *word == 7));
    let reading = read(text);
    assert_eq!(names, reading.names);
}

#[test]
fn refusals_write_nothing() {
    let [mut program, mut origins, mut names] = lent();
    for (text, outcome, place) in [("x.a := !", 20, 7), ("x := 2147483648", 22, 5)] {
        let answer = read_into(text.as_bytes(), &mut program, &mut origins, &mut names);
        let expected = Answer {
            outcome,
            place,
            ..Answer::default()
        };
        assert_eq!(answer, expected);
        assert_eq!([&program, &origins, &names].map(Vec::clone), lent());
    }
}

#[test]
fn other_lengths_come_first() {
    for table in 0..3 {
        for change in [-1i32, 1] {
            let mut tables = lent();
            let length = tables[table].len() as i32 + change;
            tables[table].resize(length as usize, 7);
            let before = tables.clone();
            let [program, origins, names] = &mut tables;
            for text in ["skip", "!", "x := 2147483648"] {
                let answer = read_into(text.as_bytes(), program, origins, names);
                let expected = Answer {
                    outcome: 1,
                    ..Answer::default()
                };
                assert_eq!(answer, expected);
            }
            assert_eq!(tables, before);
        }
    }
}
