//! The texts that docs/DECISIONS.md shows, decisions 74 to 97, with their answers.

mod common;

use common::texts::{accepted, check_refused, expression, filler, reads};
use reference::text::read;

#[test]
fn texts_that_read() {
    reads("x := 1and 2", &[1, 1, 0, 0, 25, 10, 23, 1, 23, 2]);
    reads("news := if?", &[1, 1, 0, 0, 24, 1, 0]);
    reads("x := 007", &[1, 1, 0, 0, 23, 7]);
    reads("y := x -5", &[1, 1, 0, 0, 25, 2, 24, 1, 0, 23, 5]);
    reads("y := x - -5", &[1, 1, 0, 0, 25, 2, 24, 1, 0, 23, -5]);
    expression("1 + a == b", &[25, 1, 23, 1, 26, 1, 0, 2, 0]);
    reads("x := -2147483648", &[1, 1, 0, 0, 23, i32::MIN]);
    let reading = accepted("x.a := 5");
    let counts = (reading.place, reading.words.len());
    assert_eq!(counts, (8, 7));
    assert_eq!((reading.variables, reading.labels), (1, 1));
    let names = accepted("x := new {bytes: 64}").names;
    assert_eq!((&names[..2], &names[128..130]), (&[0, 1][..], &[10, 5][..]));
    assert_eq!(accepted("once ((-3))").origins, [0, 0, 5, 5, 7, 7]);
}

#[test]
fn texts_that_are_refused() {
    for (text, outcome, place) in [
        ("skip // end", 20, 5),
        ("x?y := 1", 20, 2),
        ("x.new := 1", 20, 2),
        ("x := - 5", 20, 5),
        ("x := --5", 20, 5),
        ("x :== 5", 20, 4),
        ("x := a ! b", 20, 7),
        ("x :=  ", 20, 6),
        ("skip;", 20, 5),
        ("x.a := new {}", 20, 7),
        ("x := new {a: 1,}", 20, 15),
        ("if x then {}", 20, 12),
        ("x := (a) == b", 20, 9),
        ("once required x == y", 20, 16),
        ("once (x == y)", 20, 8),
        ("once x == y and z", 20, 12),
        ("x := 2147483648; y := !", 22, 5),
        ("x := new {a: 1, a: 2}", 20, 16),
        ("x := y -2147483648", 22, 8),
        ("x.a := !", 20, 7),
    ] {
        check_refused(text.as_bytes(), outcome, place);
    }
}

#[test]
fn owed_words() {
    let start = filler(4093);
    for (end, place) in [
        ("once x", 6),
        ("once x; skip", 6),
        ("once x /\\ y", 7),
        ("once x = y", 7),
        ("once x == y", 10),
    ] {
        let text = format!("{start}{end}");
        check_refused(text.as_bytes(), 22, start.len() + place);
    }
    let text = format!("{}while true do {{once x}}", filler(4090));
    check_refused(text.as_bytes(), 22, text.len() - 1);
    let skips = "skip;".repeat(255);
    check_refused(format!("{skips} 5").as_bytes(), 20, skips.len() + 1);
    assert_eq!(read(format!("{skips} skip").as_bytes()).outcome, 22);
}
