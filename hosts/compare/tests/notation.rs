//! The call that reads texts, on every text of sheets/, on texts that are cut,
//! on every byte, on texts too long for a file, and on a short run.

mod common;

use common::sheets;
use compare::notation::{answer, compare, compare_text};
use std::fs;

/// The words of a sheet's first line.
fn program(input: &str) -> Vec<i32> {
    let line = input
        .lines()
        .next()
        .and_then(|line| line.strip_prefix("program="));
    let words = line.expect("a program").split_whitespace();
    words.map(|word| word.parse().expect("a word")).collect()
}

#[test]
fn every_text_gives_the_numbers_beside_it() {
    let (mut beside_sheets, mut beside_answers) = (0, 0);
    for file in sheets("text") {
        let text = fs::read(&file).expect("a text");
        compare_text(&text).unwrap_or_else(|text| panic!("{text}"));
        if let Ok(input) = fs::read_to_string(file.with_extension("in")) {
            let text = std::str::from_utf8(&text).expect("characters");
            let read = cordbasin::Program::read(text).unwrap_or_else(|refusal| panic!("{refusal}"));
            assert_eq!(read.words(), program(&input), "{}", file.display());
            beside_sheets += 1;
        }
        if let Ok(expected) = fs::read_to_string(file.with_extension("read")) {
            assert_eq!(answer(&text), expected, "{}", file.display());
            beside_answers += 1;
        }
    }
    assert_eq!((beside_sheets, beside_answers), (122, 250));
}

/// One text with most forms, and every text of sheets/ that is short, up to
/// each of their bytes.
#[test]
fn texts_that_are_cut_are_read_alike() {
    let text = b"x := new {a: -1, b?: (2 + x.a) * 3};\nif x == x then {} else {skip}; always weak x.a < 3 /\\ x.b? = 1";
    let mut texts = vec![text.to_vec()];
    texts.extend(
        sheets("text")
            .iter()
            .map(|file| fs::read(file).expect("a text")),
    );
    texts.retain(|text| text.len() < 400);
    for text in texts {
        for size in 0..=text.len() {
            compare_text(&text[..size]).unwrap_or_else(|text| panic!("{text}"));
        }
    }
}

/// Every byte where an operand, an operator and a statement are due, and in a
/// name, a number and a symbol.
#[test]
fn every_byte_is_read_alike() {
    for byte in 0..=255 {
        for (before, after) in [
            (&b"x := "[..], &b""[..]),
            (b"x := 1 ", b" 2"),
            (b"", b" := 1"),
            (b"x", b"y := 1"),
            (b"x := 1", b"2"),
            (b"once x :", b"= 1"),
            (b"once x <", b" 1"),
            (b"once x /", b" 1"),
        ] {
            let text = [before, &[byte], after].concat();
            compare_text(&text).unwrap_or_else(|text| panic!("{text}"));
        }
    }
}

#[test]
fn thirty_thousand_brackets_are_read() {
    for brackets in [1, 30_000] {
        let text = format!("x := {}7{}", "(".repeat(brackets), ")".repeat(brackets));
        assert_eq!(compare_text(text.as_bytes()), Ok((0, 6)));
    }
}

/// At 65,536 bytes and past them: with a space, and with a digit that goes on.
#[test]
fn texts_about_64_kib_are_read_alike() {
    for (start, end, reads, spaced, longer) in [
        ("skip", "", (0, 2), 22, 22),
        ("skip skip", "", (20, 0), 20, 20),
        ("x :=", "-5", (0, 6), 22, 22),
        ("skip", "yy", (20, 0), 20, 22),
    ] {
        let space = " ".repeat(65_536 - start.len() - end.len());
        let text = format!("{start}{space}{end}");
        assert_eq!(compare_text(text.as_bytes()), Ok(reads));
        for (more, outcome) in [(" ", spaced), ("7", longer)] {
            let text = format!("{text}{more}");
            assert_eq!(compare_text(text.as_bytes()), Ok((outcome, 0)));
        }
    }
}

/// The last statement has the last of 4,096 words, or one too many.
#[test]
fn texts_of_4096_words_are_read_alike() {
    let sums = format!("x:=1{};", "+1".repeat(15)).repeat(62);
    for (end, words) in [
        ("skip", 1),
        ("x := new {}", 3),
        ("once x == y", 5),
        ("once x", 6),
        ("if x then {} else {once x}", 12),
    ] {
        let room = "skip;".repeat(4096 - 1 - 62 * 65 - words);
        let text = format!("{sums}{room}{end}");
        assert_eq!(compare_text(text.as_bytes()), Ok((0, 4096)), "{end}");
        let text = format!("{sums}skip;{room}{end}");
        assert_eq!(compare_text(text.as_bytes()), Ok((22, 0)), "{end}");
    }
}

#[test]
fn texts_of_a_seed_are_read_alike() {
    let tally = compare(11, 3000).expect("the same");
    assert_eq!(
        tally.outcomes.keys().copied().collect::<Vec<_>>(),
        [0, 20, 21, 22]
    );
}
