//! Texts for the tests, with a `|` where they are refused.
#![allow(dead_code)]

use reference::program::Program;
use reference::text::{read, Limit, Reading};

/// The text without its mark, and the place of that.
pub fn unmarked(marked: &str) -> (String, usize) {
    let place = marked.find('|').expect("a mark");
    (marked.replacen('|', "", 1), place)
}

/// A refusal has a number and a place, and nothing else.
pub fn check_refused(text: &[u8], outcome: i32, place: usize) -> Option<Limit> {
    let reading = read(text);
    let shown = String::from_utf8_lossy(text.get(..200).unwrap_or(text)).into_owned();
    let given = (reading.outcome, reading.place);
    assert_eq!(given, (outcome, place), "for {shown:?}");
    let limit = reading.limit;
    let bare = Reading {
        outcome,
        place,
        limit,
        ..Reading::default()
    };
    assert_eq!(reading, bare, "for {shown:?}");
    assert_eq!(limit.is_some(), outcome == 22);
    limit
}

/// Refused with a number at the mark.
pub fn refused(outcome: i32, marked: &str) -> Option<Limit> {
    let (text, place) = unmarked(marked);
    check_refused(text.as_bytes(), outcome, place)
}

/// Refused with 22 at the mark, by this limit.
pub fn past(limit: Limit, marked: &str) {
    assert_eq!(refused(22, marked), Some(limit), "for {marked:?}");
}

/// Accepted: the words are a program, and all lengths are as they should be.
pub fn accepted(text: &str) -> Reading {
    let reading = read(text.as_bytes());
    let shown = text.get(..200).unwrap_or(text);
    let given = (reading.outcome, reading.place);
    assert_eq!(given, (0, text.len()), "for {shown:?}");
    assert!(Program::decode(&reading.words).is_ok(), "for {shown:?}");
    assert_eq!(reading.origins.len(), reading.words.len());
    assert_eq!(reading.names.len(), 192);
    assert_eq!(reading.limit, None);
    reading
}

pub fn reads(text: &str, words: &[i32]) {
    assert_eq!(accepted(text).words, words, "for {text:?}");
}

/// The words of one expression, assigned to a variable of its own.
pub fn expression(text: &str, words: &[i32]) {
    let program = [&[1, 1, 0, 0], words].concat();
    reads(&format!("result := {text}"), &program);
}

/// As many words as wanted, 3 or more, with few bytes: a text that goes on
/// behind its last `;`. Its only variable is `x`, its statements at most 128.
pub fn filler(words: usize) -> String {
    let sum = format!("x:=1{};", "+1".repeat(15));
    let left = words - 1;
    let mut text = sum.repeat(left / 65);
    text.push_str(&"skip;".repeat(left % 65));
    text
}
