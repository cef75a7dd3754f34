//! Calls of the writer for the tests.
#![allow(dead_code)]

use reference::text::NAME_WORDS;
use reference::writer::{is_read_back, write, write_into, Answer, Writing};

/// What the lent bytes are before a call.
const FILL: u8 = 0x7e;

/// The bytes of a source and the table over it.
pub type Table = (Vec<u8>, Vec<i32>);

/// Names one behind the other in a source; labels are numbered from 64 on.
pub fn table(names: &[(usize, &str)]) -> Table {
    let (mut source, mut table) = (Vec::new(), vec![0; NAME_WORDS]);
    for (number, name) in names {
        table[2 * number] = source.len() as i32;
        table[2 * number + 1] = name.len() as i32;
        source.extend(name.as_bytes());
    }
    (source, table)
}

/// A source with places and lengths that are said one by one.
pub fn pairs(source: &[u8], pairs: &[(usize, i32, i32)]) -> Table {
    let mut table = vec![0; NAME_WORDS];
    for (number, place, length) in pairs {
        table[2 * number] = *place;
        table[2 * number + 1] = *length;
    }
    (source.to_vec(), table)
}

/// The call for so many lent bytes: a refusal leaves them as they were, as
/// the text leaves those behind it.
pub fn call(program: &[i32], (source, names): &Table, room: usize) -> (Answer, Writing) {
    let mut text = vec![FILL; room];
    let answer = write_into(program, source, names, &mut text);
    let writing = write(program, source, names, room);
    let told = Answer {
        outcome: writing.outcome,
        place: writing.place,
        variables: writing.variables,
        labels: writing.labels,
        bytes: writing.text.len(),
    };
    assert_eq!(answer, told, "for {program:?}");
    let (written, rest) = text.split_at(answer.bytes);
    assert_eq!(written, writing.text, "for {program:?}");
    assert!(rest.iter().all(|byte| *byte == FILL), "for {program:?}");
    if answer.outcome > 0 {
        let (outcome, place) = (answer.outcome, answer.place);
        let bare = Answer {
            outcome,
            place,
            ..Answer::default()
        };
        assert_eq!(answer, bare, "for {program:?}");
    }
    assert_eq!(writing.fault.is_some(), answer.outcome == 24);
    (answer, writing)
}

/// Written with names to a text, which is read back.
pub fn writes_with(names: &[(usize, &str)], program: &[i32], text: &str) -> Answer {
    let (answer, writing) = call(program, &table(names), text.len() + 7);
    let written = String::from_utf8_lossy(&writing.text).into_owned();
    assert_eq!(written, text, "for {program:?}, {answer:?}");
    assert_eq!((answer.outcome, answer.place), (0, program.len()));
    let (variables, labels) = (answer.variables, answer.labels);
    assert!(is_read_back(program, &writing.text, variables, labels));
    answer
}

/// Written without names to a text, which is read back.
pub fn writes(program: &[i32], text: &str) -> Answer {
    writes_with(&[], program, text)
}

/// An expression, assigned to a variable of its own.
pub fn expression(words: &[i32], text: &str) {
    let program = [&[1, 1, 0, 0], words].concat();
    writes(&program, &format!("v0 := {text}"));
}

/// Refused with a number and a place, whatever the room.
pub fn refused(program: &[i32], table: &Table, outcome: i32, place: usize) {
    for room in [0, 1, 100, 70_000] {
        let (answer, _) = call(program, table, room);
        let given = (answer.outcome, answer.place);
        assert_eq!(given, (outcome, place), "for {program:?}");
    }
}
