//! The call that writes programs, on every program of sheets/, in every room,
//! with names of other lengths, and on a short run.

mod common;

use common::sheets;
use compare::writings::{call, compare, compare_case, Tally, OUTCOMES};
use reference::generator::writings::{in_order, WriteCase};
use reference::program::Program;
use std::fs;
use std::path::Path;

/// The program P of document 01.
const P: [i32; 33] = [
    3, 2, 0, 2, 0, 23, 64, 1, 23, 16, 3, 1, 3, 25, 6, 24, 0, 1, 0, 25, 3, 23, 4, 24, 0, 1, 1, 1, 0,
    1, 1, 23, 32,
];

/// A program without names of its own, and room for every text.
fn unnamed(program: Vec<i32>) -> WriteCase {
    WriteCase {
        program,
        source: Vec::new(),
        names: vec![0; 192],
        room: 65_536,
    }
}

/// The outcome and the bytes that both programs give and that come back.
fn written(case: &WriteCase) -> (i32, Vec<u8>) {
    let (answer, mut text) = compare_case(case).unwrap_or_else(|text| panic!("{text}"));
    text.truncate(answer.bytes);
    (answer.outcome, text)
}

/// The words of a list of numbers, if they are a program.
fn program(numbers: &str) -> Option<Vec<i32>> {
    let words: Result<Vec<i32>, _> = numbers.split_whitespace().map(str::parse).collect();
    words.ok().filter(|words| Program::decode(words).is_ok())
}

/// The programs of a lister's sheet, or of batch sheets, lists and askings.
fn programs(file: &Path) -> Vec<Vec<i32>> {
    let text = fs::read_to_string(file).expect("a sheet");
    let of_line = |line: &str| match line.strip_prefix("program=") {
        Some(words) => program(words),
        None => {
            let fields = line.strip_prefix("ask|").unwrap_or(line);
            program(fields.split_once('|')?.0)
        }
    };
    text.lines().filter_map(of_line).collect()
}

/// The program of a text with its names, if it reads.
fn named(file: &Path) -> Option<WriteCase> {
    let source = fs::read(file).expect("a text");
    let [mut program, mut origins, mut names] = [4096, 4096, 192].map(|words| vec![0; words]);
    let reading = cordbasin::read_words(&source, &mut program, &mut origins, &mut names);
    program.truncate(reading.words);
    let case = WriteCase {
        program,
        source,
        names,
        room: 65_536,
    };
    (reading.words > 0).then_some(case)
}

/// As they stand where their numbers run by first appearance, and otherwise
/// with other numbers.
#[test]
fn every_program_is_written_and_read_back() {
    let texts = sheets("text");
    let texts = texts.iter().filter_map(|file| named(file));
    let mut all: Vec<Vec<i32>> = texts.map(|case| case.program).collect();
    for ending in ["in", "txt"] {
        all.extend(sheets(ending).iter().flat_map(|file| programs(file)));
    }
    let (mut in_turn, mut renumbered, mut too_long) = (0, 0, 0);
    for program in all {
        let ordered = in_order(&program).expect("a program");
        if ordered == program {
            in_turn += 1;
        } else {
            assert_eq!(written(&unnamed(program)).0, 24);
            renumbered += 1;
        }
        match written(&unnamed(ordered)).0 {
            25 => too_long += 1,
            outcome => assert_eq!(outcome, 0),
        }
    }
    let counts = format!("{in_turn} in turn, {renumbered} renumbered");
    assert!(in_turn > 500 && renumbered > 10, "{counts}");
    assert_eq!(too_long, 2);
}

#[test]
fn every_text_is_written_with_its_names() {
    let texts: Vec<WriteCase> = sheets("text")
        .iter()
        .filter_map(|file| named(file))
        .collect();
    assert!(texts.len() > 200, "only {}", texts.len());
    for case in texts {
        assert_eq!(written(&case).0, 0, "{}", case.source.escape_ascii());
    }
}

#[test]
fn the_worked_sheet_has_its_text() {
    let text = "v0 := new {f0: 64, f1: 16};\n\
                always required v0.f0 = 4 * v0.f1;\n\
                v0.f1 := 32";
    assert_eq!(written(&unnamed(P.to_vec())), (0, text.into()));
    let source = b"core bytes samples".to_vec();
    let mut case = unnamed(P.to_vec());
    case.names[..2].copy_from_slice(&[0, 4]);
    case.names[128..132].copy_from_slice(&[5, 5, 11, 7]);
    case.source = source;
    let text = "core := new {bytes: 64, samples: 16};\n\
                always required core.bytes = 4 * core.samples;\n\
                core.samples := 32";
    assert_eq!(written(&case), (0, text.into()));
}

/// Too few bytes are refused with as many as the text has.
#[test]
fn a_text_fits_into_its_own_length() {
    let length = written(&unnamed(P.to_vec())).1.len();
    for room in 0..length + 3 {
        let case = WriteCase {
            room,
            ..unnamed(P.to_vec())
        };
        let (answer, _) = compare_case(&case).unwrap_or_else(|text| panic!("{text}"));
        let expected = match room < length {
            true => (25, length, 0),
            false => (0, P.len(), length),
        };
        assert_eq!((answer.outcome, answer.place, answer.bytes), expected);
    }
}

/// Over a program that does not read, too.
#[test]
fn names_of_other_lengths_are_refused() {
    for words in [0, 1, 128, 191, 193, 4096] {
        for program in [P.to_vec(), vec![1], Vec::new()] {
            let mut case = unnamed(program);
            case.names.resize(words, 0);
            let (answer, _) = compare_case(&case).unwrap_or_else(|text| panic!("{text}"));
            assert_eq!((answer.outcome, answer.place), (1, 0));
        }
    }
}

#[test]
fn programs_that_do_not_read_are_refused() {
    for (program, place) in [
        (vec![], 0),
        (vec![1], 1),
        (vec![1, 9], 1),
        (vec![0; 4097], 4096),
    ] {
        let case = unnamed(program);
        let (answer, _) = compare_case(&case).unwrap_or_else(|text| panic!("{text}"));
        assert_eq!((answer.outcome, answer.place), (2, place));
        assert_eq!(call(&case).0, answer);
    }
}

#[test]
fn writings_of_a_seed_are_the_same() {
    let tally = compare(11, 4000).expect("the same");
    assert!(tally.outcomes.keys().eq(&OUTCOMES), "{tally}");
    assert!(tally.is_met(40), "{tally}");
}

#[test]
fn an_outcome_that_is_rare_is_told() {
    let mut tally = Tally::default();
    tally
        .outcomes
        .extend(OUTCOMES.map(|outcome| (outcome, 1000)));
    assert!(tally.is_met(1000) && !tally.is_met(1001));
    tally.outcomes.remove(&24);
    assert!(!tally.is_met(1));
}
